//! The template of a round: its clauses and its freezes, and what a site may do of it.

use std::hint;
use std::iter;

use crate::code::Span;
use crate::forms::Term;
use crate::hash::{self, Numbers};

/// How many clauses may wait to be looked up together.
const MOST_WAITING: usize = 64;

/// What of a treaty a call would break: its number, what the site's deltas would come to, and what they may.
pub struct Finding {
    pub number: usize,
    pub sum: i128,
    pub bound: i64,
}

/// A clause: its terms, summed over all sites, are at most its slack. Most have one term alone.
#[derive(Clone, Copy)]
pub struct Clause {
    pub slack: i64,
    first: Term,
    rest: Span,
}

/// The clauses of a round, each once and in the order in which they were found, and the sites at which each object's delta stays 0.
///
/// Clauses are looked up some at a time, so that the table's memory is on its way for all of them before the first one needs it.
pub struct Template {
    sites: u32,
    clauses: Vec<Clause>,
    /// All terms but the first ones, of the clauses and then of those that wait.
    rests: Vec<Term>,
    rests_end: usize,
    waiting: Vec<(u64, Clause)>,
    known: Numbers,
    frozen: Vec<u16>,
    /// Object by object, the clauses that have a term on it; those of object `x` begin at `first_users[x]`.
    users: Vec<u32>,
    first_users: Vec<u32>,
}

impl Template {
    /// A template without clauses and freezes.
    pub fn new(sites: u32, objects: usize) -> Template {
        Template {
            sites,
            clauses: Vec::new(),
            rests: Vec::new(),
            rests_end: 0,
            waiting: Vec::with_capacity(MOST_WAITING),
            known: Numbers::new(),
            frozen: vec![0; objects],
            users: Vec::new(),
            first_users: vec![0; objects + 1],
        }
    }

    /// Takes all clauses and freezes out, and keeps the room.
    pub fn clear(&mut self) {
        self.clauses.clear();
        self.rests.clear();
        self.rests_end = 0;
        self.known.clear();
        self.frozen.fill(0);
    }

    /// Adds a clause with the terms or with their negations, where there is none that is equal, and nothing where there are no terms.
    #[inline]
    pub fn add_clause(&mut self, terms: &[Term], sign: i64, slack: i64) {
        let Some((first, rest)) = terms.split_first() else { return };
        if self.waiting.len() == MOST_WAITING {
            self.look_up();
        }
        let first = Term { factor: sign * first.factor, object: first.object };
        let mut hash = hash::mix(hash::mix(slack as u64, first.factor as u64), u64::from(first.object));
        let start = self.rests.len();
        for term in rest {
            let term = Term { factor: sign * term.factor, object: term.object };
            hash = hash::mix(hash::mix(hash, term.factor as u64), u64::from(term.object));
            self.rests.push(term);
        }
        self.waiting.push((hash, Clause { slack, first, rest: Span::behind(start, self.rests.len()) }));
    }

    /// Adds those of the clauses that wait to which no other is equal.
    fn look_up(&mut self) {
        hint::black_box(self.waiting.iter().fold(0, |slots, &(hash, _)| slots | self.known.slot(hash)));
        for (hash, mut clause) in self.waiting.drain(..) {
            let (clauses, rests) = (&self.clauses, &self.rests);
            let is_equal = |number: u32| {
                let other = &clauses[number as usize];
                other.slack == clause.slack && other.first == clause.first && other.rest.of(rests) == clause.rest.of(rests)
            };
            if self.known.find_or_put(hash, self.clauses.len() as u32, is_equal).is_none() {
                let start = clause.rest.start as usize;
                self.rests.copy_within(start..start + clause.rest.length as usize, self.rests_end);
                clause.rest.start = self.rests_end as u32;
                self.rests_end += clause.rest.length as usize;
                self.clauses.push(clause);
            }
        }
        self.rests.truncate(self.rests_end);
    }

    /// Freezes the deltas of an object at some sites.
    #[inline]
    pub fn freeze(&mut self, object: u32, sites: u16) {
        self.frozen[object as usize] |= sites;
    }

    /// Ends the adding, and lists the clauses by object.
    pub fn finish(&mut self) {
        self.look_up();
        let Template { clauses, rests, users, first_users, .. } = self;
        first_users.fill(0);
        for object in clauses.iter().map(|clause| clause.first.object).chain(rests.iter().map(|term| term.object)) {
            first_users[object as usize] += 1;
        }
        let mut end = 0;
        for first in first_users.iter_mut() {
            end += *first;
            *first = end;
        }
        users.resize(clauses.len() + rests.len(), 0);
        for (number, clause) in clauses.iter().enumerate().rev() {
            for term in iter::once(&clause.first).chain(clause.rest.of(rests)) {
                let first = &mut first_users[term.object as usize];
                *first -= 1;
                users[*first as usize] = number as u32;
            }
        }
    }

    /// All clauses, in order.
    pub fn clauses(&self) -> &[Clause] {
        &self.clauses
    }

    /// The terms of a clause.
    pub fn terms(&self, clause: Clause) -> impl Iterator<Item = Term> + '_ {
        iter::once(clause.first).chain(clause.rest.of(&self.rests).iter().copied())
    }

    /// What each site may use of a slack: even parts, of which the sites up to each one have the floor of what is due to them.
    pub fn bounds(&self, slack: i64) -> impl Iterator<Item = i64> {
        let sites = self.sites;
        let (share, left) = (slack / i64::from(sites), (slack % i64::from(sites)) as u32);
        (0..sites).map(move |site| share + i64::from(left * (site + 1) / sites - left * site / sites))
    }

    /// The frozen deltas, in the order of objects and sites.
    pub fn freezes(&self) -> impl Iterator<Item = (usize, u32)> + '_ {
        let sites = self.sites;
        let frozen = self.frozen.iter().enumerate().filter(|(_, &mask)| mask != 0);
        frozen.flat_map(move |(object, &mask)| (0..sites).filter(move |site| mask >> site & 1 == 1).map(move |site| (object, site)))
    }

    /// What of a site's treaty is broken first, where the deltas of some objects have changed and nothing was broken before.
    pub fn broken(&self, site: u32, deltas: &[i64], changed: impl Iterator<Item = u32> + Clone) -> Option<Finding> {
        let clause = changed.clone().fold(None, |found: Option<Finding>, object| {
            let end = found.as_ref().map_or(usize::MAX, |finding| finding.number);
            self.broken_clause(site, deltas, object, end).or(found)
        });
        clause.or_else(|| self.broken_freeze(site, deltas, changed))
    }

    /// The first clause on an object that is broken, of those before `end`.
    fn broken_clause(&self, site: u32, deltas: &[i64], object: u32, end: usize) -> Option<Finding> {
        let users = self.first_users[object as usize] as usize..self.first_users[object as usize + 1] as usize;
        let numbers = self.users[users].iter().map(|&number| number as usize);
        let product = |term: &Term| i128::from(term.factor) * i128::from(deltas[term.object as usize]);
        numbers.take_while(|&number| number < end).find_map(|number| {
            let clause = &self.clauses[number];
            let mut sum = product(&clause.first);
            if clause.rest.length > 0 {
                sum += clause.rest.of(&self.rests).iter().map(product).sum::<i128>();
            }
            if sum <= 0 || sum * i128::from(self.sites) <= i128::from(clause.slack) {
                return None;
            }
            let bound = self.bounds(clause.slack).nth(site as usize)?;
            (sum > i128::from(bound)).then_some(Finding { number, sum, bound })
        })
    }

    #[inline]
    fn broken_freeze(&self, site: u32, deltas: &[i64], changed: impl Iterator<Item = u32>) -> Option<Finding> {
        let is_broken = |&object: &u32| self.frozen[object as usize] >> site & 1 == 1 && deltas[object as usize] != 0;
        let object = changed.filter(is_broken).min()? as usize;
        let before: u32 = self.frozen[..object].iter().map(|mask| mask.count_ones()).sum();
        let below = (self.frozen[object] & ((1 << site) - 1)).count_ones();
        let number = self.clauses.len() + (before + below) as usize;
        Some(Finding { number, sum: i128::from(deltas[object]), bound: 0 })
    }
}
