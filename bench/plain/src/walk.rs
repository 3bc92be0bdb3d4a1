//! Follows a ground call along the branches that it takes at a base, with a linear form for each value.

use crate::code::{compares, Body, Code, Instruction, Linear, Source, Span, Test};
use crate::forms::{Form, Term};
use crate::plan::{Residual, Residuals};
use crate::syntax::Comparison;
use crate::template::Template;

/// A form that is kept while a call is followed. Its lists are parts of those of [`Known`].
#[derive(Clone, Copy)]
struct Kept {
    constant: i64,
    terms: Span,
    mixed: Span,
}

const ZERO: Kept = Kept { constant: 0, terms: Span { start: 0, length: 0 }, mixed: Span { start: 0, length: 0 } };

/// What temporaries and written objects are at a place of a call. `place_of` has one more than an object's place in `written`.
#[derive(Default)]
struct Known {
    temporaries: Vec<Kept>,
    written: Vec<(u32, Kept)>,
    place_of: Vec<u32>,
    terms: Vec<Term>,
    mixed: Vec<u32>,
}

impl Known {
    fn begin(&mut self, temporaries: u32) {
        self.temporaries.clear();
        self.temporaries.resize(temporaries as usize, ZERO);
        for (object, _) in self.written.drain(..) {
            self.place_of[object as usize] = 0;
        }
        self.terms.clear();
        self.mixed.clear();
    }

    #[inline]
    fn keep(&mut self, form: &Form) -> Kept {
        let (terms, mixed) = (self.terms.len(), self.mixed.len());
        self.terms.extend_from_slice(&form.terms);
        self.mixed.extend_from_slice(&form.mixed);
        let terms = Span::behind(terms, self.terms.len());
        Kept { constant: form.constant, terms, mixed: Span::behind(mixed, self.mixed.len()) }
    }

    #[inline]
    fn write(&mut self, object: u32, form: &Form) {
        let kept = self.keep(form);
        match self.place_of[object as usize] {
            0 => {
                self.written.push((object, kept));
                self.place_of[object as usize] = self.written.len() as u32;
            }
            place => self.written[place as usize - 1].1 = kept,
        }
    }

    #[inline]
    fn object(&self, object: u32) -> Option<Kept> {
        let place = self.place_of[object as usize];
        (place > 0).then(|| self.written[place as usize - 1].1)
    }
}

/// Room for following calls, which is used again for each.
pub struct Room {
    known: Known,
    value: Form,
    spare: Vec<Form>,
    is_mixed: bool,
}

impl Room {
    /// Room for calls over so many objects.
    pub fn new(objects: usize) -> Room {
        let known = Known { place_of: vec![0; objects], ..Known::default() };
        Room { known, value: Form::default(), spare: Vec::new(), is_mixed: false }
    }
}

/// A call that is followed. Its tests add clauses, and what its site prints and writes adds a residual.
pub struct Walk<'a> {
    pub code: &'a Code,
    pub base: &'a [i64],
    pub room: &'a mut Room,
    /// A bit for each site.
    pub everywhere: u16,
    /// A bit for each site but the call's own.
    pub others: u16,
    pub template: &'a mut Template,
    pub residuals: &'a mut Residuals,
}

impl Walk<'_> {
    /// Follows the call from its beginning to its end.
    pub fn follow(&mut self, body: Body) {
        self.room.known.begin(body.temporaries);
        self.room.is_mixed = false;
        let first = self.residuals.lines.len();
        self.run(body);
        let prints = Span::behind(first, self.residuals.lines.len());
        self.end_writes();
        let writes = Span::behind((prints.start + prints.length) as usize, self.residuals.lines.len());
        let residual = if self.room.is_mixed { Residual::Whole } else { Residual::Lines { prints, writes } };
        self.residuals.residuals.push(residual);
    }

    fn run(&mut self, body: Body) {
        let mut at = body.start;
        while at < body.end {
            let instruction = self.code.instructions[at as usize];
            at += 1;
            match instruction {
                Instruction::Assign { temporary, value } => {
                    self.form(value);
                    self.room.known.temporaries[temporary as usize] = self.room.known.keep(&self.room.value);
                }
                Instruction::Write { object, value } => {
                    self.form(value);
                    self.room.known.write(object, &self.room.value);
                }
                Instruction::WriteWithin { object, value } => self.write_within(object, value),
                Instruction::Print { value } => self.print(value),
                Instruction::Branch { tests, otherwise } => {
                    if self.all_hold(tests) {
                        self.keep_true(tests);
                    } else {
                        self.keep_false(tests);
                        at = otherwise;
                    }
                }
                Instruction::Jump { to } => at = to,
            }
        }
    }

    /// Writes within bounds, and keeps that the value stays within them, or on its side of the one that it is past.
    fn write_within(&mut self, object: u32, value: Linear) {
        self.form(value);
        let bounds = self.code.bounds[object as usize];
        let constant = self.room.value.constant;
        if bounds.hold(constant) {
            self.clause(-1, constant - bounds.low);
            self.clause(1, bounds.high - constant);
            self.room.known.write(object, &self.room.value);
        } else if constant < bounds.low {
            self.clause(1, bounds.low - constant - 1);
        } else {
            self.clause(-1, constant - bounds.high - 1);
        }
    }

    fn print(&mut self, value: Linear) {
        self.form(value);
        let objects = self.room.value.terms.iter().map(|term| term.object).chain(self.room.value.mixed.iter().copied());
        objects.for_each(|object| self.template.freeze(object, self.others));
        self.room.is_mixed |= !self.room.value.mixed.is_empty();
        self.residuals.add_print(self.room.value.constant, &self.room.value.terms);
    }

    /// Adds the lines of what was written. Where a delta depends on other sites' deltas, these are frozen.
    fn end_writes(&mut self) {
        for &(object, kept) in &self.room.known.written {
            let terms = kept.terms.of(&self.room.known.terms);
            let mixed = kept.mixed.of(&self.room.known.mixed);
            if !terms.contains(&Term { factor: 1, object }) {
                self.template.freeze(object, self.others);
            }
            let foreign = terms.iter().map(|term| term.object).filter(|&other| other != object);
            foreign.chain(mixed.iter().copied()).for_each(|other| self.template.freeze(other, self.others));
            self.room.is_mixed |= !mixed.is_empty();
            self.residuals.add_write(kept.constant - self.base[object as usize], object, terms);
        }
    }

    // ---- tests

    fn all_hold(&self, tests: Span) -> bool {
        tests.of(&self.code.tests).iter().all(|&test| self.holds(test))
    }

    fn holds(&self, test: Test) -> bool {
        match test {
            Test::Compare(comparison, difference) => compares(comparison, self.constant(difference)),
            Test::Not(inner) => !self.all_hold(inner),
        }
    }

    fn keep_true(&mut self, tests: Span) {
        for &test in tests.of(&self.code.tests) {
            match test {
                Test::Compare(comparison, difference) => self.keep_compared(comparison, difference),
                Test::Not(inner) => self.keep_false(inner),
            }
        }
    }

    /// Keeps the first test that fails failing.
    fn keep_false(&mut self, tests: Span) {
        let failing = tests.of(&self.code.tests).iter().find(|&&test| !self.holds(test));
        match failing {
            Some(&Test::Compare(comparison, difference)) => self.keep_failing(comparison, difference),
            Some(&Test::Not(inner)) => self.keep_true(inner),
            None => {}
        }
    }

    fn keep_compared(&mut self, comparison: Comparison, difference: Linear) {
        self.form(difference);
        let constant = self.room.value.constant;
        match comparison {
            Comparison::Less => self.clause(1, -constant - 1),
            Comparison::AtMost => self.clause(1, -constant),
            Comparison::Equal => {
                self.clause(1, -constant);
                self.clause(-1, constant);
            }
        }
    }

    fn keep_failing(&mut self, comparison: Comparison, difference: Linear) {
        self.form(difference);
        let constant = self.room.value.constant;
        match comparison {
            Comparison::Less => self.clause(-1, constant),
            Comparison::Equal if constant < 0 => self.clause(1, -constant - 1),
            Comparison::AtMost | Comparison::Equal => self.clause(-1, constant - 1),
        }
    }

    /// Adds the clause that a multiple of the form in hand, by 1 or -1, has this slack. What is mixed in it is frozen everywhere.
    #[inline]
    fn clause(&mut self, sign: i64, slack: i64) {
        self.template.add_clause(&self.room.value.terms, sign, slack);
        self.room.value.mixed.iter().for_each(|&object| self.template.freeze(object, self.everywhere));
    }

    // ---- values

    /// The value at the base.
    fn constant(&self, value: Linear) -> i64 {
        Look { code: self.code, base: self.base, known: &self.room.known }.constant(value)
    }

    /// Takes the form of a value in hand.
    #[inline]
    fn form(&mut self, value: Linear) {
        Look { code: self.code, base: self.base, known: &self.room.known }.form(value, &mut self.room.value, &mut self.room.spare);
    }
}

/// What values are looked up in.
struct Look<'a> {
    code: &'a Code,
    base: &'a [i64],
    known: &'a Known,
}

impl Look<'_> {
    fn constant(&self, value: Linear) -> i64 {
        value.parts.of(&self.code.parts).iter().fold(value.constant, |sum, part| {
            let constant = match part.source {
                Source::Object(object) => self.known.object(object).map_or(self.base[object as usize], |kept| kept.constant),
                Source::Temporary(temporary) => self.known.temporaries[temporary as usize].constant,
                Source::Product(product) => {
                    let factors = self.code.products[product as usize].of(&self.code.factors).iter();
                    factors.fold(1, |product: i64, factor| product.wrapping_mul(factor.scale).wrapping_mul(self.constant(factor.value)))
                }
            };
            sum.wrapping_add(part.factor.wrapping_mul(constant))
        })
    }

    /// Makes a form that of a value. The spare forms are room for products.
    fn form(&self, value: Linear, form: &mut Form, spare: &mut Vec<Form>) {
        form.clear();
        form.constant = value.constant;
        for part in value.parts.of(&self.code.parts) {
            match part.source {
                Source::Object(object) => match self.known.object(object) {
                    Some(kept) => self.add_kept(part.factor, kept, form),
                    None => form.add_object(part.factor, object, self.base[object as usize]),
                },
                Source::Temporary(temporary) => self.add_kept(part.factor, self.known.temporaries[temporary as usize], form),
                Source::Product(product) => self.add_product(part.factor, product, form, spare),
            }
        }
        form.settle();
    }

    #[inline]
    fn add_kept(&self, factor: i64, kept: Kept, form: &mut Form) {
        form.add(factor, kept.constant, kept.terms.of(&self.known.terms), kept.mixed.of(&self.known.mixed));
    }

    fn add_product(&self, factor: i64, product: u32, form: &mut Form, spare: &mut Vec<Form>) {
        let factors = self.code.products[product as usize].of(&self.code.factors);
        let mut product = spare.pop().unwrap_or_default();
        let mut other = spare.pop().unwrap_or_default();
        product.clear();
        product.constant = 1;
        for factor in factors {
            product.scale(factor.scale);
            self.form(factor.value, &mut other, spare);
            product.multiply(&mut other);
        }
        form.add(factor, product.constant, &product.terms, &product.mixed);
        spare.extend([product, other]);
    }
}
