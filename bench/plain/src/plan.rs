//! The plan of a round: what each ground call does by itself from the base on, and the template of what has to stay true for that.

use crate::code::{Code, Span};
use crate::forms::Term;
use crate::syntax::Workload;
use crate::template::Template;
use crate::walk::{Room, Walk};

/// What a site prints, or what becomes of its delta of an object: a constant, and terms over its own deltas.
#[derive(Clone, Copy)]
pub struct Line {
    pub constant: i64,
    pub object: u32,
    pub terms: Span,
    /// Whether the object's own delta is added.
    pub adds: bool,
}

/// What is left of a ground call in a round.
#[derive(Clone, Copy)]
pub enum Residual {
    /// The lines of its prints in order, and those of the objects that it writes.
    Lines { prints: Span, writes: Span },
    /// Something is mixed: the call is run as it is on the base and the site's own deltas.
    Whole,
}

/// The residuals of all ground calls, with what they name.
#[derive(Default)]
pub struct Residuals {
    pub residuals: Vec<Residual>,
    pub lines: Vec<Line>,
    pub terms: Vec<Term>,
}

impl Residuals {
    /// Takes all residuals out, and keeps the room.
    pub fn clear(&mut self) {
        self.residuals.clear();
        self.lines.clear();
        self.terms.clear();
    }

    /// Adds a line for a print.
    #[inline]
    pub fn add_print(&mut self, constant: i64, terms: &[Term]) {
        let start = self.terms.len();
        self.terms.extend_from_slice(terms);
        self.lines.push(Line { constant, object: 0, terms: Span::behind(start, self.terms.len()), adds: false });
    }

    /// Adds a line for a write. Most writes add to what there was.
    #[inline]
    pub fn add_write(&mut self, constant: i64, object: u32, terms: &[Term]) {
        let own = Term { factor: 1, object };
        let start = self.terms.len();
        self.terms.extend(terms.iter().filter(|&&term| term != own));
        let adds = self.terms.len() - start < terms.len();
        self.lines.push(Line { constant, object, terms: Span::behind(start, self.terms.len()), adds });
    }
}

/// A round's base, its template, and the residuals of all ground calls.
pub struct Plan {
    pub base: Vec<i64>,
    pub template: Template,
    pub residuals: Residuals,
    room: Room,
}

impl Plan {
    /// The plan of the first round.
    pub fn new(workload: &Workload, code: &Code) -> Plan {
        let objects = workload.objects.len();
        let mut plan = Plan {
            base: workload.objects.iter().map(|object| object.start).collect(),
            template: Template::new(workload.sites, objects),
            residuals: Residuals::default(),
            room: Room::new(objects),
        };
        plan.make(workload, code);
        plan
    }

    /// Makes everything anew for the base as it is now.
    pub fn make(&mut self, workload: &Workload, code: &Code) {
        self.template.clear();
        self.residuals.clear();
        let everywhere = u16::MAX >> (16 - workload.sites);
        for (call, &body) in workload.ground_calls.iter().zip(&code.bodies) {
            let Plan { base, template, residuals, room } = &mut *self;
            let others = everywhere & !(1 << call.site);
            Walk { code, base, room, everywhere, others, template, residuals }.follow(body);
        }
        self.template.finish();
    }
}
