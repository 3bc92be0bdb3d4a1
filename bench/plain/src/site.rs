//! A site: its deltas in the open round, and what it made by itself.

use crate::code::Code;
use crate::execution::{execute, Store};
use crate::plan::{Line, Plan, Residual, Residuals};
use crate::program::Program;
use crate::template::Finding;

/// A site in a round.
pub struct Site {
    number: u32,
    deltas: Vec<i64>,
    /// The objects whose deltas may be other than 0.
    touched: Vec<u32>,
    /// The lines of the calls that were made.
    segment: Vec<u8>,
    /// What the call in hand changed: objects, with the deltas that they had.
    changes: Vec<(u32, i64)>,
    writes: Vec<i64>,
    prints: Vec<i64>,
    temporaries: Vec<i64>,
}

/// The base with a site's own deltas.
struct OwnNumbers<'a> {
    base: &'a [i64],
    deltas: &'a mut [i64],
    changes: &'a mut Vec<(u32, i64)>,
}

impl Store for OwnNumbers<'_> {
    fn read(&self, object: u32) -> i64 {
        self.base[object as usize] + self.deltas[object as usize]
    }

    fn write(&mut self, object: u32, value: i64) {
        self.changes.push((object, self.deltas[object as usize]));
        self.deltas[object as usize] = value - self.base[object as usize];
    }
}

impl Site {
    /// A site whose deltas are 0.
    pub fn new(number: u32, objects: usize) -> Site {
        Site {
            number,
            deltas: vec![0; objects],
            touched: Vec::new(),
            segment: Vec::new(),
            changes: Vec::new(),
            writes: Vec::new(),
            prints: Vec::new(),
            temporaries: Vec::new(),
        }
    }

    /// Makes a call where the site's treaty holds behind it. Otherwise nothing changes, and it says what the call would break.
    pub fn make(&mut self, program: &Program, plan: &Plan, client: u32, position: usize) -> Result<(), Finding> {
        self.changes.clear();
        self.prints.clear();
        let ground_call = program.ground_call(client, position);
        match plan.residuals.residuals[ground_call] {
            Residual::Lines { prints, writes } => {
                let lines = &plan.residuals.lines;
                self.run_lines(&plan.residuals, prints.of(lines), writes.of(lines));
            }
            Residual::Whole => self.run_whole(&program.code, &plan.base, ground_call),
        }
        let changed = self.changes.iter().map(|&(object, _)| object);
        if let Some(finding) = plan.template.broken(self.number, &self.deltas, changed) {
            self.undo();
            return Err(finding);
        }
        self.touched.extend(self.changes.iter().filter(|&&(_, delta)| delta == 0).map(|&(object, _)| object));
        program.write_entry(&mut self.segment, client, position, &self.prints);
        Ok(())
    }

    fn run_lines(&mut self, residuals: &Residuals, prints: &[Line], writes: &[Line]) {
        let deltas = &self.deltas;
        let value = |line: &Line| {
            let terms = line.terms.of(&residuals.terms);
            let start = if line.adds { line.constant + deltas[line.object as usize] } else { line.constant };
            terms.iter().fold(start, |sum, term| sum + term.factor * deltas[term.object as usize])
        };
        self.prints.extend(prints.iter().map(value));
        self.writes.clear();
        self.writes.extend(writes.iter().map(value));
        for (line, &delta) in writes.iter().zip(&self.writes) {
            let kept = std::mem::replace(&mut self.deltas[line.object as usize], delta);
            if kept != delta {
                self.changes.push((line.object, kept));
            }
        }
    }

    fn run_whole(&mut self, code: &Code, base: &[i64], ground_call: usize) {
        let mut numbers = OwnNumbers { base, deltas: &mut self.deltas, changes: &mut self.changes };
        execute(code, code.bodies[ground_call], &mut numbers, &mut self.temporaries, &mut self.prints);
    }

    fn undo(&mut self) {
        for &(object, delta) in self.changes.iter().rev() {
            self.deltas[object as usize] = delta;
        }
    }

    /// Ends the site's part of a round: adds its deltas to the base and its lines to the report.
    pub fn end_round(&mut self, base: &mut [i64], report: &mut Vec<u8>) {
        report.append(&mut self.segment);
        for object in self.touched.drain(..) {
            base[object as usize] += std::mem::take(&mut self.deltas[object as usize]);
        }
    }
}
