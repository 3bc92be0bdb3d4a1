//! The text of the first round's template and of the bounds.

use crate::forms::Term;
use crate::plan::Plan;
use crate::program::Program;
use crate::template::Template;
use crate::text;

/// What each site may do by itself from the starting values on.
pub fn treaty(program: &Program) -> Vec<u8> {
    let template = Plan::new(&program.workload, &program.code).template;
    let terms = vec![(0, Vec::new()); program.workload.objects.len() * 2];
    let mut writer = Writer { out: Vec::new(), program, template: &template, terms };
    writer.clauses();
    writer.freezes();
    writer.out
}

struct Writer<'a> {
    out: Vec<u8>,
    program: &'a Program,
    template: &'a Template,
    /// For each object and sign the factor of the last term that was written, and the terms' text.
    terms: Vec<(i64, Vec<u8>)>,
}

impl Writer<'_> {
    fn clauses(&mut self) {
        self.item(b"clauses ", self.template.clauses().len() as i64);
        for (number, &clause) in self.template.clauses().iter().enumerate() {
            self.item(b"\n", number as i64);
            self.item(b" slack ", clause.slack);
            self.bounds(clause.slack);
            self.out.extend_from_slice(b" form");
            for term in self.template.terms(clause) {
                self.term(term);
            }
        }
        self.out.push(b'\n');
    }

    /// Writes the bounds, of which one is written as the one before it where they are equal.
    fn bounds(&mut self, slack: i64) {
        self.out.extend_from_slice(b" bounds");
        let mut last = None;
        let mut start = 0;
        for bound in self.template.bounds(slack) {
            if last == Some(bound) {
                let end = self.out.len();
                self.out.extend_from_within(start..end);
                start = end;
            } else {
                start = self.out.len();
                self.item(b" ", bound);
                last = Some(bound);
            }
        }
    }

    fn term(&mut self, term: Term) {
        let place = term.object as usize * 2 + usize::from(term.factor < 0);
        if self.terms[place].0 != term.factor {
            self.terms[place] = (term.factor, self.term_text(term));
        }
        self.out.extend_from_slice(&self.terms[place].1);
    }

    fn term_text(&self, term: Term) -> Vec<u8> {
        let name = &self.program.workload.objects[term.object as usize].name;
        let sites = 0..self.program.workload.sites;
        sites.map(|site| format!(" {}*{name}@{site}", term.factor)).collect::<String>().into_bytes()
    }

    fn freezes(&mut self) {
        let clauses = self.template.clauses().len();
        self.item(b"freezes ", self.template.freezes().count() as i64);
        for (place, (object, site)) in self.template.freezes().enumerate() {
            self.item(b"\n", (clauses + place) as i64);
            self.out.push(b' ');
            self.delta(object, site);
        }
        self.out.push(b'\n');
    }

    fn delta(&mut self, object: usize, site: u32) {
        self.out.extend_from_slice(self.program.workload.objects[object].name.as_bytes());
        self.item(b"@", i64::from(site));
    }

    fn item(&mut self, words: &[u8], number: i64) {
        self.out.extend_from_slice(words);
        text::write_number(&mut self.out, number);
    }
}
