//! The rounds of a run: the open one with its plan, and the report of those that are closed.

use std::ops::DerefMut;

use crate::execution::execute;
use crate::plan::Plan;
use crate::program::Program;
use crate::site::Site;
use crate::template::Finding;
use crate::text;

/// The open round and the report so far.
pub struct Rounds {
    /// The plan of the open round.
    pub plan: Plan,
    report: Vec<u8>,
    closed: usize,
    site_lines: Vec<Vec<u8>>,
    prints: Vec<i64>,
    temporaries: Vec<i64>,
}

impl Rounds {
    /// The first round.
    pub fn new(program: &Program) -> Rounds {
        Rounds {
            plan: Plan::new(&program.workload, &program.code),
            report: Vec::new(),
            closed: 0,
            site_lines: (0..program.workload.sites).map(|site| format!("site {site}\n").into_bytes()).collect(),
            prints: Vec::new(),
            temporaries: Vec::new(),
        }
    }

    /// Ends the open round by a client's call, which runs on what all sites come to, and plans the next one.
    pub fn close(
        &mut self,
        program: &Program,
        sites: impl Iterator<Item = impl DerefMut<Target = Site>>,
        (client, position): (u32, usize),
        finding: &Finding,
    ) {
        self.gather(sites);
        self.write_closing(program.workload.clients[client as usize].site, finding);
        self.prints.clear();
        let body = program.code.bodies[program.ground_call(client, position)];
        execute(&program.code, body, &mut self.plan.base, &mut self.temporaries, &mut self.prints);
        program.write_entry(&mut self.report, client, position, &self.prints);
        self.closed += 1;
        self.plan.make(&program.workload, &program.code);
    }

    /// The whole report, once all calls are made.
    pub fn finish(mut self, program: &Program, sites: impl Iterator<Item = impl DerefMut<Target = Site>>) -> Vec<u8> {
        self.gather(sites);
        self.report.extend_from_slice(b"database\n");
        for (object, &value) in program.workload.objects.iter().zip(&self.plan.base) {
            self.report.extend_from_slice(object.name.as_bytes());
            write_item(&mut self.report, b" = ", i128::from(value));
            self.report.push(b'\n');
        }
        write_item(&mut self.report, b"rounds ", self.closed as i128 + 1);
        write_item(&mut self.report, b" calls ", program.workload.calls.len() as i128);
        self.report.push(b'\n');
        self.report
    }

    /// Brings all sites to one state, the plan's base, and writes what they made.
    fn gather(&mut self, sites: impl Iterator<Item = impl DerefMut<Target = Site>>) {
        write_item(&mut self.report, b"round ", self.closed as i128);
        self.report.push(b'\n');
        for (mut site, line) in sites.zip(&self.site_lines) {
            self.report.extend_from_slice(line);
            site.end_round(&mut self.plan.base, &mut self.report);
        }
    }

    fn write_closing(&mut self, site: u32, finding: &Finding) {
        write_item(&mut self.report, b"close ", i128::from(site));
        write_item(&mut self.report, b" clause ", finding.number as i128);
        write_item(&mut self.report, b" sum ", finding.sum);
        write_item(&mut self.report, b" bound ", i128::from(finding.bound));
        self.report.push(b'\n');
    }
}

fn write_item(report: &mut Vec<u8>, words: &[u8], number: i128) {
    report.extend_from_slice(words);
    text::write_wide_number(report, number);
}
