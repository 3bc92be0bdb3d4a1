//! A workload that is ready to be run: its code, and the texts with which its calls are told.

use crate::code::Code;
use crate::lowering;
use crate::parser::Reading;
use crate::syntax::{GroundCall, Workload};
use crate::text;

/// A workload with its code. Nothing in it changes in a run.
pub struct Program {
    pub workload: Workload,
    pub code: Code,
    /// Each ground call as it stands in a report, as ` buy(1):`.
    labels: Vec<Vec<u8>>,
}

impl Program {
    /// Lowers a workload.
    pub fn new(workload: Workload) -> Reading<Program> {
        let code = lowering::lower(&workload)?;
        let labels = workload.ground_calls.iter().map(|call| label(&workload, call)).collect();
        Ok(Program { workload, code, labels })
    }

    /// The ground call of a client's call; the calls are counted from 0.
    #[inline]
    pub fn ground_call(&self, client: u32, position: usize) -> usize {
        self.workload.calls[self.workload.clients[client as usize].calls.start + position] as usize
    }

    /// How many calls a client has.
    pub fn count(&self, client: u32) -> usize {
        self.workload.clients[client as usize].calls.len()
    }

    /// Writes the line of a call.
    #[inline]
    pub fn write_entry(&self, out: &mut Vec<u8>, client: u32, position: usize, prints: &[i64]) {
        out.extend_from_slice(self.workload.clients[client as usize].name.as_bytes());
        out.push(b' ');
        text::write_number(out, position as i64 + 1);
        out.extend_from_slice(&self.labels[self.ground_call(client, position)]);
        for &number in prints {
            out.push(b' ');
            text::write_number(out, number);
        }
        out.push(b'\n');
    }
}

fn label(workload: &Workload, call: &GroundCall) -> Vec<u8> {
    let name = &workload.transactions[call.transaction as usize].name;
    let arguments: Vec<String> = workload.arguments[call.arguments.clone()].iter().map(i64::to_string).collect();
    format!(" {name}({}):", arguments.join(", ")).into_bytes()
}
