//! Runs the instructions of a ground call on the numbers of a database.

use crate::code::{compares, Body, Code, Instruction, Linear, Source, Span, Test};

/// The numbers that a run reads and writes.
pub trait Store {
    /// The value of an object.
    fn read(&self, object: u32) -> i64;
    /// Sets an object.
    fn write(&mut self, object: u32, value: i64);
}

impl Store for Vec<i64> {
    fn read(&self, object: u32) -> i64 {
        self[object as usize]
    }

    fn write(&mut self, object: u32, value: i64) {
        self[object as usize] = value;
    }
}

/// Runs a body, and puts what it prints behind `prints`. The temporaries are room that is used again.
pub fn execute(code: &Code, body: Body, store: &mut impl Store, temporaries: &mut Vec<i64>, prints: &mut Vec<i64>) {
    temporaries.clear();
    temporaries.resize(body.temporaries as usize, 0);
    let mut at = body.start;
    while at < body.end {
        let instruction = code.instructions[at as usize];
        at += 1;
        match instruction {
            Instruction::Assign { temporary, value } => temporaries[temporary as usize] = evaluate(code, value, store, temporaries),
            Instruction::Write { object, value } => {
                let value = evaluate(code, value, store, temporaries);
                store.write(object, value);
            }
            Instruction::WriteWithin { object, value } => {
                let value = evaluate(code, value, store, temporaries);
                if code.bounds[object as usize].hold(value) {
                    store.write(object, value);
                }
            }
            Instruction::Print { value } => prints.push(evaluate(code, value, store, temporaries)),
            Instruction::Branch { tests, otherwise } => {
                if !all_hold(code, tests, store, temporaries) {
                    at = otherwise;
                }
            }
            Instruction::Jump { to } => at = to,
        }
    }
}

fn all_hold(code: &Code, tests: Span, store: &impl Store, temporaries: &[i64]) -> bool {
    tests.of(&code.tests).iter().all(|test| match *test {
        Test::Compare(comparison, difference) => compares(comparison, evaluate(code, difference, store, temporaries)),
        Test::Not(inner) => !all_hold(code, inner, store, temporaries),
    })
}

fn evaluate(code: &Code, value: Linear, store: &impl Store, temporaries: &[i64]) -> i64 {
    value.parts.of(&code.parts).iter().fold(value.constant, |sum, part| {
        let value = match part.source {
            Source::Object(object) => store.read(object),
            Source::Temporary(temporary) => temporaries[temporary as usize],
            Source::Product(product) => code.products[product as usize].of(&code.factors).iter().fold(1, |product: i64, factor| {
                product.wrapping_mul(factor.scale).wrapping_mul(evaluate(code, factor.value, store, temporaries))
            }),
        };
        sum.wrapping_add(part.factor.wrapping_mul(value))
    })
}
