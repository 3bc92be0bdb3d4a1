//! Lowered ground calls: straight lists of instructions over objects and temporaries, with arguments put in and loops unrolled.

use crate::syntax::{Bounds, Comparison};

/// A part of one of the lists that [`Code`] has.
#[derive(Clone, Copy)]
pub struct Span {
    pub start: u32,
    pub length: u32,
}

impl Span {
    /// The span from `start` to the end of a list of this length.
    pub fn behind(start: usize, end: usize) -> Span {
        Span { start: start as u32, length: (end - start) as u32 }
    }

    /// The items of the span.
    #[inline(always)]
    pub fn of<T>(self, list: &[T]) -> &[T] {
        &list[self.start as usize..][..self.length as usize]
    }
}

/// A constant, and the parts that are added to it.
#[derive(Clone, Copy)]
pub struct Linear {
    pub constant: i64,
    pub parts: Span,
}

impl Linear {
    /// A number.
    pub fn number(constant: i64) -> Linear {
        Linear { constant, parts: Span { start: 0, length: 0 } }
    }

    /// Whether it is a number.
    pub fn is_number(self) -> bool {
        self.parts.length == 0
    }

    /// What it is with a number added.
    pub fn plus(self, number: i64) -> Linear {
        Linear { constant: self.constant + number, parts: self.parts }
    }
}

/// A factor and what it multiplies. The factor may be 0: what is mixed in the source counts all the same.
#[derive(Clone, Copy)]
pub struct Part {
    pub factor: i64,
    pub source: Source,
}

/// A factor of a product. What stands before it is multiplied by a scale first.
#[derive(Clone, Copy)]
pub struct Factor {
    pub scale: i64,
    pub value: Linear,
}

/// What a part multiplies.
#[derive(Clone, Copy)]
pub enum Source {
    Object(u32),
    Temporary(u32),
    Product(u32),
}

/// A test of a condition. A comparison compares a difference with 0.
#[derive(Clone, Copy)]
pub enum Test {
    Compare(Comparison, Linear),
    Not(Span),
}

/// Whether a difference is less than 0, at most 0 or 0.
#[inline(always)]
pub fn compares(comparison: Comparison, difference: i64) -> bool {
    match comparison {
        Comparison::Less => difference < 0,
        Comparison::AtMost => difference <= 0,
        Comparison::Equal => difference == 0,
    }
}

/// An instruction. `WriteWithin` writes where the value is within the object's bounds; `Branch` goes on where all tests hold.
#[derive(Clone, Copy)]
pub enum Instruction {
    Assign { temporary: u32, value: Linear },
    Write { object: u32, value: Linear },
    WriteWithin { object: u32, value: Linear },
    Print { value: Linear },
    Branch { tests: Span, otherwise: u32 },
    Jump { to: u32 },
}

/// The instructions of a ground call.
#[derive(Clone, Copy)]
pub struct Body {
    pub start: u32,
    pub end: u32,
    pub temporaries: u32,
}

/// All ground calls, and what their instructions name.
#[derive(Default)]
pub struct Code {
    pub instructions: Vec<Instruction>,
    pub tests: Vec<Test>,
    pub parts: Vec<Part>,
    pub factors: Vec<Factor>,
    /// The factors of each product, from left to right.
    pub products: Vec<Span>,
    pub bodies: Vec<Body>,
    /// The bounds of all objects.
    pub bounds: Vec<Bounds>,
}
