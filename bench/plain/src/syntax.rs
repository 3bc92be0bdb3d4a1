//! A workload as it is read: its names are resolved to numbers.

use std::ops::Range;

/// The least and the greatest value of a number.
#[derive(Clone, Copy)]
pub struct Bounds {
    pub low: i64,
    pub high: i64,
}

impl Bounds {
    /// Whether a value is within the bounds.
    #[inline]
    pub fn hold(self, value: i64) -> bool {
        self.low <= value && value <= self.high
    }
}

/// A number of the database: a declared object, a field of a slot, or whether a slot is used.
pub struct Object {
    pub name: String,
    pub bounds: Bounds,
    pub start: i64,
}

/// A relation. Its objects stand slot by slot from `first` on: whether the slot is used, and then the fields.
pub struct Relation {
    pub first: u32,
    pub slots: u32,
    pub fields: Vec<Field>,
}

impl Relation {
    /// The object that says whether a slot is used.
    pub fn used(&self, slot: u32) -> u32 {
        self.first + slot * (self.fields.len() as u32 + 1)
    }

    /// The object of a field of a slot.
    pub fn object(&self, slot: u32, field: u32) -> u32 {
        self.used(slot) + 1 + field
    }
}

/// A field of a relation, or a parameter of a transaction.
pub struct Field {
    pub name: u32,
    pub bounds: Bounds,
}

/// A transaction. Its temporaries are numbered from 0.
pub struct Transaction {
    pub name: String,
    pub parameters: Vec<Field>,
    pub temporaries: u32,
    pub body: Vec<Command>,
}

/// A transaction with its arguments at a site.
pub struct GroundCall {
    pub transaction: u32,
    pub site: u32,
    pub arguments: Range<usize>,
    /// Where it stands first in the text.
    pub offset: usize,
}

/// A client, and which of all calls are its own.
pub struct Client {
    pub name: String,
    pub site: u32,
    pub calls: Range<usize>,
}

/// A whole text.
#[derive(Default)]
pub struct Workload {
    pub sites: u32,
    pub objects: Vec<Object>,
    pub relations: Vec<Relation>,
    pub transactions: Vec<Transaction>,
    pub clients: Vec<Client>,
    /// The ground call of each call, client by client.
    pub calls: Vec<u32>,
    pub ground_calls: Vec<GroundCall>,
    /// The arguments of all ground calls.
    pub arguments: Vec<i64>,
    /// The clients in the order in which they make their calls.
    pub schedule: Vec<u32>,
}

/// An expression. A row is the number of its variable among those that hold the place, from the outermost on.
pub enum Expression {
    Number(i64),
    Parameter(u32),
    Temporary(u32),
    Read(u32),
    RowField { relation: u32, row: u32, field: u32 },
    Indexed { relation: u32, index: Box<Expression>, field: u32 },
    Count { relation: u32, condition: Vec<Test> },
    Total { relation: u32, field: u32, condition: Vec<Test> },
    Sum(Vec<Expression>),
    Product(Vec<Expression>),
    Negation(Box<Expression>),
}

/// A test of a condition.
pub enum Test {
    True,
    Not(Vec<Test>),
    Compare(Comparison, Expression, Expression),
}

/// How two values are compared.
#[derive(Clone, Copy, PartialEq, Eq)]
pub enum Comparison {
    Less,
    AtMost,
    Equal,
}

/// A command.
pub enum Command {
    Skip,
    Block(Vec<Command>),
    Assign { temporary: u32, value: Expression },
    Write { object: u32, value: Expression },
    Print(Expression),
    If { condition: Vec<Test>, then: Box<Command>, otherwise: Box<Command> },
    SetIndexed { relation: u32, index: Expression, field: u32, value: Expression },
    SetRow { relation: u32, row: u32, field: u32, value: Expression },
    Foreach { relation: u32, condition: Vec<Test>, body: Vec<Command> },
    Insert { relation: u32, values: Vec<(u32, Expression)>, target: u32 },
    Delete { relation: u32, condition: Vec<Test> },
    Update { relation: u32, condition: Vec<Test>, field: u32, value: Expression },
}
