//! Lowers each ground call of a workload to instructions.

use crate::code::{compares, Body, Code, Factor, Instruction, Linear, Part, Source, Span, Test};
use crate::parser::{Reading, Refusal};
use crate::syntax::{self, Bounds, Command, Comparison, Expression, Relation, Workload};

/// A ground call whose code is larger than that is too large for homeo as well.
const MOST_CODE: usize = 400_000;
/// So are all ground calls together.
const MOST_TOGETHER: usize = 4_000_000;
/// How often a part may be copied into the products that it stands in.
const MOST_COPIES: usize = 32;

/// The instructions of all ground calls. Calls are refused that would take too much memory.
pub fn lower(workload: &Workload) -> Reading<Code> {
    let bounds = workload.objects.iter().map(|object| object.bounds).collect();
    let mut code = Code { bounds, ..Code::default() };
    for call in &workload.ground_calls {
        let transaction = &workload.transactions[call.transaction as usize];
        let size_before = size(&code);
        let mut lowering = Lowering {
            relations: &workload.relations,
            arguments: &workload.arguments[call.arguments.clone()],
            code,
            visited: Vec::new(),
            parts: Vec::new(),
            factors: Vec::new(),
            tests: Vec::new(),
            temporaries: transaction.temporaries,
            limit: (size_before + MOST_CODE).min(MOST_TOGETHER),
        };
        let start = lowering.here();
        lowering.commands(&transaction.body);
        if lowering.is_too_large() {
            return Err(Refusal::new(11, call.offset));
        }
        let body = Body { start, end: lowering.here(), temporaries: lowering.temporaries };
        code = lowering.code;
        code.bodies.push(body);
    }
    Ok(code)
}

fn size(code: &Code) -> usize {
    code.instructions.len() + code.tests.len() + code.parts.len() / MOST_COPIES
}

/// A ground call that is lowered. `parts`, `factors` and `tests` are of phrases that aren't whole yet.
struct Lowering<'a> {
    relations: &'a [Relation],
    arguments: &'a [i64],
    code: Code,
    visited: Vec<u32>,
    parts: Vec<Part>,
    factors: Vec<Factor>,
    tests: Vec<Test>,
    temporaries: u32,
    /// How large the code may be behind this call.
    limit: usize,
}

/// The index of a slot: a literal, or what is computed.
enum Index {
    Literal(i64),
    Computed(Linear),
}

impl<'a> Lowering<'a> {
    fn commands(&mut self, commands: &[Command]) {
        for command in commands {
            if !self.is_too_large() {
                self.command(command);
            }
        }
    }

    fn command(&mut self, command: &Command) {
        match command {
            Command::Skip => {}
            Command::Block(commands) => self.commands(commands),
            Command::Assign { temporary, value } => {
                let value = self.linear(value);
                self.put(Instruction::Assign { temporary: *temporary, value });
            }
            Command::Write { object, value } => self.write_within(*object, value),
            Command::Print(value) => {
                let value = self.linear(value);
                self.put(Instruction::Print { value });
            }
            Command::If { condition, then, otherwise } => self.branches(condition, then, otherwise),
            Command::SetIndexed { relation, index, field, value } => self.set_indexed(*relation, index, *field, value),
            Command::SetRow { relation, row, field, value } => {
                let slot = self.visited[*row as usize];
                self.write_within(self.relation(*relation).object(slot, *field), value);
            }
            Command::Foreach { relation, condition, body } => self.visit(*relation, condition, |this, _| this.commands(body)),
            Command::Insert { relation, values, target } => self.insert(*relation, values, *target),
            Command::Delete { relation, condition } => self.visit(*relation, condition, |this, slot| {
                let object = this.relation(*relation).used(slot);
                this.put(Instruction::Write { object, value: Linear::number(0) });
            }),
            Command::Update { relation, condition, field, value } => self.visit(*relation, condition, |this, slot| {
                this.write_within(this.relation(*relation).object(slot, *field), value);
            }),
        }
    }

    fn branches(&mut self, condition: &[syntax::Test], then: &Command, otherwise: &Command) {
        let tests = self.condition(None, condition);
        if self.is_false(tests) {
            return self.command(otherwise);
        }
        let branch = self.branch(tests);
        self.command(then);
        if tests.length == 0 || matches!(otherwise, Command::Skip) {
            return self.end_branch(branch);
        }
        let jump = self.jump();
        self.end_branch(branch);
        self.command(otherwise);
        self.end_jump(jump);
    }

    /// Does something at each slot that is used and where the condition holds.
    fn visit(&mut self, relation: u32, condition: &[syntax::Test], mut work: impl FnMut(&mut Self, u32)) {
        for slot in 0..self.relation(relation).slots {
            if self.is_too_large() {
                break;
            }
            self.visited.push(slot);
            let used = self.object(self.relation(relation).used(slot));
            let tests = self.condition(Some(Test::Compare(Comparison::Equal, used.plus(-1))), condition);
            let branch = self.branch(tests);
            work(self, slot);
            self.end_branch(branch);
            self.visited.pop();
        }
    }

    fn insert(&mut self, relation: u32, values: &[(u32, Expression)], target: u32) {
        let relation = self.relation(relation);
        let mut fields = Vec::with_capacity(values.len());
        let mut tests = Vec::with_capacity(values.len() * 2);
        for (field, value) in values {
            let value = self.settled(value);
            fields.push((*field, value));
            self.within_tests(value, relation.fields[*field as usize].bounds, &mut tests);
        }
        let tests = self.keep_tests(&tests);
        let branch = self.branch(tests);
        let is_free = |this: &mut Self, slot| this.object(relation.used(slot));
        self.first_slot(relation, is_free, |this, slot| {
            let place = match slot {
                Some(slot) => {
                    for &(field, value) in &fields {
                        this.put(Instruction::Write { object: relation.object(slot, field), value });
                    }
                    this.put(Instruction::Write { object: relation.used(slot), value: Linear::number(1) });
                    i64::from(slot) + 1
                }
                None => {
                    this.end_branch(branch);
                    0
                }
            };
            this.put(Instruction::Assign { temporary: target, value: Linear::number(place) });
        });
    }

    /// The value of an expression, where need be in a temporary of its own.
    fn settled(&mut self, expression: &Expression) -> Linear {
        let value = self.linear(expression);
        if value.is_number() {
            return value;
        }
        let temporary = self.fresh();
        self.put(Instruction::Assign { temporary, value });
        self.single(Source::Temporary(temporary))
    }

    fn set_indexed(&mut self, relation: u32, index: &Expression, field: u32, value: &Expression) {
        let relation = self.relation(relation);
        let index = match self.index(index) {
            Index::Literal(slot) => {
                if is_slot(relation, slot) {
                    self.write_within(relation.object(slot as u32, field), value);
                }
                return;
            }
            Index::Computed(index) => index,
        };
        let value = self.linear(value);
        let mut tests = Vec::with_capacity(2);
        self.within_tests(value, relation.fields[field as usize].bounds, &mut tests);
        let tests = self.keep_tests(&tests);
        let branch = self.branch(tests);
        self.at_index(relation, index, |this, slot| {
            if let Some(slot) = slot {
                this.put(Instruction::Write { object: relation.object(slot, field), value });
            }
        });
        self.end_branch(branch);
    }

    /// Does something at the slot of a computed index, or where there is none.
    fn at_index(&mut self, relation: &Relation, index: Linear, mut work: impl FnMut(&mut Self, Option<u32>)) {
        if index.is_number() {
            return work(self, is_slot(relation, index.constant).then_some(index.constant as u32));
        }
        self.first_slot(relation, |_, slot| index.plus(-i64::from(slot)), work);
    }

    /// Does something at the first slot where a difference is 0, or where there is none.
    fn first_slot(
        &mut self,
        relation: &Relation,
        mut difference: impl FnMut(&mut Self, u32) -> Linear,
        mut work: impl FnMut(&mut Self, Option<u32>),
    ) {
        let mut jumps = Vec::new();
        for slot in 0..relation.slots {
            if self.is_too_large() {
                break;
            }
            let test = Test::Compare(Comparison::Equal, difference(self, slot));
            let tests = self.keep_tests(&[test]);
            let branch = self.branch(tests);
            work(self, Some(slot));
            jumps.push(self.jump());
            self.end_branch(branch);
        }
        work(self, None);
        jumps.into_iter().for_each(|jump| self.end_jump(jump));
    }

    /// The tests that a value is within bounds. Those that can't fail are left out.
    fn within_tests(&mut self, value: Linear, bounds: Bounds, tests: &mut Vec<Test>) {
        let over = value.plus(-bounds.high);
        let under = self.negated(value).plus(bounds.low);
        for difference in [under, over] {
            if !(difference.is_number() && difference.constant <= 0) {
                tests.push(Test::Compare(Comparison::AtMost, difference));
            }
        }
    }

    fn write_within(&mut self, object: u32, value: &Expression) {
        let value = self.linear(value);
        self.put(Instruction::WriteWithin { object, value });
    }

    // ---- conditions

    /// A condition behind a first test. What it needs of aggregates and computed indexes is put before.
    fn condition(&mut self, first: Option<Test>, condition: &[syntax::Test]) -> Span {
        let mark = self.tests.len();
        self.tests.extend(first);
        for test in condition {
            let lowered = match test {
                syntax::Test::True => continue,
                syntax::Test::Not(inner) => Test::Not(self.condition(None, inner)),
                syntax::Test::Compare(comparison, left, right) => {
                    let difference = self.difference(left, right);
                    if difference.is_number() && compares(*comparison, difference.constant) {
                        continue;
                    }
                    Test::Compare(*comparison, difference)
                }
            };
            self.tests.push(lowered);
        }
        let start = self.code.tests.len();
        self.code.tests.extend(self.tests.drain(mark..));
        Span::behind(start, self.code.tests.len())
    }

    fn keep_tests(&mut self, tests: &[Test]) -> Span {
        let start = self.code.tests.len();
        self.code.tests.extend_from_slice(tests);
        Span::behind(start, self.code.tests.len())
    }

    /// Whether the first test can't hold.
    fn is_false(&self, tests: Span) -> bool {
        match tests.of(&self.code.tests).first() {
            Some(Test::Compare(comparison, difference)) => difference.is_number() && !compares(*comparison, difference.constant),
            Some(Test::Not(inner)) => inner.length == 0,
            None => false,
        }
    }

    // ---- expressions

    fn linear(&mut self, expression: &Expression) -> Linear {
        let mark = self.parts.len();
        let constant = self.gather(expression, 1);
        self.keep_parts(constant, mark)
    }

    fn difference(&mut self, left: &Expression, right: &Expression) -> Linear {
        let mark = self.parts.len();
        let constant = self.gather(left, 1) + self.gather(right, -1);
        self.keep_parts(constant, mark)
    }

    fn keep_parts(&mut self, constant: i64, mark: usize) -> Linear {
        let start = self.code.parts.len();
        self.code.parts.extend(self.parts.drain(mark..));
        Linear { constant, parts: Span::behind(start, self.code.parts.len()) }
    }

    /// Adds the parts of a multiple of an expression, and gives its constant.
    fn gather(&mut self, expression: &Expression, factor: i64) -> i64 {
        match expression {
            Expression::Number(value) => factor.wrapping_mul(*value),
            Expression::Parameter(parameter) => factor.wrapping_mul(self.arguments[*parameter as usize]),
            Expression::Temporary(temporary) => self.part(factor, Source::Temporary(*temporary)),
            Expression::Read(object) => self.part(factor, Source::Object(*object)),
            Expression::RowField { relation, row, field } => {
                let object = self.relation(*relation).object(self.visited[*row as usize], *field);
                self.part(factor, Source::Object(object))
            }
            Expression::Indexed { relation, index, field } => match self.indexed(*relation, index, *field) {
                Index::Literal(value) => factor.wrapping_mul(value),
                Index::Computed(value) => self.gather_multiple(value, factor),
            },
            Expression::Count { relation, condition } => self.aggregate(*relation, None, condition, factor),
            Expression::Total { relation, field, condition } => self.aggregate(*relation, Some(*field), condition, factor),
            Expression::Sum(items) => items.iter().fold(0i64, |sum, item| sum.wrapping_add(self.gather(item, factor))),
            Expression::Negation(inner) => self.gather(inner, factor.wrapping_neg()),
            Expression::Product(factors) => self.product(factors, factor),
        }
    }

    fn part(&mut self, factor: i64, source: Source) -> i64 {
        self.parts.push(Part { factor, source });
        0
    }

    /// A product is taken from the left, two factors at a time. Numbers are put together as scales.
    fn product(&mut self, items: &[Expression], factor: i64) -> i64 {
        let mark = self.factors.len();
        let mut scale = 1i64;
        for item in items {
            let value = self.linear(item);
            if value.is_number() {
                scale = scale.wrapping_mul(value.constant);
            } else {
                self.factors.push(Factor { scale, value });
                scale = 1;
            }
        }
        let factor = factor.wrapping_mul(scale);
        match self.factors[mark..] {
            [] => factor,
            [Factor { scale, value }] => {
                self.factors.truncate(mark);
                self.gather_multiple(value, factor.wrapping_mul(scale))
            }
            _ => {
                let start = self.code.factors.len();
                self.code.factors.extend(self.factors.drain(mark..));
                self.code.products.push(Span::behind(start, self.code.factors.len()));
                self.part(factor, Source::Product(self.code.products.len() as u32 - 1))
            }
        }
    }

    fn gather_multiple(&mut self, value: Linear, factor: i64) -> i64 {
        let parts = value.parts.of(&self.code.parts);
        self.parts.extend(parts.iter().map(|part| Part { factor: part.factor.wrapping_mul(factor), ..*part }));
        value.constant.wrapping_mul(factor)
    }

    fn negated(&mut self, value: Linear) -> Linear {
        let mark = self.parts.len();
        let constant = self.gather_multiple(value, -1);
        self.keep_parts(constant, mark)
    }

    fn single(&mut self, source: Source) -> Linear {
        self.code.parts.push(Part { factor: 1, source });
        Linear { constant: 0, parts: Span::behind(self.code.parts.len() - 1, self.code.parts.len()) }
    }

    fn object(&mut self, object: u32) -> Linear {
        self.single(Source::Object(object))
    }

    /// An index is a literal where it is written as one, or where it is a field of a slot that there isn't.
    fn index(&mut self, index: &Expression) -> Index {
        match index {
            Expression::Number(value) => Index::Literal(*value),
            Expression::Parameter(parameter) => Index::Literal(self.arguments[*parameter as usize]),
            Expression::Indexed { relation, index, field } => self.indexed(*relation, index, *field),
            _ => Index::Computed(self.linear(index)),
        }
    }

    /// The value of a field of a slot by its index.
    fn indexed(&mut self, relation: u32, index: &Expression, field: u32) -> Index {
        let relation = self.relation(relation);
        let index = match self.index(index) {
            Index::Literal(slot) if is_slot(relation, slot) => {
                return Index::Computed(self.object(relation.object(slot as u32, field)));
            }
            Index::Literal(_) => return Index::Literal(0),
            Index::Computed(index) => index,
        };
        let temporary = self.fresh();
        self.at_index(relation, index, |this, slot| {
            let value = slot.map_or(Linear::number(0), |slot| this.object(relation.object(slot, field)));
            this.put(Instruction::Assign { temporary, value });
        });
        Index::Computed(self.single(Source::Temporary(temporary)))
    }

    /// How many used slots there are where a condition holds, or the sum of a field over them.
    fn aggregate(&mut self, relation: u32, field: Option<u32>, condition: &[syntax::Test], factor: i64) -> i64 {
        let temporary = self.fresh();
        self.put(Instruction::Assign { temporary, value: Linear::number(0) });
        self.visit(relation, condition, |this, slot| {
            let mark = this.parts.len();
            this.part(1, Source::Temporary(temporary));
            let constant = match field {
                Some(field) => this.part(1, Source::Object(this.relation(relation).object(slot, field))),
                None => 1,
            };
            let value = this.keep_parts(constant, mark);
            this.put(Instruction::Assign { temporary, value });
        });
        self.part(factor, Source::Temporary(temporary))
    }

    fn fresh(&mut self) -> u32 {
        self.temporaries += 1;
        self.temporaries - 1
    }

    fn relation(&self, relation: u32) -> &'a Relation {
        &self.relations[relation as usize]
    }

    // ---- instructions

    fn is_too_large(&self) -> bool {
        size(&self.code) > self.limit
    }

    fn here(&self) -> u32 {
        self.code.instructions.len() as u32
    }

    fn put(&mut self, instruction: Instruction) {
        self.code.instructions.push(instruction);
    }

    /// Begins what is done where the tests hold. Where there are none, it is done always.
    fn branch(&mut self, tests: Span) -> Option<u32> {
        if tests.length == 0 {
            return None;
        }
        self.put(Instruction::Branch { tests, otherwise: 0 });
        Some(self.here() - 1)
    }

    fn end_branch(&mut self, branch: Option<u32>) {
        let here = self.here();
        if let Some(Instruction::Branch { otherwise, .. }) = branch.map(|at| &mut self.code.instructions[at as usize]) {
            *otherwise = here;
        }
    }

    fn jump(&mut self) -> u32 {
        self.put(Instruction::Jump { to: 0 });
        self.here() - 1
    }

    fn end_jump(&mut self, jump: u32) {
        let to = self.here();
        self.code.instructions[jump as usize] = Instruction::Jump { to };
    }
}

fn is_slot(relation: &Relation, index: i64) -> bool {
    0 <= index && index < i64::from(relation.slots)
}
