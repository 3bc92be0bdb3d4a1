//! Reads the bodies of transactions: commands, conditions and expressions.

use crate::names::Word;
use crate::parser::{misplaced, Parser, Reading, Refusal, ARGUMENTS, COMMANDS};
use crate::scope::Meaning;
use crate::syntax::{Command, Comparison, Expression, Test};
use crate::tokens::{Symbol, Token};

const DEEPEST: u32 = 32;

impl Parser<'_> {
    /// Commands between braces.
    pub(crate) fn block(&mut self) -> Reading<Vec<Command>> {
        let mut commands = Vec::new();
        self.list(COMMANDS, |parser| {
            commands.push(parser.command()?);
            Ok(())
        })?;
        Ok(commands)
    }

    /// Reads a phrase one deeper than the one that has it.
    fn deeper<T>(&mut self, phrase: impl FnOnce(&mut Self) -> Reading<T>) -> Reading<T> {
        if self.depth == DEEPEST {
            return self.unexpected();
        }
        self.depth += 1;
        let read = phrase(self)?;
        self.depth -= 1;
        Ok(read)
    }

    fn command(&mut self) -> Reading<Command> {
        self.deeper(Self::any_command)
    }

    fn any_command(&mut self) -> Reading<Command> {
        if self.takes(Word::Skip) {
            Ok(Command::Skip)
        } else if self.takes(Word::Write) {
            self.write()
        } else if self.takes(Word::Print) {
            self.expect(Symbol::Open)?;
            let value = self.expression()?;
            self.expect(Symbol::Close)?;
            Ok(Command::Print(value))
        } else if self.takes(Word::If) {
            let condition = self.condition()?;
            self.expect(Word::Then)?;
            let then = Box::new(self.command()?);
            self.expect(Word::Else)?;
            Ok(Command::If { condition, then, otherwise: Box::new(self.command()?) })
        } else if self.takes(Word::Foreach) {
            let (row, relation) = self.row_of()?;
            let condition = self.when()?;
            let body = self.block()?;
            self.scope.leave_row(row);
            Ok(Command::Foreach { relation, condition, body })
        } else if self.takes(Word::Insert) {
            self.insert()
        } else if self.takes(Word::Delete) {
            let (row, relation) = self.row_of()?;
            let condition = self.when()?;
            self.scope.leave_row(row);
            Ok(Command::Delete { relation, condition })
        } else if self.takes(Word::Update) {
            self.update()
        } else if self.tokens.token == Token::Symbol(Symbol::OpenBlock) {
            Ok(Command::Block(self.block()?))
        } else {
            self.setting()
        }
    }

    fn write(&mut self) -> Reading<Command> {
        self.expect(Symbol::Open)?;
        let object = self.object_name()?;
        self.expect(Symbol::Equal)?;
        let value = self.expression()?;
        self.expect(Symbol::Close)?;
        Ok(Command::Write { object, value })
    }

    fn insert(&mut self) -> Reading<Command> {
        let at = self.tokens.start;
        let relation = self.relation_name()?;
        let mut values: Vec<(u32, Expression)> = Vec::new();
        self.list(ARGUMENTS, |parser| {
            let field_at = parser.tokens.start;
            let field = parser.field_name(relation)?;
            if values.iter().any(|&(other, _)| other == field) {
                return Err(Refusal::new(5, field_at));
            }
            parser.expect(Symbol::Equal)?;
            values.push((field, parser.expression()?));
            Ok(())
        })?;
        if values.len() != self.workload.relations[relation as usize].fields.len() {
            return Err(Refusal::new(8, at));
        }
        self.expect(Word::Into)?;
        let (name, name_at) = self.name()?;
        let target = self.scope.temporary(name).map_err(|()| Refusal::new(7, name_at))?;
        Ok(Command::Insert { relation, values, target })
    }

    fn update(&mut self) -> Reading<Command> {
        let (row, relation) = self.row_of()?;
        let condition = self.when()?;
        self.expect(Word::Set)?;
        let field = self.field_name(relation)?;
        self.expect(Symbol::Equal)?;
        let value = self.expression()?;
        self.scope.leave_row(row);
        Ok(Command::Update { relation, condition, field, value })
    }

    /// A command that begins with a name: a temporary, a field of a visited slot, or one of a slot by its index is set.
    fn setting(&mut self) -> Reading<Command> {
        let (name, at) = self.name()?;
        if self.takes(Symbol::Becomes) {
            let value = self.expression()?;
            let temporary = self.scope.temporary(name).map_err(|()| Refusal::new(7, at))?;
            return Ok(Command::Assign { temporary, value });
        }
        if self.takes(Symbol::Dot) {
            let (relation, row) = self.row(name, at)?;
            let field = self.field_name(relation)?;
            self.expect(Symbol::Becomes)?;
            return Ok(Command::SetRow { relation, row, field, value: self.expression()? });
        }
        self.expect(Symbol::OpenIndex)?;
        let relation = self.relation(name, at)?;
        let index = self.expression()?;
        self.expect(Symbol::CloseIndex)?;
        self.expect(Symbol::Dot)?;
        let field = self.field_name(relation)?;
        self.expect(Symbol::Becomes)?;
        Ok(Command::SetIndexed { relation, index, field, value: self.expression()? })
    }

    /// A row variable, which is declared, and the relation whose slots it names.
    fn row_of(&mut self) -> Reading<(u32, u32)> {
        let (row, at) = self.name()?;
        self.expect(Word::Of)?;
        let relation = self.relation_name()?;
        self.scope.enter_row(row, relation).map_err(|()| Refusal::new(5, at))?;
        Ok((row, relation))
    }

    fn when(&mut self) -> Reading<Vec<Test>> {
        self.expect(Word::When)?;
        self.condition()
    }

    fn condition(&mut self) -> Reading<Vec<Test>> {
        let mut tests = vec![self.test()?];
        while self.takes(Word::And) {
            tests.push(self.test()?);
        }
        Ok(tests)
    }

    fn test(&mut self) -> Reading<Test> {
        self.deeper(|parser| {
            if parser.takes(Word::True) {
                return Ok(Test::True);
            }
            if parser.takes(Word::Not) {
                parser.expect(Symbol::Open)?;
                let condition = parser.condition()?;
                parser.expect(Symbol::Close)?;
                return Ok(Test::Not(condition));
            }
            let left = parser.expression()?;
            let comparison = match parser.tokens.token {
                Token::Symbol(Symbol::Less) => Comparison::Less,
                Token::Symbol(Symbol::AtMost) => Comparison::AtMost,
                Token::Symbol(Symbol::Equal) => Comparison::Equal,
                _ => return parser.unexpected(),
            };
            parser.tokens.advance();
            Ok(Test::Compare(comparison, left, parser.expression()?))
        })
    }

    fn expression(&mut self) -> Reading<Expression> {
        let first = self.term()?;
        if !matches!(self.tokens.token, Token::Symbol(Symbol::Plus | Symbol::Minus)) {
            return Ok(first);
        }
        let mut items = vec![first];
        loop {
            if self.takes(Symbol::Plus) {
                items.push(self.term()?);
            } else if self.takes(Symbol::Minus) {
                items.push(Expression::Negation(Box::new(self.term()?)));
            } else {
                return Ok(Expression::Sum(items));
            }
        }
    }

    fn term(&mut self) -> Reading<Expression> {
        let first = self.factor()?;
        if self.tokens.token != Token::Symbol(Symbol::Times) {
            return Ok(first);
        }
        let mut factors = vec![first];
        while self.takes(Symbol::Times) {
            factors.push(self.factor()?);
        }
        Ok(Expression::Product(factors))
    }

    fn factor(&mut self) -> Reading<Expression> {
        self.deeper(Self::any_factor)
    }

    fn any_factor(&mut self) -> Reading<Expression> {
        if let Token::Number(value) = self.tokens.token {
            self.tokens.advance();
            return Ok(Expression::Number(value));
        }
        if self.takes(Symbol::Minus) {
            return Ok(Expression::Negation(Box::new(self.factor()?)));
        }
        if self.takes(Symbol::Open) {
            let inner = self.expression()?;
            self.expect(Symbol::Close)?;
            return Ok(inner);
        }
        if self.takes(Word::Read) {
            self.expect(Symbol::Open)?;
            let object = self.object_name()?;
            self.expect(Symbol::Close)?;
            return Ok(Expression::Read(object));
        }
        if self.takes(Word::Count) {
            self.expect(Symbol::Open)?;
            let (row, relation) = self.row_of()?;
            let condition = self.when()?;
            self.scope.leave_row(row);
            self.expect(Symbol::Close)?;
            return Ok(Expression::Count { relation, condition });
        }
        if self.takes(Word::Sum) {
            return self.total();
        }
        self.named()
    }

    fn total(&mut self) -> Reading<Expression> {
        self.expect(Symbol::Open)?;
        let (row, at) = self.name()?;
        self.expect(Symbol::Dot)?;
        let (field, field_at) = self.name()?;
        self.expect(Word::Of)?;
        let relation = self.relation_name()?;
        let field = self.field(relation, field, field_at)?;
        self.scope.enter_row(row, relation).map_err(|()| Refusal::new(5, at))?;
        let condition = self.when()?;
        self.scope.leave_row(row);
        self.expect(Symbol::Close)?;
        Ok(Expression::Total { relation, field, condition })
    }

    /// A factor that begins with a name: a parameter or temporary, a field of a visited slot, or one of a slot by its index.
    fn named(&mut self) -> Reading<Expression> {
        let (name, at) = self.name()?;
        if self.takes(Symbol::OpenIndex) {
            let relation = self.relation(name, at)?;
            let index = Box::new(self.expression()?);
            self.expect(Symbol::CloseIndex)?;
            self.expect(Symbol::Dot)?;
            return Ok(Expression::Indexed { relation, index, field: self.field_name(relation)? });
        }
        if self.takes(Symbol::Dot) {
            let (relation, row) = self.row(name, at)?;
            return Ok(Expression::RowField { relation, row, field: self.field_name(relation)? });
        }
        match self.scope.meaning(name) {
            Meaning::Parameter(parameter) => Ok(Expression::Parameter(parameter)),
            Meaning::Temporary(temporary) => Ok(Expression::Temporary(temporary)),
            meaning => Err(misplaced(meaning, at)),
        }
    }

    fn object_name(&mut self) -> Reading<u32> {
        let (name, at) = self.name()?;
        match self.scope.meaning(name) {
            Meaning::Object(object) => Ok(object),
            meaning => Err(misplaced(meaning, at)),
        }
    }

    fn relation_name(&mut self) -> Reading<u32> {
        let (name, at) = self.name()?;
        self.relation(name, at)
    }

    fn relation(&self, name: u32, at: usize) -> Reading<u32> {
        match self.scope.meaning(name) {
            Meaning::Relation(relation) => Ok(relation),
            meaning => Err(misplaced(meaning, at)),
        }
    }

    fn row(&self, name: u32, at: usize) -> Reading<(u32, u32)> {
        match self.scope.meaning(name) {
            Meaning::Row { relation, row } => Ok((relation, row)),
            meaning => Err(misplaced(meaning, at)),
        }
    }

    fn field_name(&mut self, relation: u32) -> Reading<u32> {
        let (name, at) = self.name()?;
        self.field(relation, name, at)
    }

    fn field(&self, relation: u32, name: u32, at: usize) -> Reading<u32> {
        let fields = &self.workload.relations[relation as usize].fields;
        let position = fields.iter().position(|field| field.name == name).ok_or(Refusal::new(6, at))?;
        Ok(position as u32)
    }
}
