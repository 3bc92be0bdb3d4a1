//! Reads a text: the declarations, the clients with their calls, and the schedule. What is refused and why is homeo's, but where a
//! text has more than one fault the first one in the text is told, and of the limits those on sizes and weights aren't checked.

use crate::hash::{self, Numbers};
use crate::names::{Names, Word};
use crate::scope::{Meaning, Scope};
use crate::syntax::{Bounds, Client, Field, GroundCall, Object, Relation, Transaction, Workload};
use crate::tokens::{Symbol, Token, Tokens};

/// Texts of version 2 aren't read.
const VERSION: i64 = 1;
const LONGEST_TEXT: usize = 1 << 20;
const GREATEST_BOUND: i64 = 1_000_000_000_000;
const MOST_SITES: i64 = 16;
const MOST_SLOTS: i64 = 64;
const MOST_OBJECTS: usize = 1_024;
const MOST_TRANSACTIONS: usize = 256;
const MOST_CLIENTS: usize = 64;
const MOST_CALLS: usize = 20_000;
const MOST_GROUND_CALLS: usize = 1_024;

/// Why a text isn't taken: a fault by its code, and the byte where it is.
pub struct Refusal {
    pub code: u8,
    pub offset: usize,
}

impl Refusal {
    /// A fault.
    pub fn new(code: u8, offset: usize) -> Refusal {
        Refusal { code, offset }
    }
}

/// The symbols round and between arguments, and those of commands.
pub(crate) const ARGUMENTS: [Symbol; 3] = [Symbol::Open, Symbol::Comma, Symbol::Close];
pub(crate) const COMMANDS: [Symbol; 3] = [Symbol::OpenBlock, Symbol::Semicolon, Symbol::CloseBlock];

/// What a part of a text is read as.
pub type Reading<T> = Result<T, Refusal>;

/// Reads a text. Under `steps` calls need a schedule.
pub fn read(text: &[u8], needs_schedule: bool) -> Reading<Workload> {
    if text.len() > LONGEST_TEXT {
        return Err(Refusal::new(2, LONGEST_TEXT));
    }
    if let Some(at) = text.iter().position(|byte| !matches!(byte, b' '..=b'~' | b'\t' | b'\n' | b'\r')) {
        return Err(Refusal::new(1, at));
    }
    let mut parser = Parser {
        tokens: Tokens::new(text),
        scope: Scope::default(),
        workload: Workload::default(),
        ground_table: Numbers::new(),
        depth: 0,
    };
    parser.workload(needs_schedule)?;
    Ok(parser.workload)
}

/// A text that is read, and what was read of it.
pub struct Parser<'a> {
    pub(crate) tokens: Tokens<'a>,
    pub(crate) scope: Scope,
    pub(crate) workload: Workload,
    pub(crate) depth: u32,
    ground_table: Numbers,
}

impl Parser<'_> {
    fn workload(&mut self, needs_schedule: bool) -> Reading<()> {
        self.expect(Word::Workload)?;
        if self.tokens.token != Token::Number(VERSION) {
            return self.unexpected();
        }
        self.tokens.advance();
        self.sites()?;
        while self.takes(Word::Object) {
            self.object_declaration()?;
        }
        while self.takes(Word::Relation) {
            self.relation_declaration()?;
        }
        while self.takes(Word::Transaction) {
            self.transaction_declaration()?;
        }
        while self.takes(Word::Client) {
            self.client_declaration()?;
        }
        self.schedule(needs_schedule)?;
        self.expect(Word::End)?;
        if self.tokens.token == Token::End {
            Ok(())
        } else {
            self.unexpected()
        }
    }

    fn sites(&mut self) -> Reading<()> {
        self.expect(Word::Sites)?;
        let at = self.tokens.start;
        let sites = self.number()?;
        if !(1..=MOST_SITES).contains(&sites) {
            return Err(Refusal::new(13, at));
        }
        self.workload.sites = sites as u32;
        Ok(())
    }

    fn object_declaration(&mut self) -> Reading<()> {
        let (name, at) = self.name()?;
        self.declare(name, at, Meaning::Object(self.workload.objects.len() as u32))?;
        self.expect(Word::In)?;
        let bounds = self.bounds()?;
        self.expect(Symbol::Equal)?;
        let start = self.number_within(bounds)?;
        self.add_object(self.tokens.names.text(name), bounds, start, at)
    }

    fn add_object(&mut self, name: String, bounds: Bounds, start: i64, at: usize) -> Reading<()> {
        room_for_one(self.workload.objects.len(), MOST_OBJECTS, at)?;
        self.workload.objects.push(Object { name, bounds, start });
        Ok(())
    }

    fn relation_declaration(&mut self) -> Reading<()> {
        let (name, at) = self.name()?;
        self.declare(name, at, Meaning::Relation(self.workload.relations.len() as u32))?;
        self.expect(Symbol::OpenIndex)?;
        let number_at = self.tokens.start;
        let slots = self.number()?;
        if !(1..=MOST_SLOTS).contains(&slots) {
            return Err(Refusal::new(13, number_at));
        }
        self.expect(Symbol::CloseIndex)?;
        let mut fields: Vec<Field> = Vec::new();
        self.list(ARGUMENTS, |parser| {
            let (field, field_at) = parser.name()?;
            if fields.iter().any(|other| other.name == field) {
                return Err(Refusal::new(5, field_at));
            }
            room_for_one(fields.len(), MOST_OBJECTS, at)?;
            parser.expect(Word::In)?;
            fields.push(Field { name: field, bounds: parser.bounds()? });
            Ok(())
        })?;
        if fields.is_empty() {
            return self.unexpected();
        }
        self.add_slots(name, slots as u32, fields, at)
    }

    fn add_slots(&mut self, name: u32, slots: u32, fields: Vec<Field>, at: usize) -> Reading<()> {
        let relation = self.tokens.names.text(name);
        let first = self.workload.objects.len() as u32;
        for slot in 0..slots {
            self.add_object(format!("{relation}.{slot}.used"), Bounds { low: 0, high: 1 }, 0, at)?;
            for field in &fields {
                let start = 0.clamp(field.bounds.low, field.bounds.high);
                let name = format!("{relation}.{slot}.{}", self.tokens.names.text(field.name));
                self.add_object(name, field.bounds, start, at)?;
            }
        }
        self.workload.relations.push(Relation { first, slots, fields });
        Ok(())
    }

    fn transaction_declaration(&mut self) -> Reading<()> {
        let (name, at) = self.name()?;
        self.declare(name, at, Meaning::Transaction(self.workload.transactions.len() as u32))?;
        room_for_one(self.workload.transactions.len(), MOST_TRANSACTIONS, at)?;
        let parameters = self.parameters()?;
        let body = self.block()?;
        let temporaries = self.scope.leave_transaction();
        let name = self.tokens.names.text(name);
        self.workload.transactions.push(Transaction { name, parameters, temporaries, body });
        Ok(())
    }

    fn parameters(&mut self) -> Reading<Vec<Field>> {
        let mut parameters = Vec::new();
        self.list(ARGUMENTS, |parser| {
            let (name, at) = parser.name()?;
            let meaning = Meaning::Parameter(parameters.len() as u32);
            parser.scope.declare_locally(name, meaning).map_err(|()| Refusal::new(5, at))?;
            parser.expect(Word::In)?;
            parameters.push(Field { name, bounds: parser.bounds()? });
            Ok(())
        })?;
        Ok(parameters)
    }

    fn client_declaration(&mut self) -> Reading<()> {
        let (name, at) = self.name()?;
        self.declare(name, at, Meaning::Client(self.workload.clients.len() as u32))?;
        room_for_one(self.workload.clients.len(), MOST_CLIENTS, at)?;
        self.expect(Word::At)?;
        let site_at = self.tokens.start;
        let site = self.number()?;
        if site >= i64::from(self.workload.sites) {
            return Err(Refusal::new(9, site_at));
        }
        let first = self.workload.calls.len();
        self.list(COMMANDS, |parser| parser.call(site as u32))?;
        let calls = first..self.workload.calls.len();
        self.workload.clients.push(Client { name: self.tokens.names.text(name), site: site as u32, calls });
        Ok(())
    }

    fn call(&mut self, site: u32) -> Reading<()> {
        let (name, at) = self.name()?;
        let transaction = match self.scope.meaning(name) {
            Meaning::Transaction(transaction) => transaction,
            meaning => return Err(misplaced(meaning, at)),
        };
        let first = self.workload.arguments.len();
        self.list(ARGUMENTS, |parser| parser.argument(transaction, parser.workload.arguments.len() - first, at))?;
        let count = self.workload.arguments.len() - first;
        if count != self.workload.transactions[transaction as usize].parameters.len() {
            return Err(Refusal::new(8, at));
        }
        room_for_one(self.workload.calls.len(), MOST_CALLS, at)?;
        let ground_call = self.ground_call(transaction, site, first, at);
        self.workload.calls.push(ground_call);
        room_for_one(ground_call as usize, MOST_GROUND_CALLS, at)
    }

    fn argument(&mut self, transaction: u32, position: usize, call_at: usize) -> Reading<()> {
        let parameters = &self.workload.transactions[transaction as usize].parameters;
        let bounds = parameters.get(position).ok_or(Refusal::new(8, call_at))?.bounds;
        let value = self.number_within(bounds)?;
        self.workload.arguments.push(value);
        Ok(())
    }

    /// The number of the ground call whose arguments stand behind all others. They stay there where it is a new one.
    fn ground_call(&mut self, transaction: u32, site: u32, first: usize, offset: usize) -> u32 {
        let Workload { arguments, ground_calls, .. } = &mut self.workload;
        let given = &arguments[first..];
        let start = hash::mix(u64::from(transaction), u64::from(site));
        let hash = given.iter().fold(start, |hash, &value| hash::mix(hash, value as u64));
        let next = ground_calls.len() as u32;
        let found = self.ground_table.find_or_put(hash, next, |number| {
            let other = &ground_calls[number as usize];
            other.transaction == transaction && other.site == site && arguments[other.arguments.clone()] == *given
        });
        match found {
            Some(number) => {
                arguments.truncate(first);
                number
            }
            None => {
                ground_calls.push(GroundCall { transaction, site, arguments: first..arguments.len(), offset });
                next
            }
        }
    }

    fn schedule(&mut self, needs_schedule: bool) -> Reading<()> {
        let is_given = self.takes(Word::Schedule);
        let mut left: Vec<usize> = self.workload.clients.iter().map(|client| client.calls.len()).collect();
        if is_given {
            while let Token::Name(name) = self.tokens.token {
                if !Names::is_free(name) {
                    break;
                }
                let at = self.tokens.start;
                let client = match self.scope.meaning(name) {
                    Meaning::Client(client) => client,
                    meaning => return Err(misplaced(meaning, at)),
                };
                let left = &mut left[client as usize];
                *left = left.checked_sub(1).ok_or(Refusal::new(14, at))?;
                self.workload.schedule.push(client);
                self.tokens.advance();
            }
        }
        if (is_given || needs_schedule) && self.tokens.token == Word::End.into() && left.iter().any(|&left| left > 0) {
            return Err(Refusal::new(14, self.tokens.start));
        }
        Ok(())
    }

    fn declare(&mut self, name: u32, at: usize, meaning: Meaning) -> Reading<()> {
        self.scope.declare(name, meaning).map_err(|()| Refusal::new(5, at))
    }

    fn bounds(&mut self) -> Reading<Bounds> {
        let low_at = self.tokens.start;
        let low = self.bound()?;
        self.expect(Symbol::Range)?;
        let high = self.bound()?;
        if low > high {
            return Err(Refusal::new(9, low_at));
        }
        Ok(Bounds { low, high })
    }

    fn bound(&mut self) -> Reading<i64> {
        self.number_within(Bounds { low: -GREATEST_BOUND, high: GREATEST_BOUND })
    }

    fn number_within(&mut self, bounds: Bounds) -> Reading<i64> {
        let at = self.tokens.start;
        let is_negative = self.takes(Symbol::Minus);
        let size = self.number()?;
        let value = if is_negative { -size } else { size };
        if bounds.hold(value) {
            Ok(value)
        } else {
            Err(Refusal::new(9, at))
        }
    }

    fn number(&mut self) -> Reading<i64> {
        match self.tokens.token {
            Token::Number(value) => {
                self.tokens.advance();
                Ok(value)
            }
            _ => self.unexpected(),
        }
    }

    /// A name that is no reserved word, and where it stands.
    pub(crate) fn name(&mut self) -> Reading<(u32, usize)> {
        match self.tokens.token {
            Token::Name(name) if Names::is_free(name) => {
                let at = self.tokens.start;
                self.tokens.advance();
                Ok((name, at))
            }
            _ => self.unexpected(),
        }
    }

    /// Goes past a reserved word or symbol that has to be there.
    pub(crate) fn expect(&mut self, token: impl Into<Token>) -> Reading<()> {
        if self.takes(token) {
            Ok(())
        } else {
            self.unexpected()
        }
    }

    /// Goes past a reserved word or symbol where it is there.
    #[inline]
    pub(crate) fn takes(&mut self, token: impl Into<Token>) -> bool {
        let is_there = self.tokens.token == token.into();
        if is_there {
            self.tokens.advance();
        }
        is_there
    }

    /// Reads any number of items between two symbols, with a third one between them.
    pub(crate) fn list(&mut self, marks: [Symbol; 3], mut item: impl FnMut(&mut Self) -> Reading<()>) -> Reading<()> {
        let [open, between, close] = marks;
        self.expect(open)?;
        if self.takes(close) {
            return Ok(());
        }
        loop {
            item(self)?;
            if !self.takes(between) {
                return self.expect(close);
            }
        }
    }

    /// Refuses the token in view.
    pub(crate) fn unexpected<T>(&self) -> Reading<T> {
        let code = if self.tokens.token == Token::Fault { 3 } else { 4 };
        Err(Refusal::new(code, self.tokens.start))
    }
}

/// Refuses what stands at a place where there are as many of its kind as there may be.
fn room_for_one(count: usize, most: usize, at: usize) -> Reading<()> {
    if count < most {
        Ok(())
    } else {
        Err(Refusal::new(13, at))
    }
}

/// Refuses a name that doesn't mean what its place takes.
pub(crate) fn misplaced(meaning: Meaning, at: usize) -> Refusal {
    Refusal::new(if meaning == Meaning::Unknown { 6 } else { 7 }, at)
}
