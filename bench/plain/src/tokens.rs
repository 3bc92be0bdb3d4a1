//! The tokens of a text, one after another.

use crate::names::{Names, Word};

const LONGEST_NUMBER: usize = 18;
const LONGEST_NAME: usize = 32;

/// The symbols of the language.
#[derive(Clone, Copy, PartialEq, Eq)]
pub enum Symbol {
    Becomes,
    Range,
    AtMost,
    Less,
    Equal,
    Plus,
    Minus,
    Times,
    Open,
    Close,
    OpenIndex,
    CloseIndex,
    OpenBlock,
    CloseBlock,
    Comma,
    Semicolon,
    Dot,
}

/// A token: a name or reserved word by its number, a number, a symbol, a place where none begins, or the end of the text.
#[derive(Clone, Copy, PartialEq, Eq)]
pub enum Token {
    Name(u32),
    Number(i64),
    Symbol(Symbol),
    Fault,
    End,
}

impl From<Word> for Token {
    fn from(word: Word) -> Token {
        Token::Name(word as u32)
    }
}

impl From<Symbol> for Token {
    fn from(symbol: Symbol) -> Token {
        Token::Symbol(symbol)
    }
}

/// Goes over a text, and has one token in view.
pub struct Tokens<'a> {
    text: &'a [u8],
    behind: usize,
    /// The token in view.
    pub token: Token,
    /// Where it begins.
    pub start: usize,
    /// All names that were in view.
    pub names: Names<'a>,
}

impl<'a> Tokens<'a> {
    /// The tokens of a text, the first of them in view.
    pub fn new(text: &'a [u8]) -> Tokens<'a> {
        let mut tokens = Tokens { text, behind: 0, token: Token::End, start: 0, names: Names::new() };
        tokens.advance();
        tokens
    }

    /// Goes on to the next token.
    pub fn advance(&mut self) {
        let text = self.text;
        let mut at = self.behind;
        while at < text.len() && matches!(text[at], b' ' | b'\n' | b'\t' | b'\r') {
            at += 1;
        }
        self.start = at;
        let Some(&first) = text.get(at) else {
            self.token = Token::End;
            return;
        };
        self.behind = at + 1;
        self.token = match first {
            b'a'..=b'z' | b'A'..=b'Z' => self.name(),
            b'0'..=b'9' => self.number(),
            _ => self.symbol(first),
        };
    }

    fn name(&mut self) -> Token {
        while self.behind < self.text.len() && matches!(self.text[self.behind], b'a'..=b'z' | b'A'..=b'Z' | b'0'..=b'9' | b'_') {
            self.behind += 1;
        }
        let text = self.text;
        let name = &text[self.start..self.behind];
        if name.len() > LONGEST_NAME {
            return Token::Fault;
        }
        Token::Name(self.names.number(name))
    }

    fn number(&mut self) -> Token {
        let mut value = 0i64;
        let mut at = self.start;
        while at < self.text.len() && self.text[at].is_ascii_digit() {
            value = value.wrapping_mul(10).wrapping_add(i64::from(self.text[at] - b'0'));
            at += 1;
        }
        self.behind = at;
        if at - self.start > LONGEST_NUMBER {
            return Token::Fault;
        }
        Token::Number(value)
    }

    fn symbol(&mut self, first: u8) -> Token {
        let second = self.text.get(self.behind).copied();
        let (symbol, length) = match (first, second) {
            (b':', Some(b'=')) => (Symbol::Becomes, 2),
            (b'.', Some(b'.')) => (Symbol::Range, 2),
            (b'<', Some(b'=')) => (Symbol::AtMost, 2),
            (b'<', _) => (Symbol::Less, 1),
            (b'=', _) => (Symbol::Equal, 1),
            (b'+', _) => (Symbol::Plus, 1),
            (b'-', _) => (Symbol::Minus, 1),
            (b'*', _) => (Symbol::Times, 1),
            (b'(', _) => (Symbol::Open, 1),
            (b')', _) => (Symbol::Close, 1),
            (b'[', _) => (Symbol::OpenIndex, 1),
            (b']', _) => (Symbol::CloseIndex, 1),
            (b'{', _) => (Symbol::OpenBlock, 1),
            (b'}', _) => (Symbol::CloseBlock, 1),
            (b',', _) => (Symbol::Comma, 1),
            (b';', _) => (Symbol::Semicolon, 1),
            (b'.', _) => (Symbol::Dot, 1),
            _ => return Token::Fault,
        };
        self.behind = self.start + length;
        Token::Symbol(symbol)
    }
}
