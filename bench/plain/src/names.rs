//! The words of a text, each with a number.

use crate::hash::{self, Numbers};

macro_rules! reserved {
    ($($word:ident = $text:literal),*) => {
        /// The reserved words. Their numbers as names are those that they have here.
        #[derive(Clone, Copy)]
        pub enum Word { $(#[doc = $text] $word),* }

        /// Their texts, and that of one that the grammar makes no use of.
        const RESERVED: &[&str] = &[$($text),*, "used"];
    };
}

reserved! {
    Workload = "workload", Sites = "sites", Object = "object", In = "in", Relation = "relation", Transaction = "transaction",
    Client = "client", At = "at", Schedule = "schedule", End = "end", If = "if", Then = "then", Else = "else", Skip = "skip",
    Write = "write", Read = "read", Print = "print", Foreach = "foreach", Of = "of", When = "when", Insert = "insert", Into = "into",
    Delete = "delete", Update = "update", Set = "set", Count = "count", Sum = "sum", And = "and", Not = "not",
    True = "true"
}

/// The names that occur in a text, each once; the reserved words are the first of them.
pub struct Names<'a> {
    table: Numbers,
    texts: Vec<&'a [u8]>,
}

impl<'a> Names<'a> {
    /// The reserved words alone.
    pub fn new() -> Names<'a> {
        let mut names = Names { table: Numbers::new(), texts: Vec::new() };
        for word in RESERVED {
            names.number(word.as_bytes());
        }
        names
    }

    /// The number of a name.
    #[inline]
    pub fn number(&mut self, text: &'a [u8]) -> u32 {
        let next = self.texts.len() as u32;
        let texts = &self.texts;
        let found = self.table.find_or_put(hash::of_bytes(text), next, |number| texts[number as usize] == text);
        found.unwrap_or_else(|| {
            self.texts.push(text);
            next
        })
    }

    /// Whether the name is no reserved word.
    pub fn is_free(number: u32) -> bool {
        number as usize >= RESERVED.len()
    }

    /// The text of a name.
    pub fn text(&self, number: u32) -> String {
        String::from_utf8_lossy(self.texts[number as usize]).into_owned()
    }
}
