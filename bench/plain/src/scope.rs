//! What the names of a text mean at the place that is read.

/// What a name means.
#[derive(Clone, Copy, PartialEq, Eq)]
pub enum Meaning {
    Unknown,
    Object(u32),
    Relation(u32),
    Transaction(u32),
    Client(u32),
    Parameter(u32),
    Temporary(u32),
    Row { relation: u32, row: u32 },
}

/// The meanings of all names, and what the transaction that is read has made of its own.
#[derive(Default)]
pub struct Scope {
    meanings: Vec<Meaning>,
    ever_local: Vec<bool>,
    locals: Vec<u32>,
    temporaries: u32,
    rows: u32,
}

impl Scope {
    /// What a name means.
    pub fn meaning(&self, name: u32) -> Meaning {
        self.meanings.get(name as usize).copied().unwrap_or(Meaning::Unknown)
    }

    /// Gives a name a meaning in the whole text. Refused where it has one, or had one in a transaction.
    pub fn declare(&mut self, name: u32, meaning: Meaning) -> Result<(), ()> {
        self.reach(name);
        if self.meaning(name) != Meaning::Unknown || self.ever_local[name as usize] {
            return Err(());
        }
        self.meanings[name as usize] = meaning;
        Ok(())
    }

    /// Gives a name a meaning in the transaction that is read. Refused where it has one.
    pub fn declare_locally(&mut self, name: u32, meaning: Meaning) -> Result<(), ()> {
        self.reach(name);
        if self.meaning(name) != Meaning::Unknown {
            return Err(());
        }
        self.meanings[name as usize] = meaning;
        self.ever_local[name as usize] = true;
        self.locals.push(name);
        Ok(())
    }

    /// The temporary of a name that may be set: a new one where the name is unknown.
    pub fn temporary(&mut self, name: u32) -> Result<u32, ()> {
        match self.meaning(name) {
            Meaning::Temporary(temporary) => Ok(temporary),
            _ => {
                let temporary = self.temporaries;
                self.declare_locally(name, Meaning::Temporary(temporary))?;
                self.temporaries += 1;
                Ok(temporary)
            }
        }
    }

    /// Declares a row variable within those that hold the place.
    pub fn enter_row(&mut self, name: u32, relation: u32) -> Result<(), ()> {
        self.declare_locally(name, Meaning::Row { relation, row: self.rows })?;
        self.rows += 1;
        Ok(())
    }

    /// Ends what the innermost row variable holds.
    pub fn leave_row(&mut self, name: u32) {
        self.meanings[name as usize] = Meaning::Unknown;
        self.rows -= 1;
    }

    /// Ends a transaction, and gives the number of its temporaries.
    pub fn leave_transaction(&mut self) -> u32 {
        for name in self.locals.drain(..) {
            self.meanings[name as usize] = Meaning::Unknown;
        }
        std::mem::take(&mut self.temporaries)
    }

    fn reach(&mut self, name: u32) {
        if self.meanings.len() <= name as usize {
            self.meanings.resize(name as usize + 1, Meaning::Unknown);
            self.ever_local.resize(name as usize + 1, false);
        }
    }
}
