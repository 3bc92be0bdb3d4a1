//! Linear forms of values over the objects' changes in a round.

/// A factor of an object. One factor serves the deltas of all sites.
#[derive(Clone, Copy, PartialEq, Eq)]
pub struct Term {
    pub factor: i64,
    pub object: u32,
}

/// A constant, terms in the order of their objects without factors of 0, and the objects that are mixed.
#[derive(Default)]
pub struct Form {
    pub constant: i64,
    pub terms: Vec<Term>,
    pub mixed: Vec<u32>,
}

impl Form {
    /// Makes it the number 0.
    pub fn clear(&mut self) {
        self.constant = 0;
        self.terms.clear();
        self.mixed.clear();
    }

    /// Adds a multiple of another form, which may leave the terms out of order.
    #[inline]
    pub fn add(&mut self, factor: i64, constant: i64, terms: &[Term], mixed: &[u32]) {
        self.constant = self.constant.wrapping_add(factor.wrapping_mul(constant));
        self.terms.extend(terms.iter().map(|term| Term { factor: factor.wrapping_mul(term.factor), object: term.object }));
        self.mixed.extend_from_slice(mixed);
    }

    /// Adds a multiple of an object that has this value at the base.
    #[inline]
    pub fn add_object(&mut self, factor: i64, object: u32, base: i64) {
        self.constant = self.constant.wrapping_add(factor.wrapping_mul(base));
        self.terms.push(Term { factor, object });
    }

    /// Puts the terms in order.
    #[inline]
    pub fn settle(&mut self) {
        if let [term] = self.terms[..] {
            if term.factor == 0 {
                self.terms.clear();
            }
        } else if self.terms.len() > 1 {
            self.settle_terms();
        }
        if self.mixed.len() > 1 {
            self.mixed.sort_unstable();
            self.mixed.dedup();
        }
    }

    fn settle_terms(&mut self) {
        if !self.terms.is_sorted_by(|left, right| left.object < right.object) {
            self.terms.sort_unstable_by_key(|term| term.object);
            self.terms.dedup_by(|next, kept| {
                let is_same = next.object == kept.object;
                if is_same {
                    kept.factor = kept.factor.wrapping_add(next.factor);
                }
                is_same
            });
        }
        self.terms.retain(|term| term.factor != 0);
    }

    /// Whether it is a number, whatever the deltas are.
    pub fn is_pure(&self) -> bool {
        self.terms.is_empty() && self.mixed.is_empty()
    }

    /// Multiplies it by a number.
    pub fn scale(&mut self, factor: i64) {
        self.constant = self.constant.wrapping_mul(factor);
        if factor == 0 {
            self.terms.clear();
        }
        self.terms.iter_mut().for_each(|term| term.factor = term.factor.wrapping_mul(factor));
    }

    /// Multiplies it by another form. Where both depend on deltas, all these are mixed, and stand in any order.
    pub fn multiply(&mut self, other: &mut Form) {
        if self.is_pure() {
            std::mem::swap(self, other);
        }
        if other.is_pure() {
            return self.scale(other.constant);
        }
        self.constant = self.constant.wrapping_mul(other.constant);
        self.mixed.extend(self.terms.drain(..).chain(other.terms.drain(..)).map(|term| term.object));
        self.mixed.append(&mut other.mixed);
    }
}
