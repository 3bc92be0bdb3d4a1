//! Hashing of words, and a hash table of numbers whose keys its user keeps.

const MULTIPLIER: u64 = 0x517c_c1b7_2722_0a95;
const SMALLEST: usize = 64;

/// The hash of what was hashed to `hash` with one word more behind it.
#[inline(always)]
pub fn mix(hash: u64, word: u64) -> u64 {
    (hash.rotate_left(5) ^ word).wrapping_mul(MULTIPLIER)
}

/// The hash of a text.
pub fn of_bytes(bytes: &[u8]) -> u64 {
    let mut hash = bytes.len() as u64;
    let mut chunks = bytes.chunks_exact(8);
    for chunk in &mut chunks {
        hash = mix(hash, chunk.iter().rev().fold(0, |word, &byte| word << 8 | u64::from(byte)));
    }
    mix(hash, chunks.remainder().iter().fold(0, |word, &byte| word << 8 | u64::from(byte)))
}

/// A table of numbers by hash, with open addressing. Their keys are elsewhere, and are compared by a function that is given.
///
/// A slot that is taken has the upper half of a hash, and below it one more than the number. The upper bits of a hash choose the slot.
pub struct Numbers {
    slots: Vec<u64>,
    shift: u32,
    count: usize,
}

impl Numbers {
    /// An empty table.
    pub fn new() -> Numbers {
        Numbers { slots: vec![0; SMALLEST], shift: 64 - SMALLEST.trailing_zeros(), count: 0 }
    }

    /// Takes all numbers out, and keeps the room.
    pub fn clear(&mut self) {
        self.slots.fill(0);
        self.count = 0;
    }

    /// What stands where a number with this hash is looked for first.
    #[inline(always)]
    pub fn slot(&self, hash: u64) -> u64 {
        self.slots[(hash >> self.shift) as usize]
    }

    /// The number with this hash of which `is_equal` holds; where there is none, `number` is put there.
    #[inline(always)]
    pub fn find_or_put(&mut self, hash: u64, number: u32, is_equal: impl Fn(u32) -> bool) -> Option<u32> {
        let mask = self.slots.len() - 1;
        let mut at = (hash >> self.shift) as usize;
        loop {
            let slot = self.slots[at & mask];
            if slot == 0 {
                break;
            }
            if slot >> 32 == hash >> 32 && is_equal(slot as u32 - 1) {
                return Some(slot as u32 - 1);
            }
            at += 1;
        }
        self.slots[at & mask] = hash >> 32 << 32 | u64::from(number + 1);
        self.count += 1;
        if self.count * 2 > self.slots.len() {
            self.grow();
        }
        None
    }

    #[cold]
    fn grow(&mut self) {
        let larger = vec![0; self.slots.len() * 2];
        let slots = std::mem::replace(&mut self.slots, larger);
        self.shift -= 1;
        let mask = self.slots.len() - 1;
        for slot in slots.into_iter().filter(|&slot| slot != 0) {
            let mut at = (slot >> self.shift) as usize;
            while self.slots[at & mask] != 0 {
                at += 1;
            }
            self.slots[at & mask] = slot;
        }
    }
}
