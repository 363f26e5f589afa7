//! What is agreed on: a word, the deaths that are known and those that are acknowledged.

/// Packed, so that a rank's record has no gap, which is faster.
#[derive(Clone, Copy)]
#[repr(packed(4))]
pub struct Triple {
    pub word: u32,
    pub known: u64,
    pub acknowledged: u64,
}

impl Triple {
    pub const ZERO: Triple = Triple { word: 0, known: 0, acknowledged: 0 };

    /// All bits, no ranks, all ranks of the group.
    pub fn fresh(n: usize) -> Triple {
        Triple { word: u32::MAX, known: 0, acknowledged: u64::MAX >> (64 - n) }
    }

    /// AND, OR and AND.
    pub fn combine(&mut self, with: Triple) {
        self.word &= with.word;
        self.known |= with.known;
        self.acknowledged &= with.acknowledged;
    }

    /// 1 if a known death is missing from the common acknowledged set, else 0.
    pub fn code(self) -> u32 {
        u32::from(self.known & !self.acknowledged != 0)
    }
}
