//! Request 2026-08, what is agreed on: a word, the deaths that are known and those that are acknowledged. A set has one bit a rank.

/// All 0 by default: what an ASK carries, and the result until it is decided.
#[derive(Clone, Copy, Default, PartialEq, Debug)]
pub struct Triple {
    pub word: u32,
    pub known: u64,
    pub acknowledged: u64,
}

impl Triple {
    /// All bits, no ranks, all ranks of the group.
    pub fn fresh(n: u32) -> Triple {
        Triple { word: u32::MAX, known: 0, acknowledged: (0..n).map(|r| 1 << r).sum() }
    }

    /// AND, OR and AND.
    pub fn combined(self, with: Triple) -> Triple {
        Triple { word: self.word & with.word, known: self.known | with.known, acknowledged: self.acknowledged & with.acknowledged }
    }

    /// These ranks are known to be dead as well.
    pub fn knowing(self, dead: u64) -> Triple {
        Triple { known: self.known | dead, ..self }
    }

    /// 1 if a known death is missing from the common acknowledged set, else 0.
    pub fn code(self) -> u32 {
        (self.known & !self.acknowledged != 0) as u32
    }
}

#[cfg(test)]
mod tests {
    use super::*;

    #[test]
    fn triples() {
        let (a, b) = (Triple { word: 6, known: 1, acknowledged: 3 }, Triple { word: 12, known: 4, acknowledged: 6 });
        assert_eq!(a.combined(b), Triple { word: 4, known: 5, acknowledged: 2 });
        assert_eq!(Triple::fresh(3).combined(a), a);
        assert_eq!(Triple::fresh(64).acknowledged, u64::MAX);
        assert_eq!(a.knowing(8), Triple { word: 6, known: 9, acknowledged: 3 });
        assert_eq!([a, b, a.combined(b), a.knowing(2), a.knowing(8), Triple::default()].map(Triple::code), [0, 0, 1, 0, 1, 0]);
    }
}
