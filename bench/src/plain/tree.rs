//! Sets of ranks as words, and a view's parents as a row.

pub const NONE: u8 = 255;

pub type Row = [u8; 64];

/// The ancestor set of each rank: the rank above it, and that one's ancestors.
const ANCESTORS: [u64; 64] = {
    let mut sets = [0; 64];
    let mut p = 1;
    while p < 64 {
        sets[p] = sets[p / 2] | 1 << (p / 2);
        p += 1;
    }
    sets
};

/// The members of a set, ascending.
pub fn members(mut set: u64) -> impl Iterator<Item = usize> {
    std::iter::from_fn(move || {
        let least = (set != 0).then(|| set.trailing_zeros() as usize);
        set &= set.wrapping_sub(1);
        least
    })
}

/// The largest unmarked ancestor, else the smallest unmarked rank below p, else none.
pub fn parent(marks: u64, p: usize) -> u8 {
    let near = ANCESTORS[p] & !marks;
    if near != 0 {
        return 63 - near.leading_zeros() as u8;
    }
    let below = ((1 << p) - 1) & !marks;
    if below == 0 { NONE } else { below.trailing_zeros() as u8 }
}

/// The row of a view, worked out from nothing.
pub fn fresh(n: usize, marks: u64) -> Row {
    let mut row = [NONE; 64];
    for (p, entry) in row[..n].iter_mut().enumerate() {
        *entry = parent(marks, p);
    }
    row
}

/// Who takes over from q, who is marked now: its parent, or, where it had none, the lowest unmarked rank.
pub fn heir(row: &Row, marks: u64, q: usize) -> u8 {
    if row[q] == NONE { (!marks).trailing_zeros() as u8 } else { row[q] }
}

/// The entry of p that was q: the heir, and none for the heir itself and any below it.
pub fn handed(heir: u8, p: usize) -> u8 {
    if usize::from(heir) < p { heir } else { NONE }
}

/// The ranks whose entry is q, in one scan. Each byte becomes 1 or 0, and the eight words of bytes are laid over each other, each one bit
/// further: 8 k + j is bit 8 j + k of them. It is faster than a bit at a time, or than eight words gathered by a product.
pub fn pointing(row: &Row, q: u8) -> impl Iterator<Item = usize> {
    let here = row.map(|entry| u8::from(entry == q));
    let words = here.chunks_exact(8).map(|eight| u64::from_le_bytes(eight.try_into().expect("eight bytes")));
    let laid = words.enumerate().fold(0, |laid, (k, word)| laid | word << k);
    members(laid).map(|bit| 8 * (bit % 8) + bit / 8)
}
