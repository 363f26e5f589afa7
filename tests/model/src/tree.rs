//! Document 01, "The tree", with the forms of request 2026-09, over plain sets of numbers; everything is rebuilt from the definition each time.

use std::collections::BTreeSet;

pub type Set = BTreeSet<u32>;

/// The set whose members are the bits of a word that are on.
pub fn set(word: u64) -> Set {
    (0..64).filter(|r| word >> r & 1 == 1).collect()
}

/// The word with a bit on for each member.
pub fn word(set: &Set) -> u64 {
    set.iter().map(|r| 1 << r).sum()
}

/// The form of a tree, 0 flat, 1 star, 2 nested, and its box size, which the flat one ignores.
#[derive(Clone, Copy, PartialEq, Debug)]
pub struct Form {
    pub number: u32,
    pub span: u32,
}

/// What schedule files and pictures mean.
pub const FLAT: Form = Form { number: 0, span: 1 };

/// The first that applies of 1, group size not 1 to 64; 50, box size not 1 to 64, for the flat form too; 51, unknown form.
pub fn misshapen(n: u32, form: Form) -> Option<u32> {
    let is_size = |x: u32| (1..=64).contains(&x);
    match form {
        _ if !is_size(n) => Some(1),
        Form { span, .. } if !is_size(span) => Some(50),
        Form { number, .. } if number > 2 => Some(51),
        _ => None,
    }
}

/// floor(p / 2^i) for i from 1, up to and including 0; 0 has none.
fn halves(p: u32) -> Set {
    let mut found = Set::new();
    let mut a = p;
    while a > 0 {
        a /= 2;
        found.insert(a);
    }
    found
}

/// The flat tree halves ranks. In the others the ancestors are those inside the box, then the box leaders above: the leader of box k is its lowest
/// rank, and stands for it in a tree that halves box numbers. Inside, the others report to the leader, or along a tree that halves places.
fn ancestors(form: Form, p: u32) -> Set {
    let Form { number, span } = form;
    if number == 0 {
        return halves(p);
    }
    let (leader, place) = (p - p % span, p % span);
    let inside = match number {
        1 if place == 0 => Set::new(),
        1 => Set::from([leader]),
        _ => halves(place).into_iter().map(|k| leader + k).collect(),
    };
    let leaders = halves(p / span).into_iter().map(|k| k * span).collect();
    inside.union(&leaders).copied().collect()
}

/// The largest unmarked ancestor, else the smallest unmarked rank below p, else none.
pub fn parent(form: Form, marks: &Set, p: u32) -> Option<u32> {
    let nearest = ancestors(form, p).into_iter().rev().find(|a| !marks.contains(a));
    nearest.or_else(|| (0..p).find(|a| !marks.contains(a)))
}

/// The unmarked ranks whose parent is p.
pub fn children(n: u32, form: Form, marks: &Set, p: u32) -> Set {
    (0..n).filter(|c| !marks.contains(c) && parent(form, marks, *c) == Some(p)).collect()
}

/// The unmarked ranks, after the mark, whose parent is another one than before it.
fn movers(n: u32, form: Form, before: &Set, after: &Set) -> Set {
    (0..n).filter(|r| !after.contains(r) && parent(form, before, *r) != parent(form, after, *r)).collect()
}

/// Who moved, and how many: of several marks the union, and the sum.
#[derive(Clone, Default, PartialEq, Debug)]
pub struct Moved {
    pub ranks: Set,
    pub count: u32,
}

/// Marks a rank; who moves by it joins those that have moved.
pub fn mark_one(n: u32, form: Form, marks: &mut Set, q: u32, moved: &mut Moved) {
    let before = marks.clone();
    marks.insert(q);
    let movers = movers(n, form, &before, marks);
    moved.count += movers.len() as u32;
    moved.ranks.extend(movers);
}

#[cfg(test)]
mod tests {
    use super::*;

    #[test]
    fn words_and_sets() {
        assert_eq!(set(0b1001 | 1 << 63), Set::from([0, 3, 63]));
        assert_eq!(word(&set(u64::MAX)), u64::MAX);
    }

    fn table_in(form: Form, n: u32, marks: &[u32]) -> Vec<u32> {
        let marks = marks.iter().copied().collect();
        (0..n).map(|p| parent(form, &marks, p).unwrap_or(255)).collect()
    }

    fn table(n: u32, marks: &[u32]) -> Vec<u32> {
        table_in(FLAT, n, marks)
    }

    /// Who moves in a view of n ranks where these are marked one after the other, and how many.
    fn moves(n: u32, before: &[u32], marked: impl IntoIterator<Item = u32>) -> (Vec<u32>, u32) {
        let (mut marks, mut moved) = (before.iter().copied().collect(), Moved::default());
        for q in marked {
            mark_one(n, FLAT, &mut marks, q, &mut moved);
        }
        (moved.ranks.into_iter().collect(), moved.count)
    }

    #[test]
    fn examples_1_to_6() {
        assert_eq!(table(8, &[]), [255, 0, 1, 1, 2, 2, 3, 3]);
        assert_eq!(table(8, &[1])[2..4], [0, 0]);
        assert_eq!(moves(8, &[], [1]), (vec![2, 3], 2));
        assert_eq!(table(8, &[0])[1], 255);
        assert_eq!(moves(8, &[], [0]), (vec![1], 1));
        assert_eq!(table(8, &[0, 1])[2..4], [255, 2]);
        assert_eq!(moves(8, &[0], [1]), (vec![2, 3], 2));
        assert_eq!(table(8, &[0, 1, 2])[3..8], [255, 3, 3, 3, 3]);
        assert_eq!(moves(8, &[0, 1], [2]), (vec![3, 4, 5], 3));
        assert_eq!(moves(8, &[0, 1, 2], [2]), (vec![], 0));
    }

    /// Request 2026-09, by hand: ten ranks in boxes of four, so that the last box has two.
    #[test]
    fn forms() {
        let (star, nested) = (Form { number: 1, span: 4 }, Form { number: 2, span: 4 });
        assert_eq!(table_in(star, 10, &[]), [255, 0, 0, 0, 0, 4, 4, 4, 4, 8]);
        assert_eq!(table_in(star, 10, &[4]), [255, 0, 0, 0, 0, 0, 0, 0, 0, 8]);
        assert_eq!(table_in(nested, 10, &[]), [255, 0, 1, 1, 0, 4, 5, 5, 4, 8]);
        assert_eq!(table_in(nested, 10, &[4, 5]), [255, 0, 1, 1, 0, 0, 0, 0, 0, 8]);
        for n in 1..=64 {
            for (number, span) in [(1, 1), (2, 1), (2, 64), (0, 1), (0, 7), (0, 64)] {
                assert_eq!(table_in(Form { number, span }, n, &[1]), table(n, &[1]), "{number} {span}");
            }
            assert_eq!(table_in(Form { number: 1, span: 64 }, n, &[]), [vec![255], vec![0; n as usize - 1]].concat());
        }
    }

    #[test]
    fn shapes() {
        for (n, number, span, refusal) in [(0, 3, 0, Some(1)), (65, 0, 1, Some(1)), (1, 3, 0, Some(50)), (64, 0, 65, Some(50)), (8, 3, 64, Some(51)), (8, 2, 64, None)] {
            assert_eq!(misshapen(n, Form { number, span }), refusal);
        }
    }

    /// Request 2026-01: the marks of an ASK, where a rank moves and is then marked, and where one moves twice.
    #[test]
    fn union_and_sum() {
        assert_eq!(moves(4, &[], 0..2), (vec![1, 2, 3], 3));
        assert_eq!(moves(5, &[], 0..3), (vec![1, 2, 3, 4], 5));
    }
}
