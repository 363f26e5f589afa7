//! Document 01's two calls on a view, mark and climb, with their refusals, in the forms of request 2026-09.

use crate::tree::{mark_one, misshapen, parent, Form, Moved, Set};
use std::iter::successors;

pub const NONE: u8 = 255;
pub type Table = [u8; 64];

/// The parents of the ranks below n; who has none, and every entry at n and above, holds 255.
pub fn fresh(n: u32, form: Form, marks: &Set) -> Table {
    let entry = |p: u32| if p < n { parent(form, marks, p).map_or(NONE, |a| a as u8) } else { NONE };
    std::array::from_fn(|p| entry(p as u32))
}

#[derive(Clone, PartialEq, Debug)]
pub struct Marked {
    pub number: u32,
    pub marks: Set,
    pub table: Table,
    pub moved: Moved,
}

/// The view with q marked, its fresh table and who moved; a refusal hands back view and table, and nobody moved.
pub fn mark(n: u32, form: Form, marks: &Set, table: &Table, q: u32) -> Marked {
    let refused = |number| Marked { number, marks: marks.clone(), table: *table, moved: Moved::default() };
    if let Some(number) = misshapen(n, form) {
        return refused(number);
    }
    if marks.iter().any(|r| *r >= n) || *table != fresh(n, form, marks) {
        return refused(2);
    }
    if q >= n {
        return refused(4);
    }
    let (mut after, mut moved) = (marks.clone(), Moved::default());
    mark_one(n, form, &mut after, q, &mut moved);
    Marked { number: 0, table: fresh(n, form, &after), moved, marks: after }
}

#[derive(Clone, Copy, PartialEq, Debug)]
pub struct Climbed {
    pub number: u32,
    pub rank: u32,
    pub links: u32,
}

/// The root above p and the links to it, or the rank that the allowance reaches. Marks at n and above are ignored.
pub fn climb(n: u32, form: Form, marks: &Set, p: u32, allowance: u32) -> Climbed {
    if let Some(number) = misshapen(n, form) {
        return Climbed { number, rank: NONE as u32, links: 0 };
    }
    if p >= n {
        return Climbed { number: 4, rank: NONE as u32, links: 0 };
    }
    let marks: Set = marks.iter().copied().filter(|r| *r < n).collect();
    if marks.contains(&p) {
        return Climbed { number: 6, rank: p, links: 0 };
    }
    let path: Vec<u32> = successors(Some(p), |r| parent(form, &marks, *r)).collect();
    let needed = path.len() as u32 - 1;
    if needed > allowance {
        return Climbed { number: 12, rank: path[allowance as usize], links: allowance };
    }
    Climbed { number: 0, rank: path[needed as usize], links: needed }
}

#[cfg(test)]
mod tests {
    use super::*;
    use crate::tree::FLAT;

    /// A mark in a group of 8 that must be accepted: the view, the table and moved afterwards.
    fn marked(marks: &[u32], q: u32) -> (Vec<u32>, Table, u32) {
        let marks = marks.iter().copied().collect();
        let done = mark(8, FLAT, &marks, &fresh(8, FLAT, &marks), q);
        assert_eq!(done.number, 0);
        (done.marks.into_iter().collect(), done.table, done.moved.count)
    }

    fn table_of_8(parents: [u8; 8]) -> Table {
        std::array::from_fn(|p| parents.get(p).copied().unwrap_or(NONE))
    }

    #[test]
    fn examples_2_to_6() {
        assert_eq!(fresh(8, FLAT, &Set::new()), table_of_8([255, 0, 1, 1, 2, 2, 3, 3]));
        assert_eq!(marked(&[], 1), (vec![1], table_of_8([255, 0, 0, 0, 2, 2, 3, 3]), 2));
        assert_eq!(marked(&[], 0), (vec![0], table_of_8([255, 255, 1, 1, 2, 2, 3, 3]), 1));
        assert_eq!(marked(&[0], 1), (vec![0, 1], table_of_8([255, 255, 255, 2, 2, 2, 3, 3]), 2));
        let after = table_of_8([255, 255, 255, 255, 3, 3, 3, 3]);
        assert_eq!(marked(&[0, 1], 2), (vec![0, 1, 2], after, 3));
        assert_eq!(marked(&[0, 1, 2], 2), (vec![0, 1, 2], after, 0));
    }

    #[test]
    fn example_7() {
        let none = Set::new();
        assert_eq!(climb(64, FLAT, &none, 63, 6), Climbed { number: 0, rank: 0, links: 6 });
        assert_eq!(climb(64, FLAT, &none, 63, u32::MAX), Climbed { number: 0, rank: 0, links: 6 });
        assert_eq!(climb(64, FLAT, &none, 63, 5), Climbed { number: 12, rank: 1, links: 5 });
    }

    #[test]
    fn refusals() {
        let marks = Set::from([1, 8]);
        let table = fresh(8, FLAT, &marks);
        let back = |number, table| Marked { number, marks: marks.clone(), table, moved: Moved::default() };
        assert_eq!(mark(65, FLAT, &marks, &table, 65), back(1, table));
        assert_eq!(mark(8, FLAT, &marks, &table, 8), back(2, table));
        assert_eq!(mark(9, FLAT, &marks, &[NONE; 64], 9), back(2, [NONE; 64]));
        assert_eq!(mark(9, FLAT, &marks, &fresh(9, FLAT, &marks), 9), back(4, fresh(9, FLAT, &marks)));
        assert_eq!(climb(0, FLAT, &marks, 0, 0), Climbed { number: 1, rank: 255, links: 0 });
        assert_eq!(climb(8, FLAT, &marks, 8, 0), Climbed { number: 4, rank: 255, links: 0 });
        assert_eq!(climb(8, FLAT, &marks, 1, 0), Climbed { number: 6, rank: 1, links: 0 });
        assert_eq!(climb(8, FLAT, &marks, 2, 0), Climbed { number: 12, rank: 2, links: 0 });
    }

    #[test]
    fn the_last_unmarked_rank() {
        let done = mark(1, FLAT, &Set::new(), &[NONE; 64], 0);
        assert_eq!(done, Marked { number: 0, marks: Set::from([0]), table: [NONE; 64], moved: Moved::default() });
    }
}
