//! Random calls of mark and climb from a seed: views of every kind, damaged tables, numbers in and out of bounds.

use crate::cases::Case;
use crate::random::{any_form, Random};
use crate::tree::{set, Form, FLAT};
use crate::views::{climb, fresh, Table, NONE};

/// A word with the members below n, 64 of them at most.
fn below(n: u32) -> u64 {
    if n < 64 { (1 << n) - 1 } else { u64::MAX }
}

/// A number that is not in bounds and that becomes k where only its low bits are kept.
fn wraps_to(random: &mut Random, k: u32) -> u32 {
    random.pick(&[256, 512, 1 << 16, 1 << 24, 1 << 31]).expect("one") + k
}

pub fn size(random: &mut Random) -> u32 {
    match random.below(40) {
        0 => 0,
        1 => 65,
        2 => random.pick(&[66, 127, 128, 255, 256, u32::MAX]).expect("one"),
        3 => { let k = random.below(66); wraps_to(random, k) }
        4..=13 => random.size(),
        _ => 1 + random.below(64),
    }
}

/// A rank and all its ancestors.
fn path(p: u32) -> u64 {
    (0..7).fold(0, |word, i| word | 1 << (p >> i))
}

/// Marks below n: none, few, many, all from the root on, a rank's ancestors, all, all but one.
pub fn view(random: &mut Random, n: u32) -> u64 {
    let n = n.clamp(1, 64);
    let word = match random.below(24) {
        0..=1 => 0,
        2..=8 => (0..1 + random.below(4)).fold(0, |word, _| word | 1 << random.below(n)),
        9..=10 => random.next() & random.next(),
        11..=12 => random.next(),
        13..=14 => random.next() | random.next(),
        15..=18 => below(random.below(n + 1)),
        19..=20 => { let p = random.below(n); path(p) & !(1 << p) | 1 << random.below(n) }
        21..=22 => !(1 << random.below(n)),
        _ => u64::MAX,
    };
    word & below(n)
}

/// The view, and now and then marks outside the group.
pub fn with_outside(random: &mut Random, n: u32, view: u64, odds: u32) -> u64 {
    if n >= 64 || !random.one_in(odds) {
        return view;
    }
    match random.below(3) {
        0 => view | !below(n),
        1 => view | random.next() & !below(n),
        _ => view | 1 << (n + random.below(64 - n)),
    }
}

/// The ranks below n that the view has marked, or has not.
fn ranks(n: u32, view: u64, marked: bool) -> Vec<u32> {
    (0..n.min(64)).filter(|r| (view >> r & 1 == 1) == marked).collect()
}

/// The rank handed in, or another where there is none; now and then a number that is no rank.
fn number(random: &mut Random, n: u32, rank: Option<u32>) -> u32 {
    let rank = rank.unwrap_or(random.below(n.clamp(1, 64)));
    match random.below(40) {
        0 => n,
        1 => n.wrapping_add(1),
        2 => random.pick(&[64, 255, u32::MAX, u32::MAX - 1]).expect("one"),
        3 => wraps_to(random, rank),
        4 | 5 if n < 64 => n + random.below(64 - n),
        _ => rank,
    }
}

fn byte(random: &mut Random) -> u8 {
    match random.below(3) {
        0 => random.next() as u8,
        1 => random.below(65) as u8,
        _ => random.pick(&[0, 1, 63, 64, 254, NONE]).expect("one"),
    }
}

/// A place of a table, the last and the group's last more often than others.
fn place(random: &mut Random, n: u32) -> usize {
    let n = n.clamp(1, 64);
    let place = match random.below(4) {
        0 => 63,
        1 => n - 1,
        2 => random.below(n),
        _ => random.below(64),
    };
    place as usize
}

/// The table of a view; of a form that is none of the three, or of no box size, the flat one.
fn table_of(n: u32, form: Form, view: u64) -> Table {
    let form = if form.number > 2 || form.span == 0 { FLAT } else { form };
    fresh(n, form, &set(view))
}

/// A table that is nearly the fresh one of the view, or not at all.
fn damaged(random: &mut Random, n: u32, form: Form, view: u64, q: u32) -> Table {
    let mut table = table_of(n, form, view);
    let (here, there) = (place(random, n), place(random, n));
    match random.below(8) {
        0 | 1 => table[here] = byte(random),
        2 => table[here] = table[here].wrapping_add(1),
        3 | 4 => table.swap(here, there),
        // the table from before a mark, or from after it; of another size, or of another form
        5 => table = table_of(n, form, view ^ 1 << (q % 64)),
        6 if random.one_in(2) => table = table_of(size(random), form, view),
        6 => table = table_of(n, any_form(random, n), view),
        _ => table = std::array::from_fn(|_| byte(random)),
    }
    table
}

fn marking(random: &mut Random) -> Case {
    let n = size(random);
    let form = any_form(random, n);
    let view = view(random, n);
    // the smallest unmarked rank is a root, and moves most
    let ranks = ranks(n, view, random.one_in(8));
    let q = if random.one_in(3) { ranks.first().copied() } else { random.pick(&ranks) };
    let q = number(random, n, q);
    let table = if random.one_in(4) { damaged(random, n, form, view, q) } else { table_of(n, form, view) };
    Case::Mark { n, form, marks: with_outside(random, n, view, 12), q, table }
}

fn climbing(random: &mut Random) -> Case {
    let n = size(random);
    let form = any_form(random, n);
    let view = view(random, n);
    // the largest has the longest way
    let ranks = ranks(n, view, random.one_in(10));
    let p = if random.one_in(3) { ranks.last().copied() } else { random.pick(&ranks) };
    let p = number(random, n, p);
    let exact = climb(n, form, &set(view), p, u32::MAX).links;
    let allowance = match random.below(7) {
        0 | 1 => exact.saturating_sub(1),
        2 => exact,
        3 => exact + 1,
        4 => random.pick(&[u32::MAX, 1 << 31, 256, 64]).expect("one"),
        _ => random.below(9),
    };
    Case::Climb { n, form, marks: with_outside(random, n, view, 2), p, allowance }
}

/// The case of a seed; two of three are climbs, whose lines are short.
fn case(seed: u64) -> Case {
    let random = &mut Random::new(seed);
    if random.one_in(3) { marking(random) } else { climbing(random) }
}

pub fn cases(seed: u64, count: u64) -> Vec<Case> {
    (seed..seed + count).map(case).collect()
}

#[cfg(test)]
mod tests {
    use super::*;
    use crate::cases::{answers, read};
    use crate::views::mark;
    use std::collections::BTreeSet;

    fn gate(file: &str) -> String {
        let path = format!("{}/../../crates/tree_cases/{file}", env!("CARGO_MANIFEST_DIR"));
        std::fs::read_to_string(path).expect("a file of the gate's cases")
    }

    fn climb_shows(n: u32, form: Form, marks: u64, p: u32, allowance: u32) -> &'static str {
        let done = climb(n, form, &set(marks), p, allowance);
        match done.number {
            0 if marks & !below(n) != 0 => "climb, marks at n and above",
            0 if done.links == 6 => "climb, six links",
            0 if done.links == 0 => "climb, from the root",
            0 if form.number == 1 => "climb, star",
            0 if form.number == 2 => "climb, nested",
            0 => "climb",
            1 if p >= n => "climb 1, no rank either",
            1 if form.span == 0 || form.span > 64 => "climb 1, before 50",
            1 => "climb 1",
            50 if form.number > 2 => "climb 50, before 51",
            50 if form.number == 0 => "climb 50, flat",
            50 => "climb 50",
            51 if p >= n => "climb 51, no rank either",
            51 => "climb 51",
            4 if p < 64 && marks >> p & 1 == 1 => "climb 4, marked all the same",
            4 => "climb 4",
            6 if allowance == 0 => "climb 6, no allowance either",
            6 => "climb 6",
            12 if allowance == 0 => "climb 12, no link allowed",
            12 => "climb 12",
            _ => panic!("no answer of a climb"),
        }
    }

    fn mark_shows(n: u32, form: Form, marks: u64, q: u32, table: Table) -> &'static str {
        let done = mark(n, form, &set(marks), &table, q);
        let (outside, wanted) = (marks & !below(n) != 0, table_of(n, form, marks));
        match done.number {
            0 if marks >> q & 1 == 1 => "mark, again",
            0 if done.marks.len() as u32 == n => "mark, the last unmarked rank",
            0 if done.moved.count == 0 => "mark, moves none",
            0 if done.moved.count > 6 => "mark, moves many",
            0 if form.number == 1 => "mark, star",
            0 if form.number == 2 => "mark, nested",
            0 => "mark",
            1 => "mark 1",
            50 if form.number > 2 => "mark 50, before 51",
            50 => "mark 50",
            51 => "mark 51",
            2 if q >= n => "mark 2, no rank either",
            2 if table == wanted => "mark 2, by marks at n and above",
            2 if outside => "mark 2, by marks and table",
            2 if table[..63] == wanted[..63] => "mark 2, by the last entry",
            2 if table[..n as usize] == wanted[..n as usize] => "mark 2, by entries at n and above",
            2 => "mark 2, by entries below n",
            4 => "mark 4",
            _ => panic!("no answer of a mark"),
        }
    }

    fn shows(case: Case) -> &'static str {
        match case {
            Case::Climb { n, form, marks, p, allowance } => climb_shows(n, form, marks, p, allowance),
            Case::Mark { n, form, marks, q, table } | Case::Who { n, form, marks, q, table } => mark_shows(n, form, marks, q, table),
        }
    }

    /// Among the cases that the gate runs is each answer of each call, for each of its reasons.
    #[test]
    fn every_answer_occurs() {
        let cases = read(&gate("stdin")).expect("cases");
        assert_eq!(answers(&cases), gate("stdout"));
        let shown: BTreeSet<&str> = cases.into_iter().map(shows).collect();
        let wanted = [
            "climb", "climb, from the root", "climb, marks at n and above", "climb, nested", "climb, six links", "climb, star", "climb 1",
            "climb 1, before 50", "climb 1, no rank either", "climb 50", "climb 50, before 51", "climb 50, flat", "climb 51",
            "climb 51, no rank either",
            "climb 4", "climb 4, marked all the same", "climb 6", "climb 6, no allowance either", "climb 12", "climb 12, no link allowed",
            "mark", "mark, again", "mark, moves many", "mark, moves none", "mark, nested", "mark, star", "mark, the last unmarked rank",
            "mark 1", "mark 50", "mark 50, before 51", "mark 51",
            "mark 2, by entries at n and above", "mark 2, by entries below n", "mark 2, by marks and table",
            "mark 2, by marks at n and above", "mark 2, by the last entry", "mark 2, no rank either", "mark 4",
        ];
        assert_eq!(shown, BTreeSet::from(wanted));
    }
}
