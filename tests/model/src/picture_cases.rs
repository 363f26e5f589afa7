//! Calls of the writer and the reader as a text, and what must answer them. The program of crates/picture_cases reads the one and prints the
//! other:
//!
//!     write N MARKS ROOM                 write NUMBER LENGTH, and the lent buffer, which held dots, on lines of its own
//!     read LENGTH, and so many bytes     read NUMBER SIZE MARKS

use crate::pictures::{picture, read, write};
use crate::random::Random;
use crate::random_views::{size, view, with_outside};
use crate::tree::{set, word};

#[derive(Clone, PartialEq, Debug)]
pub enum Case {
    Write { n: u32, marks: u64, room: usize },
    Read { text: Vec<u8> },
}

/// The largest buffer that a case lends.
const MOST: usize = 1024;

impl Case {
    fn bytes(&self) -> Vec<u8> {
        match self {
            Case::Write { n, marks, room } => format!("write {n} {marks} {room}\n").into_bytes(),
            Case::Read { text } => [format!("read {}\n", text.len()).as_bytes(), text].concat(),
        }
    }

    pub fn answer(&self) -> String {
        match self {
            Case::Write { n, marks, room } => {
                let (number, text) = match write(*n, &set(*marks), *room) {
                    Ok(text) => (0, text),
                    Err(number) => (number, String::new()),
                };
                format!("write {number} {}\n{text}{}\n", text.len(), ".".repeat(room - text.len()))
            }
            Case::Read { text } => match read(text) {
                Some((n, marks)) => format!("read 0 {n} {}\n", word(&marks)),
                None => "read 31 0 0\n".to_string(),
            },
        }
    }
}

pub fn bytes(cases: &[Case]) -> Vec<u8> {
    cases.iter().flat_map(Case::bytes).collect()
}

pub fn answers(cases: &[Case]) -> String {
    cases.iter().map(Case::answer).collect()
}

fn writing(random: &mut Random) -> Case {
    let n = size(random);
    let view = view(random, n);
    let marks = with_outside(random, n, view, 12);
    let exact = write(n, &set(marks), usize::MAX).map_or(60, |text| text.len());
    let room = match random.below(6) {
        0 => exact - 1,
        1 | 2 => exact,
        3 => exact + 1 + random.below(9) as usize,
        4 => random.below(MOST as u32 + 1) as usize,
        _ => random.pick(&[0, 1, 876, MOST]).expect("one"),
    };
    Case::Write { n, marks, room: room.min(MOST) }
}

/// The picture of a view that leaves a rank.
fn drawn(random: &mut Random) -> Vec<u8> {
    let n = random.size();
    let view = view(random, n);
    let left = if view.count_ones() == n { view & !(1 << random.below(n)) } else { view };
    picture(n, &set(left)).into_bytes()
}

fn byte(random: &mut Random) -> u8 {
    match random.below(3) {
        0 => random.next() as u8,
        1 => b'0' + random.below(10) as u8,
        _ => random.pick(b"\n ;-> [shape=box]{}v").expect("one"),
    }
}

/// A place where a piece of the text may begin or end.
fn place(random: &mut Random, text: &[u8]) -> usize {
    random.below(text.len() as u32 + 1) as usize
}

/// Puts a line of the text elsewhere: its own place and the new one.
fn moved(random: &mut Random, text: &[u8]) -> Vec<u8> {
    let mut lines: Vec<&[u8]> = text.split_inclusive(|b| *b == b'\n').collect();
    let line = lines.remove(random.below(lines.len() as u32) as usize);
    lines.insert(random.below(lines.len() as u32 + 1) as usize, line);
    lines.concat()
}

/// The text damaged in one way: a byte changed, cut, doubled, a line moved, a byte more.
fn damaged(random: &mut Random, text: &[u8]) -> Vec<u8> {
    let (a, b) = (place(random, text), place(random, text));
    let (from, to) = (a.min(b), a.max(b));
    match random.below(9) {
        0..=2 => {
            let mut other = text.to_vec();
            other[a.min(text.len() - 1)] = byte(random);
            other
        }
        3 => text[..a].to_vec(),
        4 => [&text[..from], &text[to..]].concat(),
        5 => [text, text].concat(),
        6 => [&text[..to], &text[from..]].concat(),
        7 => moved(random, text),
        _ => [text, &[random.pick(b"\n} ").expect("one")]].concat(),
    }
}

/// The cases of a seed: a view written, and a text read, which may be damaged.
fn pair(seed: u64) -> [Case; 2] {
    let random = &mut Random::new(seed);
    let written = writing(random);
    let text = drawn(random);
    let text = if random.one_in(8) { text } else { damaged(random, &text) };
    [written, Case::Read { text }]
}

pub fn cases(seed: u64, count: u64) -> Vec<Case> {
    (seed..seed + count).flat_map(pair).collect()
}

#[cfg(test)]
mod tests {
    use super::*;
    use std::collections::BTreeSet;

    fn gate(file: &str) -> Vec<u8> {
        let path = format!("{}/../../crates/picture_cases/{file}", env!("CARGO_MANIFEST_DIR"));
        std::fs::read(path).expect("a file of the gate's cases")
    }

    #[test]
    fn example() {
        let text = b"digraph v3 {\n1 [shape=box];\n2;\n2 -> 1;\n}\n".to_vec();
        let cases = [Case::Write { n: 3, marks: 1, room: 42 }, Case::Write { n: 3, marks: 1, room: 2 }, Case::Read { text }];
        let wanted = "write 0 41\ndigraph v3 {\n1 [shape=box];\n2;\n2 -> 1;\n}\n.\nwrite 30 0\n..\nread 0 3 1\n";
        assert_eq!(answers(&cases), wanted);
        assert!(bytes(&cases).starts_with(b"write 3 1 42\nwrite 3 1 2\nread 41\ndigraph"));
    }

    fn shows(case: &Case) -> &'static str {
        match case {
            Case::Write { n, marks, room } => match write(*n, &set(*marks), *room) {
                Ok(text) if text.len() == *room => "write, to the last byte",
                Ok(_) => "write",
                Err(1) => "write 1",
                Err(2) if *n < 64 && marks >> n != 0 => "write 2, by marks at n and above",
                Err(2) => "write 2, by no rank left",
                Err(_) if write(*n, &set(*marks), room + 1).is_ok() => "write 30, by one byte",
                Err(_) => "write 30",
            },
            Case::Read { text } if text.is_empty() => "read 31, of no bytes",
            Case::Read { text } if read(text).is_some() => "read",
            Case::Read { text } if text.ends_with(b"}\n\n") => "read 31, by a second line feed",
            Case::Read { text } if text.ends_with(b"}\n") => "read 31, with an end",
            Case::Read { .. } => "read 31",
        }
    }

    /// Among the cases that the gate runs, those of tests/renew, is each answer of each call, for each of its reasons.
    #[test]
    fn every_answer_occurs() {
        let cases = cases(7, 150);
        assert_eq!(bytes(&cases), gate("stdin"));
        assert_eq!(answers(&cases).into_bytes(), gate("stdout"));
        let shown: BTreeSet<&str> = cases.iter().map(shows).collect();
        let wanted = [
            "write", "write, to the last byte", "write 1", "write 2, by marks at n and above", "write 2, by no rank left", "write 30",
            "write 30, by one byte", "read", "read 31", "read 31, by a second line feed", "read 31, of no bytes", "read 31, with an end",
        ];
        assert_eq!(shown, BTreeSet::from(wanted));
    }
}
