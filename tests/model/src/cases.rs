//! Calls of mark and climb as a text, a case a line, and the lines that must answer them. The program of crates/tree_cases reads the one
//! and prints the other:
//!
//!     climb N FORM BOX MARKS RANK ALLOWANCE     climb NUMBER RANK LINKS
//!     mark N FORM BOX MARKS RANK T0 .. T63      mark NUMBER MARKS COUNT T0 .. T63
//!     who N FORM BOX MARKS RANK T0 .. T63       who NUMBER COUNT RANKS, of the same mark

use crate::tree::{set, word, Form};
use crate::views::{climb, mark, Table};

#[derive(Clone, Copy, PartialEq, Debug)]
pub enum Case {
    Climb { n: u32, form: Form, marks: u64, p: u32, allowance: u32 },
    Mark { n: u32, form: Form, marks: u64, q: u32, table: Table },
    Who { n: u32, form: Form, marks: u64, q: u32, table: Table },
}

fn shape(n: u32, form: Form) -> String {
    format!("{n} {} {}", form.number, form.span)
}

fn spaced(table: &Table) -> String {
    table.map(|entry| entry.to_string()).join(" ")
}

impl Case {
    pub fn line(&self) -> String {
        match self {
            Case::Climb { n, form, marks, p, allowance } => format!("climb {} {marks} {p} {allowance}\n", shape(*n, *form)),
            Case::Mark { n, form, marks, q, table } => format!("mark {} {marks} {q} {}\n", shape(*n, *form), spaced(table)),
            Case::Who { n, form, marks, q, table } => format!("who {} {marks} {q} {}\n", shape(*n, *form), spaced(table)),
        }
    }

    /// Of a mark, the same mark asked who moved.
    pub fn who(&self) -> Case {
        match *self {
            Case::Mark { n, form, marks, q, table } => Case::Who { n, form, marks, q, table },
            case => case,
        }
    }

    /// The line that must answer the case.
    pub fn answer(&self) -> String {
        match self {
            Case::Climb { n, form, marks, p, allowance } => {
                let done = climb(*n, *form, &set(*marks), *p, *allowance);
                format!("climb {} {} {}\n", done.number, done.rank, done.links)
            }
            Case::Mark { n, form, marks, q, table } => {
                let done = mark(*n, *form, &set(*marks), table, *q);
                format!("mark {} {} {} {}\n", done.number, word(&done.marks), done.moved.count, spaced(&done.table))
            }
            Case::Who { n, form, marks, q, table } => {
                let done = mark(*n, *form, &set(*marks), table, *q);
                format!("who {} {} {}\n", done.number, done.moved.count, word(&done.moved.ranks))
            }
        }
    }

    fn read(line: &str) -> Option<Case> {
        let words: Vec<&str> = line.split(' ').collect();
        let small = |k: usize| words[k].parse::<u32>().ok();
        let marks = |k: usize| words[k].parse::<u64>().ok();
        let form = || Some(Form { number: small(2)?, span: small(3)? });
        match words[0] {
            "climb" if words.len() == 7 => {
                Some(Case::Climb { n: small(1)?, form: form()?, marks: marks(4)?, p: small(5)?, allowance: small(6)? })
            }
            "mark" | "who" if words.len() == 70 => {
                let entries: Option<Vec<u8>> = words[6..].iter().map(|w| w.parse().ok()).collect();
                let (n, form, marks, q, table) = (small(1)?, form()?, marks(4)?, small(5)?, entries?.try_into().ok()?);
                let mark = Case::Mark { n, form, marks, q, table };
                Some(if words[0] == "mark" { mark } else { mark.who() })
            }
            _ => None,
        }
    }
}

/// The cases of a text, or the number of the first line that is none.
pub fn read(text: &str) -> Result<Vec<Case>, String> {
    let cases = text.lines().enumerate();
    cases.map(|(k, line)| Case::read(line).ok_or(format!("line {}: not a case", k + 1))).collect()
}

pub fn lines(cases: &[Case]) -> String {
    cases.iter().map(Case::line).collect()
}

pub fn answers(cases: &[Case]) -> String {
    cases.iter().map(Case::answer).collect()
}

#[cfg(test)]
mod tests {
    use super::*;

    #[test]
    fn example_7() {
        let text = "climb 64 0 1 0 63 6\nclimb 64 0 1 0 63 5\n";
        let cases = read(text).expect("cases");
        assert_eq!(lines(&cases), text);
        assert_eq!(answers(&cases), "climb 0 0 6\nclimb 12 1 5\n");
    }

    #[test]
    fn example_2() {
        let rest = " 255".repeat(56);
        let text = format!("mark 8 0 1 0 1 255 0 1 1 2 2 3 3{rest}\nwho 8 0 1 0 1 255 0 1 1 2 2 3 3{rest}\n");
        let cases = read(&text).expect("cases");
        assert_eq!(lines(&cases), text);
        assert_eq!(answers(&cases), format!("mark 0 2 2 255 0 0 0 2 2 3 3{rest}\nwho 0 2 12\n"));
    }

    #[test]
    fn bad_lines() {
        assert_eq!(read("climb 64 0 1 0 63 6\nclimb 64 0 63 6\n"), Err("line 2: not a case".to_string()));
        assert_eq!(read("\n"), Err("line 1: not a case".to_string()));
    }
}
