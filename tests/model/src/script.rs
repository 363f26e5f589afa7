//! Events as a script for the program of crates/group_cases, which prints who moved; a listing has no column for it. A script and what must
//! be printed:
//!
//!     start N FORM BOX ->{fA}     start N FORM BOX -> NUMBER
//!     KIND A B ->{eEW}            KIND A B -> NUMBER SENT COUNT RANKS

use crate::group::{Answer, Event, Group};
use crate::tree::{misshapen, word, Form};

pub struct Script {
    pub text: String,
    pub wanted: String,
    pub answers: Vec<Answer>,
}

/// The script of a start and events; the program has room for the most that a schedule has. After a refused start every event is refused with 1.
pub fn script(n: u32, form: Form, events: &[Event]) -> Script {
    let refusal = misshapen(n, form);
    let mut group = if refusal.is_none() { Some(Group::start(n, form)) } else { None };
    let start = format!("start {n} {} {} ->", form.number, form.span);
    let wanted = format!("{start} {}\n", refusal.unwrap_or(0));
    let mut script = Script { text: format!("{start}{{fA}}\n"), wanted, answers: Vec::new() };
    for e in events {
        let line = format!("{} {} {} ->", e.kind, e.a, e.b);
        let answer = group.as_mut().map_or(Answer { number: 1, ..Answer::default() }, |group| group.event(*e));
        script.text += &format!("{line}{{eEW}}\n");
        script.wanted += &format!("{line} {} {} {} {}\n", answer.number, answer.sent, answer.moved.count, word(&answer.moved.ranks));
        script.answers.push(answer);
    }
    script
}

#[cfg(test)]
mod tests {
    use super::*;
    use crate::file::read;
    use crate::random::{schedule, Random};
    use crate::tree::FLAT;

    #[test]
    fn a_script() {
        let events = [(1, 2, 7), (3, 0, 0), (3, 1, 0), (4, 2, 0), (4, 2, 1), (2, 1, 0), (2, 9, 0)];
        let events = events.map(|(kind, a, b)| Event { kind, a, b });
        let script = script(4, FLAT, &events);
        assert!(script.text.starts_with("start 4 0 1 ->{fA}\n1 2 7 ->{eEW}\n"));
        assert!(script.wanted.starts_with("start 4 0 1 -> 0\n1 2 7 -> 0 1 0 0\n"));
        assert!(script.wanted.ends_with("4 2 0 -> 0 0 1 2\n4 2 1 -> 0 1 2 12\n2 1 0 -> 0 0 3 14\n2 9 0 -> 5 0 0 0\n"));
    }

    /// In a star of one box all report to rank 0; of wrong forms nothing starts.
    #[test]
    fn scripts_in_forms() {
        let events = [(1, 3, 7), (3, 0, 0), (4, 3, 0)].map(|(kind, a, b)| Event { kind, a, b });
        let lines = |form: Form| script(4, form, &events).wanted;
        assert_eq!(lines(Form { number: 1, span: 8 }), "start 4 1 8 -> 0\n1 3 7 -> 0 1 0 0\n3 0 0 -> 0 0 0 0\n4 3 0 -> 0 1 3 14\n");
        assert_eq!(lines(Form { number: 3, span: 0 }), "start 4 3 0 -> 50\n1 3 7 -> 1 0 0 0\n3 0 0 -> 1 0 0 0\n4 3 0 -> 1 0 0 0\n");
    }

    /// Only an ASK moves a rank twice, and some do.
    #[test]
    fn sums_and_sets() {
        let mut twice = 0;
        for seed in 0..200 {
            let Ok((n, events)) = read(&schedule(&mut Random::new(seed))) else { continue };
            let script = script(n, FLAT, &events);
            for (e, answer) in events.iter().zip(&script.answers) {
                let moved = &answer.moved;
                assert!(e.kind == 2 || moved.count as usize == moved.ranks.len());
                twice += (moved.count as usize > moved.ranks.len()) as u32;
            }
        }
        assert!(twice > 0);
    }
}
