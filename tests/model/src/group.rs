//! Document 01, "The group and its events" and "Refusal numbers", with kind 6 of request 2026-08.

use crate::rank::{Body, Done, Phase, Rank};
use crate::tree::{Form, Moved, Set};

#[derive(Clone, Copy)]
pub struct Message {
    pub from: u32,
    pub to: u32,
    pub body: Body,
}

#[derive(Clone)]
pub struct Group {
    pub n: u32,
    pub form: Form,
    pub dead: Set,
    pub net: Vec<Message>,
    pub ranks: Vec<Rank>,
}

#[derive(Clone, Copy, PartialEq, Debug)]
pub struct Event {
    pub kind: u32,
    pub a: u32,
    pub b: u32,
}

#[derive(Default, PartialEq, Debug)]
pub struct Answer {
    pub number: u32,
    pub sent: u32,
    pub moved: Moved,
}

pub const ROOM: usize = 128;

impl Group {
    pub fn start(n: u32, form: Form) -> Group {
        let ranks = (0..n).map(|me| Rank::fresh(n, form, me)).collect();
        Group { n, form, dead: Set::new(), net: Vec::new(), ranks }
    }

    pub fn lives(&self, r: u32) -> bool {
        !self.dead.contains(&r)
    }

    /// The refusals 3 to 10, the lowest that applies.
    fn refusal(&self, e: Event) -> Option<u32> {
        let Event { kind, a, b } = e;
        if !(1..=6).contains(&kind) || (matches!(kind, 2 | 3 | 5 | 6) && b != 0) {
            return Some(3);
        }
        if matches!(kind, 1 | 3 | 4 | 6) && a >= self.n || kind == 4 && b >= self.n {
            return Some(4);
        }
        if matches!(kind, 2 | 5) && a as usize >= self.net.len() {
            return Some(5);
        }
        if matches!(kind, 1 | 3 | 4 | 6) && !self.lives(a) {
            return Some(6);
        }
        if matches!(kind, 1 | 6) && self.ranks[a as usize].phase != Phase::Outside {
            return Some(7);
        }
        if kind == 4 && self.lives(b) {
            return Some(8);
        }
        if kind == 3 && self.dead.len() as u32 + 1 == self.n {
            return Some(9);
        }
        if kind == 5 {
            let m = self.net[a as usize];
            if self.lives(m.from) && self.lives(m.to) {
                return Some(10);
            }
        }
        None
    }

    /// A rank does something, and what it sends joins the list.
    fn act(&mut self, me: u32, rule: impl Fn(&mut Rank) -> Done) -> Answer {
        let done = rule(&mut self.ranks[me as usize]);
        self.net.extend(done.sends.iter().map(|(to, body)| Message { from: me, to: *to, body: *body }));
        Answer { number: 0, sent: done.sends.len() as u32, moved: done.moved }
    }

    /// One event; a refused one leaves the group as it was.
    pub fn event(&mut self, e: Event) -> Answer {
        if let Some(number) = self.refusal(e) {
            return Answer { number, ..Answer::default() };
        }
        let mut next = self.clone();
        let nothing = Answer::default();
        let answer = match e.kind {
            1 => next.act(e.a, |r| r.enter(e.b)),
            2 => {
                let m = next.net.remove(e.a as usize);
                if !next.lives(m.to) || next.ranks[m.to as usize].marks.contains(&m.from) {
                    nothing
                } else {
                    next.act(m.to, |r| r.receive(m.from, m.body))
                }
            }
            3 => {
                next.dead.insert(e.a);
                nothing
            }
            4 => next.act(e.a, |r| r.notice(e.b)),
            5 => {
                next.net.remove(e.a as usize);
                nothing
            }
            _ => {
                next.ranks[e.a as usize].acknowledge();
                nothing
            }
        };
        if next.net.len() > ROOM {
            return Answer { number: 11, ..Answer::default() };
        }
        *self = next;
        answer
    }
}

#[cfg(test)]
mod tests {
    use super::*;
    use crate::tree::FLAT;
    use crate::triple::Triple;

    fn say(g: &mut Group, kind: u32, a: u32, b: u32) -> u32 {
        g.event(Event { kind, a, b }).number
    }

    #[test]
    fn examples_8_and_10() {
        let mut g = Group::start(1, FLAT);
        assert_eq!(g.event(Event { kind: 1, a: 0, b: 9 }), Answer::default());
        assert_eq!((g.ranks[0].phase, g.ranks[0].result.word), (Phase::Decided, 9));
        assert_eq!(say(&mut g, 3, 0, 0), 9);
        assert_eq!(say(&mut g, 1, 0, 9), 7);
        assert_eq!(say(&mut g, 4, 0, 0), 8);
        assert_eq!(say(&mut g, 2, 0, 0), 5);
        let mut g = Group::start(2, FLAT);
        assert_eq!(say(&mut g, 1, 1, 9), 0);
        assert_eq!(say(&mut g, 5, 0, 0), 10);
    }

    fn play(g: &mut Group, events: &[(u32, u32, u32)]) {
        for (kind, a, b) in events {
            assert_eq!(say(g, *kind, *a, *b), 0, "{kind} {a} {b}");
        }
    }

    /// It sends and moves nothing, and what is acknowledged are the marks at that time.
    #[test]
    fn acknowledging() {
        let mut g = Group::start(3, FLAT);
        play(&mut g, &[(3, 1, 0), (3, 2, 0), (4, 0, 1)]);
        assert_eq!(g.event(Event { kind: 6, a: 0, b: 0 }), Answer::default());
        play(&mut g, &[(4, 0, 2)]);
        assert_eq!((&g.ranks[0].marks, &g.ranks[0].acknowledged), (&Set::from([1, 2]), &Set::from([1])));
        play(&mut g, &[(1, 0, 5)]);
        assert_eq!(g.ranks[0].result, Triple { word: 5, known: 6, acknowledged: 2 });
        assert_eq!(g.ranks[0].result.code(), 1);
    }

    #[test]
    fn refusals_of_kind_6() {
        let mut g = Group::start(4, FLAT);
        play(&mut g, &[(1, 2, 7), (1, 1, 6), (3, 0, 0), (3, 2, 0)]);
        for (kind, a, b, number) in [
            (0, 3, 0, 3), (7, 3, 0, 3), (6, 3, 1, 3), (6, 4, 1, 3), (6, 0, 1, 3), (6, 1, 1, 3),
            (6, 4, 0, 4), (6, u32::MAX, 0, 4), (6, 0, 0, 6), (6, 2, 0, 6), (6, 1, 0, 7), (6, 3, 0, 0),
        ] {
            assert_eq!(say(&mut g, kind, a, b), number, "{kind} {a} {b}");
        }
        play(&mut g, &[(1, 3, 7)]);
        assert_eq!((g.ranks[3].phase, say(&mut g, 6, 3, 0)), (Phase::Waiting, 7));
        let mut g = Group::start(1, FLAT);
        play(&mut g, &[(1, 0, 9)]);
        assert_eq!((g.ranks[0].phase, say(&mut g, 6, 0, 0)), (Phase::Decided, 7));
    }

    /// A root that is told of a death after it entered: its marks join what it decides and sends, and not what it holds.
    #[test]
    fn a_root_told_late() {
        let mut g = Group::start(3, FLAT);
        play(&mut g, &[(1, 0, 5), (1, 1, 7), (3, 2, 0), (4, 1, 2), (4, 0, 2), (2, 0, 0)]);
        let verdict = Triple { word: 5, known: 4, acknowledged: 0 };
        assert_eq!((g.ranks[0].triple, g.ranks[0].result), (Triple { known: 0, ..verdict }, verdict));
        assert_eq!((g.net.len(), g.net[0].body), (1, Body::Down(verdict)));
        assert_eq!(g.ranks[1].result, Triple::default());
        play(&mut g, &[(2, 0, 0)]);
        assert_eq!(g.ranks[1].result, verdict);
    }

    /// Who takes a DOWN takes it as it is, whatever it has marked.
    #[test]
    fn marks_beside_a_down() {
        let mut g = Group::start(3, FLAT);
        play(&mut g, &[(1, 0, 5), (1, 1, 7), (3, 2, 0), (4, 1, 2), (2, 0, 0), (2, 0, 0)]);
        assert_eq!(g.ranks[1].marks, Set::from([2]));
        assert_eq!(g.ranks[1].result, Triple { word: 5, known: 0, acknowledged: 0 });
    }

    #[test]
    fn example_11() {
        let mut g = Group::start(64, FLAT);
        for leaf in 32..64 {
            assert_eq!(say(&mut g, 1, leaf, 0), 0);
        }
        for level in [16, 8, 4] {
            for dying in level..2 * level {
                assert_eq!(say(&mut g, 3, dying, 0), 0);
            }
            for leaf in 32..64 {
                let parent = leaf / (32 / level);
                assert_eq!(say(&mut g, 4, leaf, parent), 0);
            }
        }
        assert_eq!(g.net.len(), 128);
        assert_eq!(say(&mut g, 3, 2, 0), 0);
        assert_eq!(say(&mut g, 4, 32, 2), 11);
    }
}
