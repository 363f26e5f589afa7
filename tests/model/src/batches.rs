//! Request 2026-07, events by the handful, on a state that is lent; and every number that such a state holds.

use crate::group::{Event, Group, Message};
use crate::rank::{Body, Rank};
use crate::tree::{children, misshapen, word, Form};
use crate::triple::Triple;
use crate::views::{fresh, Table, NONE};
use std::array::from_fn;

/// A state that start and events led to, perhaps changed by hand before the first event (crates/batch_cases/src/by_hand.rt).
#[derive(Clone)]
pub struct Lent {
    group: Group,
    hand: u32,
}

impl Lent {
    /// A start that is refused leaves a group of nobody, whose form and box size are 0.
    pub fn start(size: u32, form: Form, hand: u32) -> Lent {
        let (n, form) = if misshapen(size, form).is_none() { (size, form) } else { (0, Form { number: 0, span: 0 }) };
        Lent { group: Group::start(n, form), hand }
    }

    /// What every event is refused with: 1 for a wrong size, 2 for a state that is not in order.
    fn refusal(&self) -> Option<u32> {
        match self.hand {
            _ if self.group.n == 0 => Some(1),
            7 => Some(1),
            1..=6 | 8 | 9 => Some(2),
            _ => None,
        }
    }

    /// What is told of an event: its answer, how many messages it sent, moved's count.
    fn event(&mut self, e: Event) -> [u32; 3] {
        if let Some(number) = self.refusal() {
            return [number, 0, 0];
        }
        let answer = self.group.event(e);
        [answer.number, answer.sent, answer.moved.count]
    }

    /// Three numbers an event, and three places for what is told of it; 40 and 41 come before any event.
    pub fn batch(&mut self, numbers: &[u32], places: &mut [u32]) -> u32 {
        if numbers.len() % 3 != 0 {
            return 40;
        }
        if places.len() < numbers.len() {
            return 41;
        }
        for (e, told) in numbers.chunks(3).zip(places.chunks_mut(3)) {
            told.copy_from_slice(&self.event(Event { kind: e[0], a: e[1], b: e[2] }));
        }
        0
    }

    /// Every number of the state in turn, one of 64 bits as two of 32, the low half first.
    pub fn numbers(&self) -> Vec<u32> {
        let mut state = Plain::of(&self.group);
        state.change(self.hand);
        state.numbers()
    }
}

/// A state as the library has it.
struct Plain {
    n: u32,
    form: Form,
    count: u32,
    dead: u64,
    ranks: [Record; 64],
    net: [[u32; 8]; 128],
    tables: [Table; 64],
}

#[derive(Clone, Copy, Default)]
struct Record {
    phase: u32,
    marks: u64,
    acknowledged: u64,
    heard: u64,
    awaited: u64,
    owed: u64,
    triple: Triple,
    result: Triple,
}

fn halves(x: u64) -> [u32; 2] {
    [x as u32, (x >> 32) as u32]
}

fn three(t: Triple) -> [u32; 5] {
    let ([k, known], [a, acknowledged]) = (halves(t.known), halves(t.acknowledged));
    [t.word, k, known, a, acknowledged]
}

/// Awaited are the children that have not been heard.
fn record(n: u32, form: Form, me: u32, r: &Rank) -> Record {
    let awaited = children(n, form, &r.marks, me).difference(&r.heard).copied().collect();
    let [marks, acknowledged, heard, awaited, owed] = [&r.marks, &r.acknowledged, &r.heard, &awaited, &r.owed].map(word);
    Record { phase: r.phase as u32, marks, acknowledged, heard, awaited, owed, triple: r.triple, result: r.result }
}

fn message(m: &Message) -> [u32; 8] {
    let (kind, triple) = match m.body {
        Body::Up(x) => (1, x),
        Body::Down(x) => (2, x),
        Body::Ask => (3, Triple::default()),
    };
    let [word, k, known, a, acknowledged] = three(triple);
    [kind, m.from, m.to, word, k, known, a, acknowledged]
}

impl Plain {
    /// Ranks past the group and places past the count hold 0; tables past the group hold 255, and 0 where the start was refused.
    fn of(g: &Group) -> Plain {
        let nobody = [if g.n == 0 { 0 } else { NONE }; 64];
        Plain {
            n: g.n,
            form: g.form,
            count: g.net.len() as u32,
            dead: word(&g.dead),
            ranks: from_fn(|me| g.ranks.get(me).map_or(Record::default(), |r| record(g.n, g.form, me as u32, r))),
            net: from_fn(|place| g.net.get(place).map_or([0; 8], message)),
            tables: from_fn(|me| g.ranks.get(me).map_or(nobody, |r| fresh(g.n, g.form, &r.marks))),
        }
    }

    fn change(&mut self, hand: u32) {
        match hand {
            1 => self.count = 200,
            2 => self.dead = u64::MAX,
            3 => self.ranks[0].marks = u64::MAX,
            4 => self.ranks[63].result.word = 1,
            5 => self.net[127] = [4, 0, 1, 0, 0, 0, 0, 0],
            6 => self.tables[63][63] = 64,
            7 => self.n = 65,
            8 => self.form.number = 3,
            9 => self.form.span = 65,
            _ => {}
        }
    }

    fn numbers(&self) -> Vec<u32> {
        let [low, high] = halves(self.dead);
        let mut all = vec![self.n, self.form.number, self.form.span, self.count, low, high];
        for r in &self.ranks {
            all.push(r.phase);
            all.extend([r.marks, r.acknowledged, r.heard, r.awaited, r.owed].map(halves).concat());
            all.extend([r.triple, r.result].map(three).concat());
        }
        all.extend(self.net.concat());
        all.extend(self.tables.concat().iter().map(|entry| *entry as u32));
        all
    }
}

#[cfg(test)]
mod tests {
    use super::*;
    use crate::tree::FLAT;

    const EVENTS: [u32; 12] = [1, 2, 7, 1, 1, 6, 2, 0, 0, 257, 0, 0];

    /// What a batch of these numbers on fresh places answers, and the places.
    fn told(lent: &mut Lent, numbers: &[u32], count: usize) -> (u32, Vec<u32>) {
        let mut places = vec![9; count];
        (lent.batch(numbers, &mut places), places)
    }

    #[test]
    fn a_batch() {
        let mut lent = Lent::start(3, FLAT, 0);
        let wanted = vec![0, 1, 0, 0, 0, 0, 0, 1, 0, 3, 0, 0, 9];
        assert_eq!(told(&mut lent, &EVENTS, 13), (0, wanted));
        let mut parts = Lent::start(3, FLAT, 0);
        assert_eq!(told(&mut parts, &EVENTS[..3], 3), (0, vec![0, 1, 0]));
        assert_eq!(told(&mut parts, &[], 1), (0, vec![9]));
        assert_ne!(parts.numbers(), lent.numbers());
        assert_eq!(told(&mut parts, &EVENTS[3..], 9), (0, vec![0, 0, 0, 0, 1, 0, 3, 0, 0]));
        assert_eq!(parts.numbers(), lent.numbers());
    }

    /// The numbers of messages: an UP carries its sender's triple, an ASK's is all 0, whatever its sender holds.
    #[test]
    fn messages() {
        let mut group = Group::start(4, FLAT);
        let mut sent = |events: &[(u32, u32, u32)]| {
            for (kind, a, b) in events {
                assert_eq!(group.event(Event { kind: *kind, a: *a, b: *b }).number, 0);
            }
            group.net.iter().map(message).collect::<Vec<_>>()
        };
        assert_eq!(sent(&[(3, 3, 0), (4, 2, 3), (6, 2, 0), (1, 2, 7)]), [[1, 2, 1, 7, 8, 0, 8, 0]]);
        assert_eq!(sent(&[(4, 1, 3), (1, 1, 6), (2, 0, 0)]), [[1, 1, 0, 6, 8, 0, 0, 0]]);
        assert_eq!(sent(&[(3, 0, 0), (5, 0, 0), (4, 1, 0)]), [[3, 1, 2, 0, 0, 0, 0, 0]]);
    }

    /// A refused call changes nothing, and 40 comes before 41.
    #[test]
    fn refused_calls() {
        let mut lent = Lent::start(3, FLAT, 0);
        let before = lent.numbers();
        assert_eq!(told(&mut lent, &EVENTS[..11], 12), (40, vec![9; 12]));
        assert_eq!(told(&mut lent, &EVENTS[..11], 2), (40, vec![9; 2]));
        assert_eq!(told(&mut lent, &EVENTS, 11), (41, vec![9; 11]));
        assert_eq!(lent.numbers(), before);
    }

    /// Every event is refused, and the state stays.
    #[test]
    fn refused_events() {
        for (size, hand, number) in [(0, 0, 1), (65, 0, 1), (3, 7, 1), (0, 1, 1), (3, 1, 2), (64, 2, 2), (1, 6, 2), (3, 8, 2), (3, 9, 2)] {
            let mut lent = Lent::start(size, FLAT, hand);
            let before = lent.numbers();
            assert_eq!(told(&mut lent, &EVENTS, 12), (0, [number, 0, 0].repeat(4)));
            assert_eq!(lent.numbers(), before);
        }
    }

    /// A change by hand is seen among the numbers, of which a state has as many as its fields.
    #[test]
    fn numbers() {
        let (start, nobody) = (Lent::start(3, FLAT, 0).numbers(), Lent::start(0, FLAT, 0).numbers());
        assert_eq!(start.len(), 6 + 64 * 21 + 128 * 8 + 64 * 64);
        let first = [0, 0, 0, 0, 0, 0, 0, 2, 0, 0, 0, u32::MAX, 0, 0, 7, 0, 0, 0, 0, 0, 0];
        assert_eq!((&start[..6], &start[6..27]), (&[3, 0, 1, 0, 0, 0][..], &first[..]));
        assert!(nobody.iter().all(|x| *x == 0));
        for hand in 1..=9 {
            assert_ne!(Lent::start(3, FLAT, hand).numbers(), start);
            assert_ne!(Lent::start(0, FLAT, hand).numbers(), nobody);
        }
    }
}
