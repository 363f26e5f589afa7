//! Random schedules from a seed: runs as they happen, with few deaths or many, or with deaths before anybody enters; garbage, damaged files.

use crate::file::{write, MOST};
use crate::group::{Event, Group, ROOM};
use crate::rank::Phase;
use crate::tree::{Form, FLAT};
use std::collections::BTreeSet;

/// A small generator of numbers, so that a seed means the same everywhere.
pub struct Random(u64);

impl Random {
    pub fn new(seed: u64) -> Random {
        Random(seed)
    }

    pub fn next(&mut self) -> u64 {
        self.0 = self.0.wrapping_add(0x9e37_79b9_7f4a_7c15);
        let x = (self.0 ^ (self.0 >> 30)).wrapping_mul(0xbf58_476d_1ce4_e5b9);
        let x = (x ^ (x >> 27)).wrapping_mul(0x94d0_49bb_1331_11eb);
        x ^ (x >> 31)
    }

    pub fn below(&mut self, bound: u32) -> u32 {
        (self.next() % bound as u64) as u32
    }

    pub fn one_in(&mut self, odds: u32) -> bool {
        self.below(odds) == 0
    }

    pub fn pick<T: Copy>(&mut self, from: &[T]) -> Option<T> {
        if from.is_empty() { None } else { Some(from[self.below(from.len() as u32) as usize]) }
    }

    pub fn size(&mut self) -> u32 {
        match self.below(4) {
            0 => 1 + self.below(4),
            1 => 1 + self.below(16),
            2 => 1 + self.below(64),
            _ => [1, 2, 3, 7, 8, 31, 32, 33, 63, 64][self.below(10) as usize],
        }
    }

    fn word(&mut self) -> u32 {
        match self.below(3) {
            0 => self.next() as u32,
            1 => !(1 << self.below(32)),
            _ => [0, 1, u32::MAX][self.below(3) as usize],
        }
    }
}

/// How a run is played: one crash in so many events, one notice, one acknowledging, and whether messages keep their order.
struct Manner {
    crash: u32,
    notice: u32,
    acknowledge: u32,
    reorder: bool,
}

/// The notices that a living rank has still to get.
pub fn owed_notices(g: &Group) -> Vec<(u32, u32)> {
    let living = (0..g.n).filter(|a| g.lives(*a));
    living.flat_map(|a| g.dead.iter().map(move |b| (a, *b)))
        .filter(|(a, b)| !g.ranks[*a as usize].marks.contains(b))
        .collect()
}

/// An event that might happen now, or None when nothing is left to do.
fn likely(random: &mut Random, g: &Group, manner: &Manner) -> Option<Event> {
    let living: Vec<u32> = (0..g.n).filter(|r| g.lives(*r)).collect();
    if living.len() > 1 && random.one_in(manner.crash) {
        return Some(Event { kind: 3, a: random.pick(&living)?, b: 0 });
    }
    let notices = owed_notices(g);
    let outside: Vec<u32> = living.iter().copied().filter(|r| g.ranks[*r as usize].phase == Phase::Outside).collect();
    if random.one_in(manner.notice) || (outside.is_empty() && g.net.is_empty()) {
        if let Some((a, b)) = random.pick(&notices) {
            return Some(Event { kind: 4, a, b });
        }
    }
    if random.one_in(manner.acknowledge) {
        let behind = |a: &u32| g.ranks[*a as usize].acknowledged != g.ranks[*a as usize].marks;
        let behind: Vec<u32> = outside.iter().copied().filter(behind).collect();
        if let Some(a) = random.pick(&behind) {
            return Some(Event { kind: 6, a, b: 0 });
        }
    }
    if random.one_in(3) || g.net.is_empty() {
        if let Some(a) = random.pick(&outside) {
            return Some(Event { kind: 1, a, b: random.word() });
        }
    }
    if g.net.is_empty() {
        return None;
    }
    let a = if manner.reorder { random.below(g.net.len() as u32) } else { 0 };
    let m = g.net[a as usize];
    let torn = !g.lives(m.from) || !g.lives(m.to);
    Some(Event { kind: if torn && random.one_in(3) { 5 } else { 2 }, a, b: 0 })
}

/// Any numbers, near the limits more often than not.
fn garbage(random: &mut Random, g: &Group) -> Event {
    let kind = random.below(8);
    let number = |random: &mut Random| match random.below(6) {
        0 => random.next() as u32,
        1 => g.n,
        2 => g.net.len() as u32,
        3 => 0,
        _ => random.below(g.n + 1),
    };
    let a = number(random);
    let b = if random.one_in(3) { number(random) } else { 0 };
    Event { kind, a, b }
}

/// Three deaths at most before anybody enters, told to every living rank. All of the living acknowledge them, or all but one.
fn deaths_first(random: &mut Random, n: u32) -> Vec<Event> {
    let dead: BTreeSet<u32> = (0..random.below(4)).map(|_| random.below(n)).take(n as usize - 1).collect();
    let living: Vec<u32> = (0..n).filter(|a| !dead.contains(a)).collect();
    let silent = if random.one_in(2) { random.pick(&living) } else { None };
    let crashes = dead.iter().map(|a| Event { kind: 3, a: *a, b: 0 });
    let notices = living.iter().flat_map(|a| dead.iter().map(|b| Event { kind: 4, a: *a, b: *b }));
    let acknowledging = living.iter().filter(|a| silent != Some(**a)).map(|a| Event { kind: 6, a: *a, b: 0 });
    crashes.chain(notices).chain(acknowledging).collect()
}

fn played(random: &mut Random, n: u32, most: usize, manner: &Manner, mess: u32) -> Vec<Event> {
    continued(random, n, FLAT, Vec::new(), most, manner, mess)
}

/// These events, and then so many at most.
fn continued(random: &mut Random, n: u32, form: Form, first: Vec<Event>, most: usize, manner: &Manner, mess: u32) -> Vec<Event> {
    let mut g = Group::start(n, form);
    let mut events = first;
    for e in &events {
        g.event(*e);
    }
    let most = events.len() + most;
    while events.len() < most {
        let e = if mess > 0 && random.one_in(mess) { Some(garbage(random, &g)) } else { likely(random, &g, manner) };
        let Some(e) = e else { break };
        g.event(e);
        events.push(e);
    }
    events
}

/// A right form with a right box size: 1, 64, one that divides the group's size or does not, so that the last box is shorter, one larger than it.
pub fn form(random: &mut Random, n: u32) -> Form {
    let span = match random.below(6) {
        0 => 1,
        1 => 64,
        2 => random.pick(&[2, 4, 8, 16]).expect("one"),
        3 => n.clamp(1, 63) + 1 + random.below(64 - n.clamp(1, 63)),
        _ => 1 + random.below(64),
    };
    Form { number: random.below(3), span }
}

/// Such a form, or now and then a form or a box size that is none.
pub fn any_form(random: &mut Random, n: u32) -> Form {
    let mut form = form(random, n);
    if random.one_in(12) {
        form.number = random.pick(&[3, 4, 255, 256, 257, 258, u32::MAX]).expect("one");
    }
    if random.one_in(12) {
        form.span = random.pick(&[0, 0, 65, 66, 255, 256, 264, u32::MAX]).expect("one");
    }
    form
}

/// A group's size, and events in a form as they happen.
pub fn run_in(random: &mut Random, form: Form, n: u32) -> Vec<Event> {
    let calm = Manner { crash: 60, notice: 6, acknowledge: 8, reorder: random.one_in(2) };
    let stormy = Manner { crash: 6, notice: 2 + random.below(20), acknowledge: 4, reorder: true };
    match random.below(4) {
        0 => {
            let first = deaths_first(random, n);
            continued(random, n, form, first, 300, &calm, 0)
        }
        1 => continued(random, n, form, Vec::new(), 300, &calm, 0),
        2 => continued(random, n, form, Vec::new(), 400, &stormy, 0),
        _ => continued(random, n, form, Vec::new(), 250, &stormy, 4),
    }
}

/// As document 01's example 11: the leaves report, level after level dies, and the list fills up.
fn crowded(random: &mut Random) -> Vec<Event> {
    let mut events: Vec<Event> = (32..64).map(|a| Event { kind: 1, a, b: random.word() }).collect();
    for level in [16, 8, 4, 2] {
        events.extend((level..2 * level).map(|a| Event { kind: 3, a, b: 0 }));
        events.extend((32..64).map(|a| Event { kind: 4, a, b: a / (32 / level) }));
    }
    let mut g = Group::start(64, FLAT);
    for e in &events {
        g.event(*e);
    }
    assert_eq!(g.net.len(), ROOM);
    for _ in 0..random.below(200) {
        let e = if random.one_in(2) { garbage(random, &g) } else { Event { kind: 2, a: random.below(128), b: 0 } };
        g.event(e);
        events.push(e);
    }
    events
}

/// A file that may not even begin like one.
fn damaged(random: &mut Random) -> Vec<u8> {
    let n = random.size();
    let manner = Manner { crash: 10, notice: 4, acknowledge: 6, reorder: true };
    let mut bytes = write(n as u8, &played(random, n, 20, &manner, 5));
    match random.below(7) {
        0 => bytes.truncate(random.below(7) as usize),
        1 => bytes.truncate(random.below(bytes.len() as u32 + 1) as usize),
        2 => bytes[random.below(3) as usize] ^= 1 << random.below(8),
        3 => bytes[3 + random.below(2) as usize] = random.next() as u8,
        4 => bytes[5] = [0, 65, 128, 255][random.below(4) as usize],
        5 => bytes.push(random.next() as u8),
        _ => bytes.resize(6 + 9 * MOST + 1 + random.below(9) as usize, 0),
    }
    if random.one_in(3) {
        let place = random.below(6) as usize;
        if place < bytes.len() {
            bytes[place] = random.next() as u8;
        }
    }
    bytes
}

/// A full file: 4,096 events, most of which find nothing to do.
fn longest(random: &mut Random, n: u32, manner: &Manner) -> Vec<Event> {
    let mut events = played(random, n, MOST, manner, 3);
    events.resize(MOST, Event { kind: 2, a: 0, b: 0 });
    events
}

/// Files at the limits: no bytes, six bytes, the most events, and one byte more.
pub fn limits(random: &mut Random) -> [Vec<u8>; 4] {
    let stormy = Manner { crash: 20, notice: 4, acknowledge: 6, reorder: true };
    let full = write(64, &longest(random, 64, &stormy));
    let over = [&full[..], &[0]].concat();
    [Vec::new(), write(64, &[]), full, over]
}

/// One schedule file.
pub fn schedule(random: &mut Random) -> Vec<u8> {
    let n = random.size();
    let calm = Manner { crash: 60, notice: 6, acknowledge: 8, reorder: random.one_in(2) };
    let stormy = Manner { crash: 6, notice: 2 + random.below(20), acknowledge: 4, reorder: true };
    let events = match random.below(64) {
        0..=13 => played(random, n, 400, &calm, 0),
        14..=19 => {
            let first = deaths_first(random, n);
            continued(random, n, FLAT, first, 400, &calm, 0)
        }
        20..=39 => played(random, n, 600, &stormy, 0),
        40..=47 => played(random, n, 300, &stormy, 4),
        48..=51 => played(random, n, 60, &calm, 1),
        52..=54 => return write(64, &crowded(random)),
        55 => longest(random, n, &stormy),
        56 => Vec::new(),
        _ => return damaged(random),
    };
    write(n as u8, &events)
}

#[cfg(test)]
mod tests {
    use super::*;
    use crate::file::read;
    use crate::rank::{Body, Rank};
    use crate::tree::word;
    use crate::triple::Triple;

    fn any_manner(random: &mut Random) -> Manner {
        let [crash, notice] = [3 + random.below(40), 2 + random.below(20)];
        Manner { crash, notice, acknowledge: 2 + random.below(10), reorder: random.one_in(2) }
    }

    /// Request 2026-04: when nothing is left to do, every living rank has decided.
    #[test]
    fn nobody_hangs() {
        for seed in 0..100 {
            let random = &mut Random::new(seed);
            let manner = any_manner(random);
            let mut g = Group::start(random.size(), FLAT);
            while let Some(e) = likely(random, &g, &manner) {
                g.event(e);
            }
            assert!(g.net.is_empty() && owed_notices(&g).is_empty(), "{seed}");
            for a in (0..g.n).filter(|a| g.lives(*a)) {
                assert_eq!(g.ranks[a as usize].phase, Phase::Decided, "{seed}: {a}");
            }
        }
    }

    /// A run with what each rank proposed when it entered, and the marks of each root when it settled.
    struct Watched {
        g: Group,
        proposals: Vec<Option<Triple>>,
        roots: Vec<u64>,
    }

    impl Watched {
        fn start(n: u32) -> Watched {
            Watched { g: Group::start(n, FLAT), proposals: vec![None; n as usize], roots: Vec::new() }
        }

        fn decided(&self) -> Vec<bool> {
            self.g.ranks.iter().map(|r| r.phase == Phase::Decided).collect()
        }

        /// Who decides otherwise than by a DOWN settles as a root.
        fn event(&mut self, e: Event) -> u32 {
            if e.kind == 1 {
                let Rank { marks, acknowledged, .. } = &self.g.ranks[e.a as usize];
                self.proposals[e.a as usize] = Some(Triple { word: e.b, known: word(marks), acknowledged: word(acknowledged) });
            }
            let down = e.kind == 2 && matches!(self.g.net[e.a as usize].body, Body::Down(_));
            let before = self.decided();
            let number = self.g.event(e).number;
            let fresh = self.g.ranks.iter().zip(before).filter(|(r, before)| r.phase == Phase::Decided && !before && !down);
            self.roots.extend(fresh.map(|(r, _)| word(&r.marks)));
            number
        }

        /// The living that have decided hold one result: the proposals of a set with every living rank in it combined, and the marks of a root.
        /// If there is such a set, then one is: the living, and every dead rank whose word lets the result through.
        fn agree(&self) -> bool {
            let living = self.g.ranks.iter().zip(0..).filter(|(_, a)| self.g.lives(*a));
            let mut results = living.filter(|(r, _)| r.phase == Phase::Decided).map(|(r, _)| r.result);
            let Some(result) = results.next() else { return true };
            let member = |a: &u32| self.g.lives(*a) || self.proposals[*a as usize].is_some_and(|t| t.word & result.word == result.word);
            let mut members = (0..self.g.n).filter(member);
            let all = members.try_fold(Triple::fresh(self.g.n), |all, a| Some(all.combined(self.proposals[a as usize]?)));
            results.all(|r| r == result) && all.is_some_and(|all| self.roots.iter().any(|marks| all.knowing(*marks) == result))
        }
    }

    /// Requests 2026-05 and 2026-08, after every event of many small runs. Each rank's word has its own bit off, so that a result shows its
    /// set.
    #[test]
    fn the_living_agree() {
        for seed in 0..40_000 {
            let random = &mut Random::new(seed);
            let manner = any_manner(random);
            let mut run = Watched::start(2 + random.below(7));
            while let Some(mut e) = likely(random, &run.g, &manner) {
                if e.kind == 1 {
                    e.b = !(1 << e.a);
                }
                assert_eq!(run.event(e), 0, "{seed}");
                assert!(run.agree(), "{seed}");
            }
        }
    }

    /// Among the schedules that the gate runs, those of tests/renew, is each answer to an event of kind 6, and verdicts of both codes: on deaths
    /// that all acknowledged, on others, and on none.
    #[test]
    fn kind_6_occurs() {
        let (mut answers, mut verdicts) = (BTreeSet::new(), BTreeSet::new());
        for k in 0..204 {
            let path = format!("{}/../../crates/agr_cases/data/{k:03}.agr", env!("CARGO_MANIFEST_DIR"));
            let Ok((n, events)) = read(&std::fs::read(path).expect("a schedule of the gate")) else { continue };
            let mut g = Group::start(n, FLAT);
            for e in events {
                let answer = g.event(e);
                if e.kind == 6 {
                    answers.insert(answer.number);
                }
            }
            let decided = g.ranks.iter().filter(|r| r.phase == Phase::Decided);
            verdicts.extend(decided.map(|r| (r.result.known != 0, r.result.code())));
        }
        assert_eq!(answers, [0, 3, 4, 6, 7].into());
        assert_eq!(verdicts, [(false, 0), (true, 0), (true, 1)].into());
    }
}
