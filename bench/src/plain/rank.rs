//! What a rank holds and does. A rule changes the rank's record and row, lets what it sends join the list, and gives how many ranks moved.

use super::group::Group;
use super::mending::{Anew, Mending};
use super::net::{Kind, Message};
use super::tree::{handed, heir, members, pointing, NONE};
use super::triple::Triple;

/// Of eight bytes, so that a rank's record has no gap.
#[derive(Clone, Copy, PartialEq)]
#[repr(u64)]
pub enum Phase {
    Outside,
    Gathering,
    Waiting,
    Decided,
}

#[derive(Clone, Copy)]
pub struct Rank {
    pub marks: u64,
    pub acknowledged: u64,
    pub heard: u64,
    pub awaited: u64,
    pub owed: u64,
    pub triple: Triple,
    pub result: Triple,
    pub phase: Phase,
}

impl Rank {
    pub const ZERO: Rank = Rank {
        marks: 0,
        acknowledged: 0,
        heard: 0,
        awaited: 0,
        owed: 0,
        triple: Triple::ZERO,
        result: Triple::ZERO,
        phase: Phase::Outside,
    };
}

impl Group {
    fn parent(&self, me: usize) -> u8 {
        self.tables[me][me]
    }

    fn send(&mut self, kind: Kind, me: usize, to: u64, triple: Triple) {
        for q in members(to) {
            self.net.join(kind, me, q as u8, triple);
        }
    }

    /// DOWN to children and owed: a child is awaited or was heard, and who was heard is owed.
    fn decide(&mut self, me: usize, x: Triple) {
        let r = &mut self.ranks[me];
        (r.result, r.phase) = (x, Phase::Decided);
        let to = (r.awaited | r.owed) & !r.marks;
        self.send(Kind::Down, me, to, x);
    }

    /// A root's marks join what it decides, and not what it holds.
    fn settle(&mut self, me: usize) {
        let (parent, r) = (self.parent(me), &mut self.ranks[me]);
        let triple = r.triple;
        if r.phase != Phase::Gathering || r.awaited != 0 {
            return;
        }
        if parent == NONE {
            let verdict = Triple { known: triple.known | r.marks, ..triple };
            return self.decide(me, verdict);
        }
        r.phase = Phase::Waiting;
        self.net.join(Kind::Up, me, parent, triple);
    }

    pub fn enter(&mut self, me: usize, w: u32) -> u32 {
        let r = &mut self.ranks[me];
        r.triple.combine(Triple { word: w, known: r.marks, acknowledged: r.acknowledged });
        r.phase = Phase::Gathering;
        self.settle(me);
        0
    }

    pub fn receive<M: Mending>(&mut self, me: usize, m: Message) -> u32 {
        match m.kind {
            Kind::Up => self.up(me, m.from, m.triple),
            Kind::Down => self.down(me, m.triple),
            Kind::Ask => self.ask::<M>(me, m.from),
        }
    }

    fn up(&mut self, me: usize, q: u8, x: Triple) -> u32 {
        let r = &mut self.ranks[me];
        let result = r.result;
        if r.phase == Phase::Decided {
            self.net.join(Kind::Down, me, q, result);
            return 0;
        }
        r.heard |= 1 << q;
        r.owed |= 1 << q;
        r.awaited &= !(1 << q);
        r.triple.combine(x);
        self.settle(me);
        0
    }

    fn down(&mut self, me: usize, x: Triple) -> u32 {
        if matches!(self.ranks[me].phase, Phase::Gathering | Phase::Waiting) {
            self.decide(me, x);
        }
        0
    }

    fn ask<M: Mending>(&mut self, me: usize, q: u8) -> u32 {
        let unknown = ((1 << q) - 1) & !self.ranks[me].marks;
        let moved = members(unknown).map(|k| self.mark::<M>(me, k).0).sum();
        let (parent, r) = (self.parent(me), &mut self.ranks[me]);
        let (triple, result) = (r.triple, r.result);
        if r.phase == Phase::Decided {
            self.net.join(Kind::Down, me, q, result);
            return moved;
        }
        r.owed |= 1 << q;
        if r.phase == Phase::Waiting && parent == q {
            self.net.join(Kind::Up, me, q, triple);
        }
        self.settle(me);
        moved
    }

    /// The notice that q, who is not marked, is dead.
    pub fn notice<M: Mending>(&mut self, me: usize, q: usize) -> u32 {
        let (parent, above_q, phase) = (self.parent(me), self.tables[me][q], self.ranks[me].phase);
        let (moved, gained) = self.mark::<M>(me, q);
        if phase == Phase::Waiting && parent as usize == q {
            self.orphan(me);
        } else if phase == Phase::Gathering && parent == NONE && above_q as usize == me {
            self.send(Kind::Ask, me, gained, Triple::ZERO);
        }
        self.settle(me);
        moved
    }

    /// Waiting, and the parent died: reports to the new one, or gathers again as the root and asks all children.
    fn orphan(&mut self, me: usize) {
        let (parent, r) = (self.parent(me), &mut self.ranks[me]);
        let triple = r.triple;
        if parent != NONE {
            return self.net.join(Kind::Up, me, parent, triple);
        }
        let children = pointing(&self.tables[me], me as u8).fold(0, |set, p| set | 1 << p) & !r.marks;
        (r.heard, r.awaited, r.phase) = (0, children, Phase::Gathering);
        self.send(Kind::Ask, me, children, Triple::ZERO);
    }

    /// Marks q. Gives how many moved, and the children gained: the unmarked ranks among those whose entry ended at q, and of these who ends
    /// here now.
    fn mark<M: Mending>(&mut self, me: usize, q: usize) -> (u32, u64) {
        let changed = pointing(&self.tables[me], q as u8);
        self.ranks[me].marks |= 1 << q;
        self.rebuild(M::AT_MARK, me);
        let (row, r) = (&mut self.tables[me], &mut self.ranks[me]);
        let heir = heir(row, r.marks, q);
        let (mut moved, mut gained) = (0, 0);
        for p in changed {
            if M::AT_MARK == Anew::Entries {
                row[p] = handed(heir, p);
            }
            let unmarked = !r.marks >> p & 1;
            moved += unmarked as u32;
            gained |= (unmarked & u64::from(row[p] as usize == me)) << p;
        }
        r.awaited = r.awaited & !(1 << q) | gained & !r.heard;
        (moved, gained)
    }
}
