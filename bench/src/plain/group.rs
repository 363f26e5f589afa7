//! The group and its events. A refusal is found before anything is touched, but for 11, after which all is put back.

use super::mending::{Anew, Mending};
use super::net::{Net, ROOM};
use super::rank::{Phase, Rank};
use super::tree::{fresh, Row};
use super::triple::Triple;

pub struct Group {
    pub n: usize,
    pub dead: u64,
    pub ranks: [Rank; 64],
    pub tables: [Row; 64],
    pub net: Net,
}

/// Answer, sent, how many ranks moved.
pub type Answer = [u32; 3];

const NOTHING: Answer = [0; 3];

fn refused(number: u32) -> Answer {
    [number, 0, 0]
}

/// What each event runs through is compiled into the loop over events, which is a tenth faster than calls.
impl Group {
    /// Ranks past the group start as all others do: nobody asks for them.
    pub fn start(n: usize) -> Group {
        let one = Rank { triple: Triple::fresh(n), ..Rank::ZERO };
        let mut group = Group { n, dead: 0, ranks: [one; 64], tables: [fresh(n, 0); 64], net: Net::empty() };
        for p in 1..n {
            group.ranks[p / 2].awaited |= 1 << p;
        }
        group
    }

    pub fn lives(&self, r: usize) -> bool {
        self.dead >> r & 1 == 0
    }

    /// Rebuilds rows from their ranks' marks, where whole tables are worked out anew.
    pub fn rebuild(&mut self, anew: Anew, me: usize) {
        let rows = match anew {
            Anew::Nothing | Anew::Entries => 0..0,
            Anew::OneTable => me..me + 1,
            Anew::EveryTable => 0..self.n,
        };
        for r in rows {
            self.tables[r] = fresh(self.n, self.ranks[r].marks);
        }
    }

    #[inline(always)]
    pub fn event<M: Mending>(&mut self, kind: u8, a: u32, b: u32) -> Answer {
        let a = a as usize;
        match kind {
            1 => self.enters(a, b),
            2 if b == 0 => self.delivers::<M>(a),
            3 if b == 0 => self.crashes::<M>(a),
            4 => self.notices::<M>(a, b as usize),
            5 if b == 0 => self.loses(a),
            6 if b == 0 => self.acknowledges(a),
            _ => refused(3),
        }
    }

    #[inline(always)]
    fn enters(&mut self, a: usize, w: u32) -> Answer {
        if a >= self.n {
            return refused(4);
        }
        if !self.lives(a) {
            return refused(6);
        }
        if self.ranks[a].phase != Phase::Outside {
            return refused(7);
        }
        self.act(a, None, |group| group.enter(a, w))
    }

    #[inline(always)]
    fn delivers<M: Mending>(&mut self, place: usize) -> Answer {
        if place >= self.net.count {
            return refused(5);
        }
        let m = self.net.at(place);
        let to = m.to as usize;
        if !self.lives(to) || self.ranks[to].marks >> m.from & 1 == 1 {
            self.net.leave(place);
            return NOTHING;
        }
        self.act(to, Some(place), |group| group.receive::<M>(to, m))
    }

    #[inline(always)]
    fn crashes<M: Mending>(&mut self, a: usize) -> Answer {
        if a >= self.n {
            return refused(4);
        }
        if !self.lives(a) {
            return refused(6);
        }
        if self.dead.count_ones() as usize + 1 == self.n {
            return refused(9);
        }
        self.dead |= 1 << a;
        self.rebuild(M::AT_CRASH, a);
        NOTHING
    }

    #[inline(always)]
    fn notices<M: Mending>(&mut self, a: usize, b: usize) -> Answer {
        if a >= self.n || b >= self.n {
            return refused(4);
        }
        if !self.lives(a) {
            return refused(6);
        }
        if self.lives(b) {
            return refused(8);
        }
        if self.ranks[a].marks >> b & 1 == 1 {
            return NOTHING;
        }
        self.act(a, None, |group| group.notice::<M>(a, b))
    }

    #[inline(always)]
    fn loses(&mut self, place: usize) -> Answer {
        if place >= self.net.count {
            return refused(5);
        }
        let m = self.net.at(place);
        if self.lives(m.from as usize) && self.lives(m.to as usize) {
            return refused(10);
        }
        self.net.leave(place);
        NOTHING
    }

    #[inline(always)]
    fn acknowledges(&mut self, a: usize) -> Answer {
        if a >= self.n {
            return refused(4);
        }
        if !self.lives(a) {
            return refused(6);
        }
        let r = &mut self.ranks[a];
        if r.phase != Phase::Outside {
            return refused(7);
        }
        r.acknowledged = r.marks;
        NOTHING
    }

    /// A rank does something, and then the message leaves that had it do so. Without room for what it sent, all is put back.
    #[inline(always)]
    fn act(&mut self, me: usize, place: Option<usize>, rule: impl FnOnce(&mut Group) -> u32) -> Answer {
        let (before, count) = (self.ranks[me], self.net.count);
        let moved = rule(self);
        let sent = self.net.count - count;
        if self.net.count - usize::from(place.is_some()) > ROOM {
            (self.ranks[me], self.net.count) = (before, count);
            self.rebuild(Anew::OneTable, me);
            return refused(11);
        }
        if let Some(place) = place {
            self.net.leave(place);
        }
        [0, sent as u32, moved]
    }
}
