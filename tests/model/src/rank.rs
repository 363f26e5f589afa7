//! Document 01, "What a rank holds" and "What a rank does", with request 2026-04, who reports to an undecided rank is owed, and request
//! 2026-08, a triple stands where a word stood.

use crate::tree::{children, mark_one, parent, word, Form, Moved, Set};
use crate::triple::Triple;

#[derive(Clone, Copy, PartialEq, Debug)]
pub enum Phase {
    Outside,
    Gathering,
    Waiting,
    Decided,
}

#[derive(Clone, Copy, PartialEq, Debug)]
pub enum Body {
    Up(Triple),
    Down(Triple),
    Ask,
}

#[derive(Clone)]
pub struct Rank {
    n: u32,
    form: Form,
    me: u32,
    pub phase: Phase,
    pub marks: Set,
    pub acknowledged: Set,
    pub heard: Set,
    pub owed: Set,
    pub triple: Triple,
    pub result: Triple,
}

/// What one rule did: the messages it sent, in order, and who moved.
#[derive(Default)]
pub struct Done {
    pub sends: Vec<(u32, Body)>,
    pub moved: Moved,
}

impl Rank {
    pub fn fresh(n: u32, form: Form, me: u32) -> Rank {
        let [marks, acknowledged, heard, owed] = [const { Set::new() }; 4];
        Rank { n, form, me, phase: Phase::Outside, marks, acknowledged, heard, owed, triple: Triple::fresh(n), result: Triple::default() }
    }

    fn parent(&self) -> Option<u32> {
        parent(self.form, &self.marks, self.me)
    }

    fn children(&self) -> Set {
        children(self.n, self.form, &self.marks, self.me)
    }

    fn mark(&mut self, q: u32, done: &mut Done) {
        mark_one(self.n, self.form, &mut self.marks, q, &mut done.moved);
    }

    fn decide(&mut self, x: Triple, done: &mut Done) {
        self.result = x;
        self.phase = Phase::Decided;
        let told = self.children().union(&self.owed).copied().collect::<Set>();
        done.sends.extend(told.difference(&self.marks).map(|r| (*r, Body::Down(x))));
    }

    /// A root decides its triple with its marks among the known dead; they join what it decides, not what it holds.
    fn settle(&mut self, done: &mut Done) {
        if self.phase != Phase::Gathering || !self.children().is_subset(&self.heard) {
            return;
        }
        match self.parent() {
            None => self.decide(self.triple.knowing(word(&self.marks)), done),
            Some(p) => {
                done.sends.push((p, Body::Up(self.triple)));
                self.phase = Phase::Waiting;
            }
        }
    }

    /// Only a rank outside acknowledges; it sends nothing.
    pub fn acknowledge(&mut self) {
        self.acknowledged = self.marks.clone();
    }

    pub fn enter(&mut self, w: u32) -> Done {
        let mut done = Done::default();
        let proposed = Triple { word: w, known: word(&self.marks), acknowledged: word(&self.acknowledged) };
        self.triple = self.triple.combined(proposed);
        self.phase = Phase::Gathering;
        self.settle(&mut done);
        done
    }

    pub fn receive(&mut self, q: u32, body: Body) -> Done {
        let mut done = Done::default();
        match body {
            Body::Up(x) => {
                if self.phase == Phase::Decided {
                    done.sends.push((q, Body::Down(self.result)));
                } else {
                    self.heard.insert(q);
                    self.owed.insert(q);
                    self.triple = self.triple.combined(x);
                }
                self.settle(&mut done);
            }
            Body::Down(x) => {
                if matches!(self.phase, Phase::Gathering | Phase::Waiting) {
                    self.decide(x, &mut done);
                }
            }
            Body::Ask => {
                for r in 0..q {
                    self.mark(r, &mut done);
                }
                if self.phase == Phase::Decided {
                    done.sends.push((q, Body::Down(self.result)));
                } else {
                    self.owed.insert(q);
                    if self.phase == Phase::Waiting && self.parent() == Some(q) {
                        done.sends.push((q, Body::Up(self.triple)));
                    }
                }
                self.settle(&mut done);
            }
        }
        done
    }

    pub fn notice(&mut self, q: u32) -> Done {
        let mut done = Done::default();
        if self.marks.contains(&q) {
            return done;
        }
        let (old_parent, old_children, of_q) = (self.parent(), self.children(), children(self.n, self.form, &self.marks, q));
        self.mark(q, &mut done);
        if self.phase == Phase::Waiting && old_parent == Some(q) {
            match self.parent() {
                Some(p) => done.sends.push((p, Body::Up(self.triple))),
                None => {
                    self.heard.clear();
                    self.phase = Phase::Gathering;
                    done.sends.extend(self.children().into_iter().map(|c| (c, Body::Ask)));
                }
            }
        } else if self.phase == Phase::Gathering && old_parent.is_none() && old_children.contains(&q) {
            done.sends.extend(self.children().intersection(&of_q).map(|c| (*c, Body::Ask)));
        }
        self.settle(&mut done);
        done
    }
}
