//! The programs that race. Each runs the bytes of a schedule file, and prints its listing.

use crate::clock::Call;
use crate::linked;
use crate::plain::mending::{B, C, D, E};
use crate::plain::{listing, run};
use crate::races::Race;
use crate::whole;

pub struct Racer {
    pub name: &'static str,
    pub run: fn(&[u8], &mut [u32]) -> u32,
    pub print: fn(&[u8]) -> Vec<u8>,
}

/// The proved code first, beside which the others are put.
pub const RACERS: [Racer; 5] = [
    Racer { name: "ours", run: linked::run, print: whole::agr },
    Racer { name: "B", run: run::<B>, print: listing::<B> },
    Racer { name: "C", run: run::<C>, print: listing::<C> },
    Racer { name: "D", run: run::<D>, print: listing::<D> },
    Racer { name: "E", run: run::<E>, print: listing::<E> },
];

impl Racer {
    /// The runs of all schedules of a race.
    pub fn call<'a>(&'a self, race: &'a Race) -> Call<'a> {
        Box::new(|out| race.schedules.iter().for_each(|w| _ = (self.run)(&w.file, out)))
    }

    /// The whole program, a process, on the first schedule of a race.
    pub fn process<'a>(&'a self, race: &'a Race) -> Call<'a> {
        Box::new(|_| _ = whole::process(self.name, &race.schedules[0].file))
    }
}
