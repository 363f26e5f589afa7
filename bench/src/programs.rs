//! The programs that are timed and compared. Each starts a group, plays a workload's events and writes three numbers for each.

use crate::clock::Call;
use crate::linked;
use crate::workloads::Workload;

pub struct Program {
    pub name: &'static str,
    pub run: fn(&Workload, &mut [u32]) -> u32,
    /// How many times faster than the first program it is to be.
    pub goal: Option<f64>,
}

impl Program {
    pub fn call<'a>(&'a self, workload: &'a Workload) -> Call<'a> {
        Box::new(|out| _ = (self.run)(workload, out))
    }
}

/// The proved code: `event` called one after the other first, by which the others are measured.
pub const PROGRAMS: [Program; 5] = [
    Program { name: "event after event", run: |w, out| linked::one_by_one(w.n, w.form, &w.numbers, out), goal: None },
    Program { name: "batches of 1", run: |w, out| linked::in_handfuls(w.n, w.form, 1, &w.numbers, out), goal: None },
    Program { name: "batches of 16", run: |w, out| linked::in_handfuls(w.n, w.form, 16, &w.numbers, out), goal: None },
    Program { name: "batches of 256", run: |w, out| linked::in_handfuls(w.n, w.form, 256, &w.numbers, out), goal: Some(10.0) },
    Program { name: "batches of 4,096", run: |w, out| linked::in_handfuls(w.n, w.form, 4096, &w.numbers, out), goal: None },
];
