//! Processor time, and medians of rounds in which every program has its turn.

use std::hint::black_box;

/// C's `struct timespec`, and its `struct timeval` too, as x86-64 Linux has them: seconds, and a part of a second.
#[repr(C)]
#[derive(Default)]
struct Time {
    seconds: i64,
    part: i64,
}

/// C's `struct rusage`, with what is not used here in one piece.
#[repr(C)]
#[derive(Default)]
struct Usage {
    user: Time,
    system: Time,
    others: [i64; 14],
}

const THREAD_CPU_TIME: i32 = 3;
const CHILDREN: i32 = -1;

extern "C" {
    fn clock_gettime(clock: i32, time: *mut Time) -> i32;
    fn getrusage(who: i32, usage: *mut Usage) -> i32;
}

/// The processor time that this thread has used, in nanoseconds.
pub fn of_thread() -> f64 {
    let mut time = Time::default();
    let failed = unsafe { clock_gettime(THREAD_CPU_TIME, &mut time) };
    assert_eq!(failed, 0, "there is no clock of this thread's time");
    time.seconds as f64 * 1e9 + time.part as f64
}

/// The processor time that ended child processes have used, their system's time too, in nanoseconds.
pub fn of_children() -> f64 {
    let mut usage = Usage::default();
    let failed = unsafe { getrusage(CHILDREN, &mut usage) };
    assert_eq!(failed, 0, "there is no clock of the children's time");
    let nanoseconds = |time: Time| time.seconds as f64 * 1e9 + time.part as f64 * 1e3;
    nanoseconds(usage.user) + nanoseconds(usage.system)
}

/// Something to time, which is lent a slice of answers.
pub type Call<'a> = Box<dyn Fn(&mut [u32]) + 'a>;

/// The least time of one measurement, in nanoseconds: shorter calls are repeated, so that reading the clock costs nothing beside them.
const LEAST: f64 = 200_000.0;

/// Nanoseconds of one call.
fn measured(clock: fn() -> f64, call: &Call, out: &mut [u32], often: u32) -> f64 {
    let start = clock();
    for _ in 0..often {
        call(black_box(out));
    }
    (clock() - start) / often as f64
}

fn median(mut times: Vec<f64>) -> f64 {
    times.sort_by(f64::total_cmp);
    times[times.len() / 2]
}

/// Nanoseconds of each call, which is lent so many places. Each round times every call once, and starts with another one than the round
/// before. All are repeated equally often, as the shortest wants it: what the processor learns from repetition, it learns for all.
pub fn times(clock: fn() -> f64, calls: &[Call], places: usize, rounds: usize) -> Vec<f64> {
    let mut out = vec![0; places];
    let shortest = calls.iter().map(|call| measured(clock, call, &mut out, 1)).fold(f64::MAX, f64::min);
    let often = (LEAST / shortest).ceil() as u32;
    let mut found = vec![Vec::new(); calls.len()];
    for round in 0..rounds {
        for turn in 0..calls.len() {
            let c = (round + turn) % calls.len();
            found[c].push(measured(clock, &calls[c], &mut out, often));
        }
    }
    found.into_iter().map(median).collect()
}
