//! Times the proved code and plain programs beside it, in one process, once all of them answer alike: bench [ROUNDS [SCHEDULES]].
//! `bench play NAME` is one of the plain programs as a process of its own: it reads a schedule and prints its listing.

mod clock;
mod compare;
mod linked;
mod plain;
mod programs;
mod racers;
mod races;
mod report;
mod table;
mod whole;
mod workloads;

use clock::Call;
use programs::PROGRAMS;
use racers::RACERS;
use races::Race;
use workloads::Workload;

const SEED: u64 = 7;

/// A number among the arguments, or what stands for it.
fn argument(place: usize, otherwise: usize) -> Result<usize, String> {
    let Some(text) = std::env::args().nth(place) else { return Ok(otherwise) };
    text.parse().ok().filter(|n| *n > 0).ok_or(format!("{text}: no number above 0"))
}

/// Request 2026-07: events one after the other, and by the handful.
fn batches(workload: &Workload, rounds: usize) {
    let calls: Vec<Call> = PROGRAMS.iter().map(|program| program.call(workload)).collect();
    let times = clock::times(clock::of_thread, &calls, workload.numbers.len(), rounds);
    let times: Vec<f64> = times.iter().map(|time| time / workload.events() as f64).collect();
    table::print(&PROGRAMS, workload, &times);
}

/// Request 2026-13: ours beside programs that mend in place and that rebuild.
fn race(races: &[Race], growth: &[Race], rounds: usize) {
    println!("\nThe race: the run of a file in memory, without reading and printing, ns an event. B mends entries, in place. C rebuilds");
    println!("every table at each newly known death; D rebuilds the one table; E rebuilds every table at each crash, and mends entries.");
    println!("A line is four schedules, or a bare agreement. `known` is how often, in all of them, a rank learnt of a death.\n");
    let times = report::table(&RACERS, races, rounds);
    println!("\nWith more events, and with fewer ranks:\n");
    report::table(&RACERS[..3], growth, rounds);
    println!("\nWhole programs, which read a schedule and print its listing: microseconds of user and system time of a process,");
    println!("with its start.\n");
    report::processes(&RACERS[..3], &[&races::nothing(), &races[0], &races[2]], rounds);
    println!();
    report::goals(races, &times);
}

fn bench() -> Result<(), String> {
    let (rounds, schedules) = (argument(1, 21)?, argument(2, 3000)?);
    let (mixed, races, growth, forms) = (workloads::mixed(SEED, 64, 4096), races::races(), races::growth(), races::in_forms());
    compare::refusals()?;
    compare::beyond_files(SEED)?;
    compare::agree(&mixed, 100)?;
    compare::races(&races)?;
    compare::races(&growth)?;
    compare::forms(&forms)?;
    let events = compare::schedules(SEED, schedules)?;
    println!("The same answers as the model's, and the same listings as agr's, on {schedules} random schedules, {events} events.\n");
    println!("Medians of {rounds} rounds, every program in each, of processor time. No program's slice of answers is cleared between");
    println!("calls; each call sets its group up anew.\n");
    batches(&mixed, rounds);
    race(&races, &growth, rounds);
    println!("\nEach form beside the flat one, with boxes of eight: one batch, which starts the group too, ns an event.\n");
    report::forms(&forms, rounds);
    Ok(())
}

fn main() {
    let words: Vec<String> = std::env::args().skip(1).collect();
    let done = match &words[..] {
        [play, name] if play == "play" => whole::play(name),
        _ => bench(),
    };
    if let Err(why) = done {
        eprintln!("bench: {why}");
        std::process::exit(1);
    }
}
