//! Before anything is timed: every program answers as the model does, so as every other, and writes nowhere else; and those that race print
//! what the proved program prints.

use crate::linked;
use crate::programs::PROGRAMS;
use crate::racers::{Racer, RACERS};
use crate::races::Race;
use crate::whole;
use crate::workloads::Workload;
use model::file::{read, MOST};
use model::group::{Event, ROOM};
use model::random::{schedule, Random};
use model::tree::FLAT;

/// What stands in the places of a slice that nobody is to write.
const FOUND: u32 = 0xdead_beef;

/// The answer of a call, and so many places as it leaves them.
fn left(places: usize, call: impl Fn(&mut [u32]) -> u32) -> (u32, Vec<u32>) {
    let mut out = vec![FOUND; places];
    (call(&mut out), out)
}

/// What a call must leave that is lent two places more than are written.
fn wanted(workload: &Workload) -> (u32, Vec<u32>) {
    (0, [&workload.wanted[..], &[FOUND; 2]].concat())
}

/// The batches on one workload, and those of one more size.
pub fn agree(workload: &Workload, size: u32) -> Result<(), String> {
    let wanted = wanted(workload);
    let differs = |name: &str| Err(format!("{name} differs from the model on {}", workload.name));
    for program in &PROGRAMS {
        if left(wanted.1.len(), |out| (program.run)(workload, out)) != wanted {
            return differs(program.name);
        }
    }
    if left(wanted.1.len(), |out| linked::in_handfuls(workload.n, workload.form, size, &workload.numbers, out)) != wanted {
        return differs(&format!("batches of {size}"));
    }
    Ok(())
}

/// The runs in every form, in one batch and in several.
pub fn forms(kinds: &[[Race; 3]]) -> Result<(), String> {
    for workload in kinds.iter().flatten().flat_map(|race| &race.schedules) {
        agree(workload, 100).map_err(|why| format!("{why} in form {}", workload.form.number))?;
    }
    Ok(())
}

/// Lengths that are refused: with their number, and nothing is written.
pub fn refusals() -> Result<(), String> {
    for (numbers, places, wanted) in [(1, 0, 40), (4, 9, 40), (5, 0, 40), (3, 2, 41), (6, 5, 41), (0, 0, 0)] {
        let events = vec![1; numbers];
        let mut out = vec![FOUND; places];
        let one = linked::one_by_one(3, FLAT, &events, &mut out);
        let many = linked::in_handfuls(3, FLAT, 1, &events, &mut out);
        if (one, many) != (wanted, wanted) || out != vec![FOUND; places] {
            return Err(format!("{numbers} numbers and {places} places are answered {one} and {many}, not {wanted}"));
        }
    }
    Ok(())
}

/// All that race leave this of a file.
fn all_leave(name: &str, file: &[u8], wanted: (u32, Vec<u32>)) -> Result<(), String> {
    for racer in &RACERS {
        if left(wanted.1.len(), |out| (racer.run)(file, out)) != wanted {
            return Err(format!("{} differs from the model on {name}", racer.name));
        }
    }
    Ok(())
}

/// All that race print what the proved program prints, here or as processes.
fn all_print(name: &str, file: &[u8], print: impl Fn(&Racer, &[u8]) -> Vec<u8>) -> Result<(), String> {
    let wanted = whole::agr(file);
    match RACERS[1..].iter().find(|racer| print(racer, file) != wanted) {
        Some(racer) => Err(format!("{} does not print the listing of agr on {name}", racer.name)),
        None => Ok(()),
    }
}

/// What a racer prints in this process.
fn here(racer: &Racer, file: &[u8]) -> Vec<u8> {
    (racer.print)(file)
}

/// All that race on one workload: its answers, what it is refused with when a place is missing, and its listing.
fn all_race(workload: &Workload) -> Result<(), String> {
    let (name, file) = (&workload.name, &workload.file);
    all_leave(name, file, wanted(workload))?;
    if let Some(places) = workload.wanted.len().checked_sub(1) {
        all_leave(name, file, (25, vec![FOUND; places]))?;
    }
    all_print(name, file, here)
}

/// All that race on what they will be timed on, in this process and in one of their own.
pub fn races(races: &[Race]) -> Result<(), String> {
    for race in races {
        for (k, workload) in race.schedules.iter().enumerate() {
            let differs = |why: String| format!("{why} of {} ranks and {} events, schedule {k}", race.n, workload.events());
            all_race(workload).map_err(differs)?;
            all_print(&workload.name, &workload.file, |racer, file| whole::process(racer.name, file)).map_err(differs)?;
        }
    }
    Ok(())
}

/// Where events were refused for want of room, the same with room made after them, and with those events tried again: what was refused must
/// have left all as it was.
fn with_room(name: &str, workload: &Workload, events: &[Event]) -> Option<Workload> {
    let crowded = events.iter().zip(workload.wanted.chunks(3)).filter(|(_, answer)| answer[0] == 11);
    let crowded: Vec<Event> = crowded.map(|(e, _)| *e).collect();
    let room = vec![Event { kind: 2, a: 0, b: 0 }; ROOM];
    let events: Vec<Event> = [events, &room, &crowded].concat().into_iter().take(MOST).collect();
    if crowded.is_empty() { None } else { Some(Workload::new(name, workload.n, FLAT, &events)) }
}

/// Random schedules of the model; only those that race have those that are refused as files. Gives how many events were compared.
pub fn schedules(seed: u64, count: usize) -> Result<usize, String> {
    let random = &mut Random::new(seed);
    let mut events = 0;
    for k in 0..count {
        let (name, file, size) = (format!("random schedule {k} of seed {seed}"), schedule(random), random.below(40));
        match read(&file) {
            Err(number) => {
                all_leave(&name, &file, (number, vec![FOUND; 2]))?;
                all_print(&name, &file, here)?;
            }
            Ok((n, played)) => {
                let workload = Workload::new(&name, n, FLAT, &played);
                agree(&workload, size)?;
                all_race(&workload)?;
                with_room(&name, &workload, &played).map_or(Ok(()), |more| all_race(&more))?;
                events += played.len();
            }
        }
    }
    Ok(events)
}

/// What no file can hold: wrong sizes, and numbers past a byte.
pub fn beyond_files(seed: u64) -> Result<(), String> {
    let random = &mut Random::new(seed);
    for n in [0, 1, 3, 64, 65, 256 + 3, u32::MAX] {
        let mut number = || random.pick(&[0, 1, 2, 3, 4, 5, 6, 256 + 1, u32::MAX]).expect("one of them");
        let events: Vec<Event> = (0..30).map(|_| Event { kind: number(), a: number(), b: number() }).collect();
        let workload = Workload::new(&format!("random numbers for {n} ranks"), n, FLAT, &events);
        for size in [0, 7, 30, u32::MAX] {
            agree(&workload, size)?;
        }
    }
    Ok(())
}
