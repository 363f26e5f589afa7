//! What is printed of the race: times, how they grow, whole programs, and what became of the goals.

use crate::clock::{self, Call};
use crate::linked;
use crate::racers::Racer;
use crate::races::Race;
use crate::workloads::Workload;

/// A time for each racer, in their order.
type Times = Vec<f64>;

/// The columns of times: each racer's, ours beside B's, and the others' beside ours.
fn columns(racers: &[Racer]) -> String {
    let beside = racers[2..].iter().map(|racer| format!("{}/ours", racer.name));
    let names = racers.iter().map(|racer| racer.name.to_string()).chain(["ours/B".to_string()]).chain(beside);
    names.map(|name| format!("{name:>9}")).collect()
}

fn cells(times: &[f64]) -> String {
    let beside = times[2..].iter().map(|time| time / times[0]);
    let ratios = [times[0] / times[1]].into_iter().chain(beside);
    times.iter().map(|time| format!("{time:>9.1}")).chain(ratios.map(|ratio| format!("{ratio:>9.2}"))).collect()
}

/// Nanoseconds an event.
fn raced(racers: &[Racer], race: &Race, rounds: usize) -> Times {
    let calls: Vec<Call> = racers.iter().map(|racer| racer.call(race)).collect();
    let places = race.schedules.iter().map(|w| w.wanted.len()).max().expect("a schedule");
    let events = race.total(Workload::events) as f64;
    clock::times(clock::of_thread, &calls, places, rounds).iter().map(|time| time / events).collect()
}

/// A line for each race.
pub fn table(racers: &[Racer], races: &[Race], rounds: usize) -> Vec<Times> {
    println!("{:<10}{:>6}{:>10}{:>10}{:>8}{}", "", "ranks", "events", "accepted", "known", columns(racers));
    let line = |race: &Race| {
        let times = raced(racers, race, rounds);
        let events = format!("{} x {}", race.schedules.len(), race.schedules[0].events());
        let (accepted, known) = (race.total(Workload::accepted), race.total(|w| w.known));
        println!("{:<10}{:>6}{events:>10}{accepted:>10}{known:>8}{}", race.name, race.n, cells(&times));
        times
    };
    races.iter().map(line).collect()
}

/// Request 2026-09, a line for each kind of run: one batch of it in each form, nanoseconds an event, and the others beside the flat one.
pub fn forms(kinds: &[[Race; 3]], rounds: usize) {
    println!("{:<10}{:>6}{:>10}{:>9}{:>9}{:>9}{:>11}{:>13}", "", "ranks", "events", "flat", "star", "nested", "star/flat", "nested/flat");
    for forms in kinds {
        let places = forms.iter().flat_map(|race| &race.schedules).map(|w| w.wanted.len()).max().expect("a schedule");
        let calls: Vec<Call> = forms.iter().map(|race| -> Call { Box::new(|out| race.schedules.iter().for_each(|w| _ = batch(w, out))) }).collect();
        let events = |race: &Race| race.total(Workload::events) as f64;
        let times: Times = clock::times(clock::of_thread, &calls, places, rounds).iter().zip(forms).map(|(time, race)| time / events(race)).collect();
        let (race, [flat, star, nested]) = (&forms[0], [times[0], times[1], times[2]]);
        let shown = format!("{} x {}", race.schedules.len(), race.schedules[0].events());
        println!("{:<10}{:>6}{shown:>10}{flat:>9.1}{star:>9.1}{nested:>9.1}{:>11.2}{:>13.2}", race.name, race.n, star / flat, nested / flat);
    }
}

/// All of a workload's events in one batch.
pub fn batch(w: &Workload, out: &mut [u32]) -> u32 {
    linked::in_handfuls(w.n, w.form, w.events() as u32, &w.numbers, out)
}

/// A line for each race, of whole programs on its first schedule: microseconds of a process.
pub fn processes(racers: &[Racer], races: &[&Race], rounds: usize) {
    println!("{:<10}{:>6}{:>8}{}", "", "ranks", "events", columns(racers));
    for race in races {
        let calls: Vec<Call> = racers.iter().map(|racer| racer.process(race)).collect();
        let times: Times = clock::times(clock::of_children, &calls, 0, rounds).iter().map(|time| time / 1e3).collect();
        println!("{:<10}{:>6}{:>8}{}", race.name, race.n, race.schedules[0].events(), cells(&times));
    }
}

fn goal(met: bool, words: &str, race: &Race, figure: f64) {
    let met = if met { "met" } else { "NOT met" };
    println!("{met:<9}{words} on {}, {} ranks: {figure:.2} times", race.name, race.n);
}

/// A line for each goal and each race that it is for.
pub fn goals(races: &[Race], times: &[Times]) {
    for (race, times) in races.iter().zip(times) {
        let figure = times[0] / times[1];
        goal(figure <= 1.5, "ours takes at most 1.5 times the time of B", race, figure);
    }
    for (race, times) in races.iter().zip(times).filter(|(race, _)| ["notices", "busy"].contains(&race.name.as_str())) {
        let figures: Vec<f64> = times.iter().map(|time| time / times[0]).collect();
        goal(figures[2] >= 20.0, "ours is at least 20 times as fast as C", race, figures[2]);
        goal(figures[3] > 1.0, "ours is faster than D", race, figures[3]);
        goal(figures[4] > 1.0, "ours is faster than E", race, figures[4]);
    }
}
