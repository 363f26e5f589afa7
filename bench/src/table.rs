//! What is printed of the times.

use crate::programs::Program;
use crate::workloads::Workload;

/// A line for each program: nanoseconds an event, and how many times faster than the first it is. Then what became of the goals.
pub fn print(programs: &[Program], workload: &Workload, times: &[f64]) {
    let (n, events, accepted) = (workload.n, workload.events(), workload.accepted());
    println!("{}: {n} ranks, {events} events, {accepted} of them accepted\n", workload.name);
    println!("{:<20}{:>14}{:>14}", "", "ns an event", "times faster");
    let faster = |time: &f64| times[0] / time;
    for (program, time) in programs.iter().zip(times) {
        println!("{:<20}{time:>14.1}{:>14.1}", program.name, faster(time));
    }
    println!();
    for (program, time) in programs.iter().zip(times) {
        let Some(goal) = program.goal else { continue };
        let met = if faster(time) >= goal { "met" } else { "NOT met" };
        println!("The goal, {} at least {goal} times as fast as {}, is {met}.", program.name, programs[0].name);
    }
}
