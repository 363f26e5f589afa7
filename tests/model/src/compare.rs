//! The programs beside the model: what is printed of fresh random schedules, a difference made as small as can be; marks and climbs on fresh
//! random views; who moved, by marks and by events, in every form; the views after deaths told in two orders; pictures of fresh random views and damaged
//! texts; and fresh random batches, whole and cut into parts.

use crate::batch_cases;
use crate::cases::{answers, lines, Case};
use crate::fail;
use crate::file::{read, write, MOST};
use crate::news::two_orders;
use crate::picture_cases;
use crate::pictures::views;
use crate::random::{any_form, run_in, schedule, Random};
use crate::random_batches;
use crate::random_views::cases;
use crate::script::{script, Script};
use crate::tree::{misshapen, FLAT};
use std::io::Write;
use std::process::{Command, Stdio};
use std::thread;

/// What a program, given with its words if it has any, prints on an input.
fn answer(program: &str, input: &[u8]) -> String {
    let words: Vec<&str> = program.split_whitespace().collect();
    let mut child = Command::new(words[0])
        .args(&words[1..])
        .stdin(Stdio::piped())
        .stdout(Stdio::piped())
        .spawn()
        .unwrap_or_else(|why| fail(3, &format!("{program}: {why}")));
    let mut pipe = child.stdin.take().expect("a pipe");
    let output = thread::scope(|scope| {
        // A program that reads no more than it needs closes its end early; its answer still counts.
        scope.spawn(move || { let _ = pipe.write_all(input); });
        child.wait_with_output().expect("its output")
    });
    String::from_utf8_lossy(&output.stdout).into_owned()
}

/// What must be printed of a schedule.
pub type Printed = fn(&[u8]) -> String;

fn differs(program: &str, printed: Printed, file: &[u8]) -> bool {
    answer(program, file) != printed(file)
}

/// Leaves out pieces of the file, large ones first, as long as the difference stays.
fn smallest(program: &str, printed: Printed, file: Vec<u8>) -> Vec<u8> {
    let mut file = file;
    let mut piece = 9 * 2048;
    while piece > 0 {
        let mut at = 6;
        while at + piece <= file.len() {
            let shorter = [&file[..at], &file[at + piece..]].concat();
            if differs(program, printed, &shorter) {
                file = shorter;
            } else {
                at += piece;
            }
        }
        piece = if piece > 9 { 9 * (piece / 18) } else if piece == 9 { 1 } else { 0 };
    }
    file
}

/// Compares `count` schedules from the seed on; true when there was no difference.
pub fn compare(program: &str, printed: Printed, seed: u64, count: u64) -> bool {
    for k in seed..seed + count {
        let file = schedule(&mut Random::new(k));
        if differs(program, printed, &file) {
            let file = smallest(program, printed, file);
            let bytes: Vec<String> = file.iter().map(|b| format!("{b:02x}")).collect();
            println!("seed {k}: the smallest file found, {} bytes:\n{}", file.len(), bytes.join(" "));
            println!("the model:\n{}the program:\n{}", printed(&file), answer(program, &file));
            println!("{} schedules alike, then a difference", k - seed);
            return false;
        }
    }
    println!("{count} schedules, no difference");
    true
}

/// The place of the first line that differs.
fn first_difference(ours: &str, theirs: &str) -> usize {
    ours.lines().zip(theirs.lines()).take_while(|(o, t)| o == t).count()
}

/// Compares the answers to the cases of the seeds from this one on; true when there was no difference.
fn alike(program: &str, seed: u64, cases: &[Case]) -> bool {
    let (text, ours) = (lines(cases), answers(cases));
    let theirs = answer(program, text.as_bytes());
    if ours != theirs {
        let at = first_difference(&ours, &theirs);
        let line = |text: &str| text.lines().nth(at).unwrap_or("nothing").to_string();
        println!("seed {}: {}", seed + at as u64, line(&text));
        println!("the model:   {}\nthe program: {}", line(&ours), line(&theirs));
    }
    ours == theirs
}

/// Compares `count` marks, with who moved, and climbs from the seed on, many in one run of the program; true when there was no difference.
pub fn compare_views(program: &str, seed: u64, count: u64) -> bool {
    let batch = 2000;
    for from in (0..count).step_by(batch) {
        let cases = cases(seed + from, (count - from).min(batch as u64));
        let asked: Vec<Case> = cases.iter().map(Case::who).collect();
        if !alike(program, seed + from, &cases) || !alike(program, seed + from, &asked) {
            println!("{from} cases alike, and a difference in the next {}", cases.len());
            return false;
        }
    }
    println!("{count} cases, no difference");
    true
}

/// The script of a random schedule, if it is not refused.
fn of_schedule(seed: u64) -> Option<Script> {
    let (n, events) = read(&schedule(&mut Random::new(seed))).ok()?;
    Some(script(n, FLAT, &events))
}

/// The script of a random run in a random form; of a wrong form or box size, of a refused start and an event or two.
fn in_a_form(seed: u64) -> Option<Script> {
    let random = &mut Random::new(seed);
    let n = random.size();
    let form = any_form(random, n);
    let right = if misshapen(n, form).is_none() { form } else { FLAT };
    let mut events = run_in(random, right, n);
    if form != right {
        events.truncate(2);
    }
    Some(script(n, form, &events))
}

/// Compares who moved by the events of scripts from the seed on, of those of `count` that there are; true when there was no difference.
fn compare_scripts(program: &str, seed: u64, count: u64, what: &str, make: fn(u64) -> Option<Script>) -> bool {
    let (mut scripts, mut events, mut twice) = (0, 0, 0);
    for k in seed..seed + count {
        let Some(script) = make(k) else { continue };
        let theirs = answer(program, script.text.as_bytes());
        if script.wanted != theirs {
            let at = first_difference(&script.wanted, &theirs);
            let line = |text: &str| text.lines().nth(at).unwrap_or("nothing").to_string();
            println!("seed {k}, line {}:\nthe model:   {}\nthe program: {}", at + 1, line(&script.wanted), line(&theirs));
            println!("{scripts} {what} alike, then a difference");
            return false;
        }
        scripts += 1;
        events += script.answers.len();
        twice += script.answers.iter().filter(|a| a.moved.count as usize > a.moved.ranks.len()).count();
    }
    println!("{events} events of {scripts} {what}, {twice} with a count above the set's size, no difference");
    true
}

/// Of random schedules.
pub fn compare_events(program: &str, seed: u64, count: u64) -> bool {
    compare_scripts(program, seed, count, "schedules", of_schedule)
}

/// Of random runs in all forms, with many box sizes.
pub fn compare_forms(program: &str, seed: u64, count: u64) -> bool {
    compare_scripts(program, seed, count, "runs in forms", in_a_form)
}

/// Compares the pictures of schedules from the seed on with every death told in one order and in another, of those of `count` that have two;
/// both must be what the model has for the first. True when there was no difference.
pub fn compare_orders(program: &str, seed: u64, count: u64) -> bool {
    let (mut pairs, mut moves, mut sends) = (0, 0, 0);
    for k in seed..seed + count {
        let mut random = Random::new(k);
        let Ok((n, events)) = read(&schedule(&mut random)) else { continue };
        let Some(orders) = two_orders(&mut random, n, &events) else { continue };
        if orders.other.len() > MOST {
            continue;
        }
        let [one, other] = [orders.one, orders.other].map(|events| write(n as u8, &events));
        let (wanted, [one, other]) = (views(&one), [one, other].map(|file| answer(program, &file)));
        if one != wanted || other != wanted {
            println!("seed {k}, the model:\n{wanted}in one order:\n{one}in the other:\n{other}{pairs} pairs alike, then a difference");
            return false;
        }
        pairs += 1;
        moves += orders.moves as u32;
        sends += orders.sends as u32;
    }
    println!("{pairs} pairs of orders, {moves} with another moved count, {sends} with another number of messages, no difference in the views");
    true
}

/// Compares `count` views written and as many texts read, from the seed on, many in one run of the program; true when there was no
/// difference.
pub fn compare_pictures(program: &str, seed: u64, count: u64) -> bool {
    // the program reads no more than 262,144 bytes, and a case has less than 2,000
    let batch = 100;
    let (mut written, mut read) = (0, 0);
    for from in (0..count).step_by(batch) {
        let cases = picture_cases::cases(seed + from, (count - from).min(batch as u64));
        let ours: Vec<String> = cases.iter().map(picture_cases::Case::answer).collect();
        let theirs = answer(program, &picture_cases::bytes(&cases));
        if ours.concat() != theirs {
            let at = (1..ours.len()).find(|k| !theirs.starts_with(&ours[..*k].concat())).unwrap_or(ours.len()) - 1;
            println!("seed {}: {:?}\nthe model:\n{}", seed + from + at as u64 / 2, cases[at], ours[at]);
            println!("the program:\n{}", theirs.get(ours[..at].concat().len()..).unwrap_or("nothing"));
            return false;
        }
        written += ours.iter().filter(|line| line.starts_with("write 0 ")).count();
        read += ours.iter().filter(|line| line.starts_with("read 0 ")).count();
    }
    println!("{count} views, {written} of them written, and {count} texts, {read} of them read, no difference");
    true
}

/// Compares `count` runs of events in one batch and in parts, from the seed on, some in one run of the program; true when there was no
/// difference.
pub fn compare_batches(program: &str, seed: u64, count: u64) -> bool {
    // the program reads no more than 262,144 bytes, and a case has less than 13,000
    let some = 20;
    let (mut calls, mut same) = (0, 0);
    for from in (0..count).step_by(some) {
        let cases = random_batches::cases(seed + from, (count - from).min(some as u64));
        let ours: Vec<String> = cases.iter().map(batch_cases::Case::answer).collect();
        let theirs = answer(program, batch_cases::text(&cases).as_bytes());
        if ours.concat() != theirs {
            let at = (1..ours.len()).find(|k| !theirs.starts_with(&ours[..*k].concat())).unwrap_or(ours.len()) - 1;
            println!("seed {}:\n{}the model:\n{}", seed + from + at as u64, batch_cases::text(&cases[at..=at]), ours[at]);
            println!("the program:\n{}", theirs.get(ours[..at].concat().len()..).unwrap_or("nothing"));
            return false;
        }
        calls += cases.iter().map(|case| 1 + case.parts.len()).sum::<usize>();
        same += ours.iter().filter(|answer| answer.ends_with("same\n")).count();
    }
    println!("{count} runs of events, {same} of them the same whole and in parts, {calls} calls, no difference");
    true
}
