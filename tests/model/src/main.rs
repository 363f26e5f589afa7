//! A second opinion on schedules, batches, marks, climbs and pictures, written from document 01 and requests 2026-01, 2026-03, 2026-04, 2026-06,
//! 2026-07, 2026-08 and 2026-09 alone.
//!
//!     model listing < FILE                     the listing that FILE must have
//!     model write [EVENTS] > FILE              the schedule that a text describes (events.rs)
//!     model schedule SEED > FILE               a random schedule
//!     model data SEED COUNT DIR                COUNT of them as DIR/000.agr and on, few of them long, then those at the limits; their
//!                                              listings on standard output
//!     model compare PROGRAM SEED COUNT         the program's listings beside the model's
//!     model views SEED COUNT > CASES           COUNT random marks and climbs, a line each
//!     model answers < CASES                    the lines that must answer them
//!     model compare-views PROGRAM SEED COUNT   the program's answers beside the model's, and who moved by each mark
//!     model compare-events PROGRAM SEED COUNT  who moved by each event of random schedules, the program beside the model
//!     model compare-forms PROGRAM SEED COUNT   the same of random runs in every form, with many box sizes
//!     model pictures-of < FILE                 the pictures that must be printed of FILE
//!     model compare-pictures-of PROGRAM SEED COUNT  the same beside the program's, of random schedules
//!     model compare-orders PROGRAM SEED COUNT  the same of random schedules with every death told after them in one order and in another
//!     model pictures SEED COUNT DIR            COUNT random views to write and texts to read as DIR/stdin, what must answer them as DIR/stdout
//!     model compare-pictures PROGRAM SEED COUNT  the program's answers to such beside the model's
//!     model batches SEED COUNT > CASES         COUNT random runs of events, to be run whole and cut into parts
//!     model batch-answers < CASES              the lines that must answer them
//!     model compare-batches PROGRAM SEED COUNT  the program's answers to such beside the model's
//!
//! It ends with 1 where a text is refused or a comparison finds a difference, 2 for a wrong use, 3 where reading or
//! writing failed.

mod batch_cases;
mod batches;
mod cases;
mod compare;
mod events;
mod file;
mod group;
mod news;
mod picture_cases;
mod pictures;
mod random;
mod random_batches;
mod random_views;
mod rank;
mod script;
mod tree;
mod triple;
mod views;

use random::{limits, schedule, Random};
use std::ffi::{OsStr, OsString};
use std::io::{ErrorKind, Read, Write};
use std::path::Path;
use std::process::exit;

/// Ends the program with a line on standard error, if that can be written, under the name that it was called by.
pub fn fail(code: i32, why: &str) -> ! {
    let called = std::env::args_os().next().unwrap_or_default();
    let name = Path::new(&called).file_name().unwrap_or_default().to_string_lossy();
    let _ = writeln!(std::io::stderr(), "{name}: {why}");
    exit(code)
}

fn number(text: &str) -> u64 {
    text.parse().unwrap_or_else(|_| fail(2, &format!("{text}: not a number")))
}

fn print(bytes: &[u8]) {
    let mut output = std::io::stdout();
    if output.write_all(bytes).and_then(|()| output.flush()).is_err() {
        fail(3, "writing failed");
    }
}

const INPUT: &str = "standard input";

fn input() -> Vec<u8> {
    let mut bytes = Vec::new();
    if std::io::stdin().read_to_end(&mut bytes).is_err() {
        fail(3, &format!("{INPUT}: reading failed"));
    }
    bytes
}

fn read(file: &OsStr) -> Vec<u8> {
    std::fs::read(file).unwrap_or_else(|why| match why.kind() {
        ErrorKind::NotFound => fail(3, &format!("{}: there is no such file", file.to_string_lossy())),
        _ => fail(3, &format!("{}: reading failed", file.to_string_lossy())),
    })
}

/// What a text says; what is wrong is told with the text's name.
fn said<T>(name: &str, bytes: Vec<u8>, says: fn(&str) -> Result<T, String>) -> T {
    let text = String::from_utf8(bytes).map_err(|why| {
        let before = &why.as_bytes()[..why.utf8_error().valid_up_to()];
        format!("line {}: not a text", 1 + before.iter().filter(|byte| **byte == b'\n').count())
    });
    text.and_then(|text| says(&text)).unwrap_or_else(|why| fail(1, &format!("{name}: {why}")))
}

/// Long files teach little more than short ones: one in six may be. After them the files at the limits.
fn data(seed: u64, count: u64, dir: &str) {
    let seeds = seed..;
    let files = seeds.map(|seed| (seed, schedule(&mut Random::new(seed))));
    let kept = files.filter(|(seed, bytes)| bytes.len() < 1500 || seed % 6 == 0).map(|(_, bytes)| bytes);
    let limits = limits(&mut Random::new(seed));
    for (k, bytes) in kept.take(count as usize).chain(limits).enumerate() {
        save(&format!("{dir}/{k:03}.agr"), &bytes);
        print(file::listing(&bytes).as_bytes());
    }
}

fn save(name: &str, bytes: &[u8]) {
    if let Err(why) = std::fs::write(name, bytes) {
        fail(3, &format!("{name}: {why}"));
    }
}

fn pictures(seed: u64, count: u64, dir: &str) {
    let cases = picture_cases::cases(seed, count);
    save(&format!("{dir}/stdin"), &picture_cases::bytes(&cases));
    save(&format!("{dir}/stdout"), picture_cases::answers(&cases).as_bytes());
}

/// A comparison that finds a difference ends the program with 1.
fn ends(same: bool) {
    if !same {
        exit(1);
    }
}

fn main() {
    let given: Vec<OsString> = std::env::args_os().skip(1).collect();
    let words: Vec<_> = given.iter().map(|word| word.to_string_lossy()).collect();
    let words: Vec<&str> = words.iter().map(|word| word.as_ref()).collect();
    match words[..] {
        ["listing"] => print(file::listing(&input()).as_bytes()),
        ["write"] => print(&said(INPUT, input(), events::written)),
        ["write", name] => print(&said(name, read(&given[1]), events::written)),
        ["schedule", seed] => print(&schedule(&mut Random::new(number(seed)))),
        ["data", seed, count, dir] => data(number(seed), number(count), dir),
        ["compare", program, seed, count] => ends(compare::compare(program, file::listing, number(seed), number(count))),
        ["views", seed, count] => print(cases::lines(&random_views::cases(number(seed), number(count))).as_bytes()),
        ["answers"] => print(cases::answers(&said(INPUT, input(), cases::read)).as_bytes()),
        ["compare-views", program, seed, count] => ends(compare::compare_views(program, number(seed), number(count))),
        ["compare-events", program, seed, count] => ends(compare::compare_events(program, number(seed), number(count))),
        ["compare-forms", program, seed, count] => ends(compare::compare_forms(program, number(seed), number(count))),
        ["pictures-of"] => print(pictures::views(&input()).as_bytes()),
        ["compare-pictures-of", program, seed, count] => {
            ends(compare::compare(program, pictures::views, number(seed), number(count)))
        }
        ["compare-orders", program, seed, count] => ends(compare::compare_orders(program, number(seed), number(count))),
        ["pictures", seed, count, dir] => pictures(number(seed), number(count), dir),
        ["compare-pictures", program, seed, count] => ends(compare::compare_pictures(program, number(seed), number(count))),
        ["batches", seed, count] => print(batch_cases::text(&random_batches::cases(number(seed), number(count))).as_bytes()),
        ["batch-answers"] => print(batch_cases::answers(&said(INPUT, input(), batch_cases::read)).as_bytes()),
        ["compare-batches", program, seed, count] => ends(compare::compare_batches(program, number(seed), number(count))),
        _ => fail(
            2,
            "listing | write [EVENTS] | schedule SEED | data SEED COUNT DIR | compare PROGRAM SEED COUNT | \
             views SEED COUNT | answers | compare-views PROGRAM SEED COUNT | compare-events PROGRAM SEED COUNT | \
             compare-forms PROGRAM SEED COUNT | \
             pictures-of | compare-pictures-of PROGRAM SEED COUNT | compare-orders PROGRAM SEED COUNT | \
             pictures SEED COUNT DIR | compare-pictures PROGRAM SEED COUNT | batches SEED COUNT | batch-answers | \
             compare-batches PROGRAM SEED COUNT",
        ),
    }
}
