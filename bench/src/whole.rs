//! Whole programs: processes that read a schedule on standard input and print its listing.

use crate::racers::RACERS;
use std::io::{Read, Write};
use std::process::{Command, Stdio};

/// The proved program, as ./program has built it.
const AGR: &str = concat!(env!("CARGO_MANIFEST_DIR"), "/../target/own/bin/agr");

/// One byte more than the longest file has, so that a longer one is seen.
const ENOUGH: u64 = 36_871;

/// What a program prints of a file. It runs under the emulator, if bench/run names one.
fn printed(program: &str, words: &[&str], file: &[u8]) -> Vec<u8> {
    let emulator = std::env::var("BENCH_EMULATOR");
    let line: Vec<&str> = emulator.as_deref().into_iter().chain([program]).chain(words.iter().copied()).collect();
    let mut child = Command::new(line[0])
        .args(&line[1..])
        .stdin(Stdio::piped())
        .stdout(Stdio::piped())
        .spawn()
        .unwrap_or_else(|why| panic!("{}: {why}", line[0]));
    // The pipe has room for all that is written. A program that has read enough may close it, and its answer still counts.
    let _ = child.stdin.take().expect("a pipe").write_all(file);
    child.wait_with_output().expect("its output").stdout
}

/// What the proved program prints of a file.
pub fn agr(file: &[u8]) -> Vec<u8> {
    printed(AGR, &[], file)
}

/// What a racer prints as a process of its own: the proved program, or this one as `bench play NAME`.
pub fn process(name: &str, file: &[u8]) -> Vec<u8> {
    if name == RACERS[0].name {
        return agr(file);
    }
    let bench = std::env::current_exe().expect("the path of this program");
    printed(bench.to_str().expect("a path in letters"), &["play", name], file)
}

/// `bench play NAME`: such a process.
pub fn play(name: &str) -> Result<(), String> {
    let racer = RACERS.iter().find(|r| r.name == name).ok_or(format!("{name}: no such program"))?;
    let mut file = Vec::new();
    std::io::stdin().take(ENOUGH).read_to_end(&mut file).map_err(|why| why.to_string())?;
    std::io::stdout().write_all(&(racer.print)(&file)).map_err(|why| why.to_string())
}
