//! Random batches from a seed: runs as they happen and garbage, wild numbers among them, cut anywhere, with places for the answers or too few.

use crate::batch_cases::{Call, Case};
use crate::file::read;
use crate::group::Event;
use crate::random::{any_form, run_in, schedule, Random};
use crate::tree::{misshapen, Form, FLAT};

/// The most numbers of a run.
const NUMBERS: usize = 750;

/// A number that becomes this one where only its low bits are kept.
fn wraps_to(random: &mut Random, x: u32) -> u32 {
    x ^ 1 << (8 + random.below(24))
}

fn any(random: &mut Random) -> u32 {
    match random.below(4) {
        0 => random.next() as u32,
        1 => u32::MAX,
        2 => 254 + random.below(8),
        _ => random.below(70),
    }
}

/// The event with a number changed in its high bits, or any numbers.
fn wild(random: &mut Random, e: Event) -> [u32; 3] {
    let Event { kind, a, b } = e;
    match random.below(4) {
        0 => [wraps_to(random, kind), a, b],
        1 => [kind, wraps_to(random, a), b],
        2 => [kind, a, wraps_to(random, b)],
        _ => [random.below(8), any(random), any(random)].map(|x| if random.one_in(4) { any(random) } else { x }),
    }
}

/// A size, a form and events: a schedule's, or a run in any form. Where the file or the form is refused, a wrong size or form.
fn begun(random: &mut Random) -> (u32, Form, Vec<Event>) {
    let refused = vec![Event { kind: 1, a: 0, b: 7 }; random.below(40) as usize];
    if random.one_in(2) {
        let size = random.size();
        let form = any_form(random, size);
        let events = if misshapen(size, form).is_none() { run_in(random, form, size) } else { refused };
        return (size, form, events);
    }
    match read(&schedule(random)) {
        Ok((size, events)) => (size, FLAT, events),
        Err(_) => (random.pick(&[0, 65, 66, 70]).expect("one"), FLAT, refused),
    }
}

/// A size, a form and the numbers of a run, with wild ones among them.
fn run(random: &mut Random) -> (u32, Form, Vec<u32>) {
    let (size, form, events) = begun(random);
    let mess = random.pick(&[3, 10, 40]).expect("one");
    let mut numbers = Vec::new();
    for e in events {
        if random.one_in(mess) {
            numbers.extend(wild(random, e));
        }
        numbers.extend([e.kind, e.a, e.b]);
    }
    numbers.truncate(NUMBERS);
    if random.one_in(8) {
        numbers.truncate(numbers.len().saturating_sub(1 + random.below(2) as usize));
    }
    (size, form, numbers)
}

/// How many numbers each part takes: none, or whole events; where `uneven` a piece of one more now and then.
fn cuts(random: &mut Random, count: usize, uneven: bool) -> Vec<usize> {
    let largest = random.pick(&[1, 4, 30, 250]).expect("one");
    let (mut cuts, mut left) = (Vec::new(), count);
    while left > 0 || random.one_in(3) {
        let events = if random.one_in(6) { 0 } else { 1 + random.below(largest) };
        let more = if uneven && random.one_in(4) { 1 + random.below(2) } else { 0 };
        let cut = left.min((3 * events + more) as usize);
        cuts.push(cut);
        left -= cut;
    }
    cuts
}

/// The places that are lent for so many numbers: as many, some more, or too few.
fn places(random: &mut Random, count: usize, short: bool) -> usize {
    match random.below(4) {
        0 if short => count.saturating_sub(1 + random.below(4) as usize),
        1 => count + random.below(10) as usize,
        _ => count,
    }
}

fn case(seed: u64) -> Case {
    let random = &mut Random::new(seed);
    let (size, form, numbers) = run(random);
    let hand = if random.one_in(6) { 1 + random.below(9) } else { 0 };
    let (uneven, short) = (random.one_in(4), random.one_in(4));
    let cuts = cuts(random, numbers.len(), uneven);
    let parts = cuts.into_iter().map(|count| Call { count, places: places(random, count, short) }).collect();
    let short = random.one_in(3);
    Case { size, form, hand, places: places(random, numbers.len(), short), parts, numbers }
}

pub fn cases(seed: u64, count: u64) -> Vec<Case> {
    (seed..seed + count).map(case).collect()
}

#[cfg(test)]
mod tests {
    use super::*;
    use crate::batch_cases::{answers, text};
    use std::collections::BTreeSet;

    fn gate(file: &str) -> String {
        let path = format!("{}/../../crates/batch_cases/{file}", env!("CARGO_MANIFEST_DIR"));
        std::fs::read_to_string(path).expect("a file of the gate's cases")
    }

    fn call_shows(call: &Call, answer: u32) -> String {
        match answer {
            0 if call.count == 0 => "part 0, of nothing".to_string(),
            0 if call.places > call.count => "part 0, with places to spare".to_string(),
            40 if call.places < call.count => "part 40, with too few places".to_string(),
            41 if call.places + 1 == call.count => "part 41, by one place".to_string(),
            _ => format!("part {answer}"),
        }
    }

    fn shows(case: &Case) -> Vec<String> {
        let (whole, split) = (case.whole(), case.split());
        let mut shown = vec![match misshapen(case.size, case.form) {
            None => format!("hand {}", case.hand),
            Some(1) => format!("size {}", case.size),
            Some(number) => format!("start {number}"),
        }];
        shown.extend((misshapen(case.size, case.form).is_none() && whole.answers[0] == 0 && case.hand == 0).then(|| format!("form {}", case.form.number)));
        shown.push(format!("whole {}", whole.answers[0]));
        shown.extend(case.parts.iter().zip(&split.answers).map(|(call, answer)| call_shows(call, *answer)));
        let events = case.numbers.chunks(3).zip(whole.places.chunks(3)).filter(|_| whole.answers[0] == 0);
        shown.extend(events.clone().map(|(_, told)| format!("event {}", told[0])));
        shown.extend(events.filter(|(e, _)| e[0] == 6).map(|(_, told)| format!("kind 6, {}", told[0])));
        shown
    }

    /// Among the cases that the gate runs, those of tests/renew, is each answer of a call and of an event, and each change by hand.
    #[test]
    fn every_answer_occurs() {
        let cases = cases(262, 120);
        assert_eq!(text(&cases), gate("stdin"));
        assert_eq!(answers(&cases), gate("stdout"));
        let shown: BTreeSet<String> = cases.iter().flat_map(shows).collect();
        let numbered = |word: &str, to: u32| (1..=to).map(|k| format!("{word} {k}")).collect::<Vec<String>>();
        let others = [
            "event 0", "form 0", "form 1", "form 2", "hand 0", "kind 6, 0", "kind 6, 1", "kind 6, 2", "kind 6, 3", "kind 6, 4", "kind 6, 6", "kind 6, 7", "part 0",
            "part 0, of nothing", "part 0, with places to spare", "part 40", "part 40, with too few places", "part 41",
            "part 41, by one place", "size 0", "size 65", "size 66", "size 70", "start 50", "start 51", "whole 0", "whole 40", "whole 41",
        ];
        let wanted = [numbered("event", 11), numbered("hand", 9), others.map(str::to_string).to_vec()].concat();
        assert_eq!(shown, wanted.into_iter().collect());
    }

    /// Where no call is refused, a run in parts tells and leaves what it does whole.
    #[test]
    fn parts_make_the_whole() {
        let accepted = |case: &Case| case.places >= case.numbers.len() && case.split().answers.iter().all(|answer| *answer == 0);
        let mut seen = 0;
        for case in cases(1000, 300).into_iter().filter(accepted) {
            assert!(case.answer().ends_with("same\n"), "{case:?}");
            seen += 1;
        }
        assert!(seen > 100);
    }
}
