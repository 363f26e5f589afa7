//! What is timed: a group's size, its form and its events, with the answers that the model has.

use model::file::write;
use model::group::{Event, Group};
use model::random::Random;
use model::tree::{misshapen, Form, FLAT};

pub struct Workload {
    pub name: String,
    pub n: u32,
    pub form: Form,
    /// Three an event: kind, a, b.
    pub numbers: Vec<u32>,
    /// The same as a schedule file, which means the flat form; no bytes where no file can hold it.
    pub file: Vec<u8>,
    /// Three an event: answer, sent, how many ranks moved.
    pub wanted: Vec<u32>,
    /// How many times a rank has marked one.
    pub known: usize,
}

impl Workload {
    pub fn new(name: &str, n: u32, form: Form, events: &[Event]) -> Workload {
        let numbers = events.iter().flat_map(|e| [e.kind, e.a, e.b]).collect();
        let fits = (1..=64).contains(&n) && events.iter().all(|e| e.kind < 256);
        let file = if fits { write(n as u8, events) } else { Vec::new() };
        let (wanted, known) = wanted(n, form, events);
        Workload { name: name.to_string(), n, form, numbers, file, wanted, known }
    }

    pub fn events(&self) -> usize {
        self.numbers.len() / 3
    }

    pub fn accepted(&self) -> usize {
        self.wanted.chunks(3).filter(|answer| answer[0] == 0).count()
    }
}

/// What must be written of each event, and how many marks there are in the end. A group that did not start refuses every event with 1.
fn wanted(n: u32, form: Form, events: &[Event]) -> (Vec<u32>, usize) {
    if misshapen(n, form).is_some() {
        return ([1, 0, 0].repeat(events.len()), 0);
    }
    let mut group = Group::start(n, form);
    let answers = events.iter().map(|e| group.event(*e));
    let wanted = answers.flat_map(|a| [a.number, a.sent, a.moved.count]).collect();
    (wanted, group.ranks.iter().map(|r| r.marks.len()).sum())
}

/// So many events for n ranks in a form, each chosen where the group stands.
pub fn played(name: &str, n: u32, form: Form, events: usize, mut next: impl FnMut(&Group) -> Event) -> Workload {
    let mut group = Group::start(n, form);
    let mut played = Vec::new();
    while played.len() < events {
        let e = next(&group);
        group.event(e);
        played.push(e);
    }
    Workload::new(name, n, form, &played)
}

/// Mostly an event that may happen now, however late it is: known deaths are told again, and few ranks die.
fn any(random: &mut Random, g: &Group) -> Event {
    let a = random.below(g.n);
    let dead: Vec<u32> = g.dead.iter().copied().collect();
    match random.below(200) {
        0 => Event { kind: 3, a, b: 0 },
        1..=19 => Event { kind: 1, a, b: random.next() as u32 },
        20..=39 => Event { kind: random.below(8), a: random.below(2 * g.n), b: random.below(2) * a },
        40..=149 if !g.net.is_empty() => Event { kind: 2, a: random.below(g.net.len() as u32), b: 0 },
        _ => Event { kind: 4, a, b: random.pick(&dead).unwrap_or(a) },
    }
}

/// Random events for n ranks.
pub fn mixed(seed: u64, n: u32, events: usize) -> Workload {
    let random = &mut Random::new(seed);
    played("mixed", n, FLAT, events, |g| any(random, g))
}
