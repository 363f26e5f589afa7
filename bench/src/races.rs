//! The workloads of the race: runs as they happen, with few deaths or many, and what is refused.

use crate::workloads::{played, Workload};
use model::file::MOST;
use model::group::{Event, Group};
use model::random::{owed_notices, Random};
use model::rank::Phase;
use model::tree::{Form, FLAT};

/// Schedules of one kind, run one after the other: a processor would learn a single one by heart.
pub struct Race {
    pub name: String,
    pub n: u32,
    pub schedules: Vec<Workload>,
}

impl Race {
    fn new(schedules: Vec<Workload>) -> Race {
        Race { name: schedules[0].name.clone(), n: schedules[0].n, schedules }
    }

    /// Four schedules, from a seed each.
    fn seeded(make: impl Fn(u64) -> Workload) -> Race {
        Race::new((1..=4).map(make).collect())
    }

    pub fn total(&self, count: fn(&Workload) -> usize) -> usize {
        self.schedules.iter().map(count).sum()
    }
}

fn living(g: &Group) -> Vec<u32> {
    (0..g.n).filter(|a| g.lives(*a)).collect()
}

/// A rank enters. The last one waits until it is late: while it is outside, nothing is decided.
fn entry(random: &mut Random, g: &Group, late: bool) -> Option<Event> {
    let outside = |a: &u32| g.ranks[*a as usize].phase == Phase::Outside && (late || *a + 1 < g.n);
    let outside: Vec<u32> = living(g).into_iter().filter(outside).collect();
    Some(Event { kind: 1, a: random.pick(&outside)?, b: random.next() as u32 })
}

/// A message in flight is delivered; some of those with a dead end are lost.
fn mail(random: &mut Random, g: &Group) -> Option<Event> {
    let places: Vec<u32> = (0..g.net.len() as u32).collect();
    let a = random.pick(&places)?;
    let m = g.net[a as usize];
    let torn = !g.lives(m.from) || !g.lives(m.to);
    Some(Event { kind: if torn && random.one_in(3) { 5 } else { 2 }, a, b: 0 })
}

/// A living rank is told of a death that it does not know.
fn news(random: &mut Random, g: &Group) -> Option<Event> {
    let (a, b) = random.pick(&owed_notices(g))?;
    Some(Event { kind: 4, a, b })
}

/// A living rank is told again of a death that it knows.
fn again(random: &mut Random, g: &Group) -> Option<Event> {
    let informed: Vec<u32> = living(g).into_iter().filter(|a| !g.ranks[*a as usize].marks.is_empty()).collect();
    let a = random.pick(&informed)?;
    let known: Vec<u32> = g.ranks[a as usize].marks.iter().copied().collect();
    Some(Event { kind: 4, a, b: random.pick(&known)? })
}

/// A rank crashes, so many times of four the root, while more than so many live. The last one lives on.
fn death(random: &mut Random, g: &Group, root: u32, least: usize) -> Option<Event> {
    let mortal: Vec<u32> = living(g).into_iter().filter(|a| a + 1 < g.n).collect();
    let a = if random.below(4) < root { mortal.first().copied() } else { random.pick(&mortal) };
    if mortal.len() < least { None } else { Some(Event { kind: 3, a: a?, b: 0 }) }
}

/// An event of a run as it happens: ranks enter and die all along, and when nobody waits for anything, a known death is told again.
fn likely(random: &mut Random, g: &Group) -> Event {
    let some = match random.below(4000) {
        0 => entry(random, g, true),
        1..=49 => death(random, g, 2, g.n as usize / 4),
        50..=399 => entry(random, g, false),
        400..=1999 => mail(random, g),
        2000..=3599 => news(random, g),
        _ => again(random, g),
    };
    let some = some.or_else(|| mail(random, g)).or_else(|| news(random, g)).or_else(|| again(random, g));
    some.or_else(|| death(random, g, 2, 1)).expect("two ranks or more")
}

fn valid(seed: u64, n: u32, form: Form, events: usize) -> Workload {
    let random = &mut Random::new(seed);
    played("valid", n, form, events, |g| likely(random, g))
}

/// Any numbers, near the limits more often than not.
fn garbage(random: &mut Random, g: &Group) -> Event {
    let number = |random: &mut Random| match random.below(4) {
        0 => random.next() as u32,
        1 => g.net.len() as u32,
        _ => random.below(g.n + 1),
    };
    let (kind, a) = (random.below(8), number(random));
    Event { kind, a, b: if random.one_in(3) { number(random) } else { 0 } }
}

/// Half of it garbage, most of which is refused.
fn wild(seed: u64) -> Workload {
    let random = &mut Random::new(seed);
    played("wild", 64, FLAT, MOST, |g| if random.one_in(2) { garbage(random, g) } else { likely(random, g) })
}

/// Each death is told to every living rank before the next, until one rank is left: no run of 64 ranks has more newly known deaths. What is
/// left of the events tells known deaths again, all along.
fn notices(seed: u64, form: Form) -> Workload {
    let random = &mut Random::new(seed);
    let (mut left, mut new) = (MOST as u32, 63 + 64 * 63 / 2);
    played("notices", 64, form, MOST, |g| {
        left -= 1;
        let told = if random.below(left + 1) < new { None } else { again(random, g) };
        told.unwrap_or_else(|| {
            new -= 1;
            news(random, g).or_else(|| death(random, g, 0, 1)).expect("a death that is not known to all")
        })
    })
}

/// The next event of an agreement without deaths: all enter, and messages arrive as they were sent.
fn agreeing(g: &Group) -> Option<Event> {
    let outside = (0..g.n).find(|a| g.ranks[*a as usize].phase == Phase::Outside);
    let delivery = if g.net.is_empty() { None } else { Some(Event { kind: 2, a: 0, b: 0 }) };
    outside.map(|a| Event { kind: 1, a, b: !a }).or(delivery)
}

/// What is refused once an agreement without deaths is over.
fn late(random: &mut Random, g: &Group) -> Event {
    let (kind, a, b) = (1 + random.below(5), random.below(g.n), random.below(g.n));
    match kind {
        2 | 5 => Event { kind, a, b: 0 },
        3 => Event { kind, a, b: 1 },
        _ => Event { kind, a, b },
    }
}

fn calm(seed: u64) -> Workload {
    let random = &mut Random::new(seed);
    played("calm", 64, FLAT, MOST, |g| agreeing(g).unwrap_or_else(|| late(random, g)))
}

/// Something is always under way: when all is told and delivered, a rank dies, or two.
fn busy(seed: u64, form: Form) -> Workload {
    let (random, mut dying) = (&mut Random::new(seed), 0);
    played("busy", 64, form, MOST, |g| {
        let some = entry(random, g, false).or_else(|| if random.one_in(2) { news(random, g) } else { mail(random, g) });
        let some = some.or_else(|| mail(random, g)).or_else(|| news(random, g));
        if some.is_none() {
            dying = if random.one_in(4) { 2 } else { 1 };
        }
        let dies = if dying > 0 { death(random, g, 3, 1) } else { None };
        dying -= u32::from(dying > 0);
        dies.or(some).or_else(|| entry(random, g, true)).or_else(|| again(random, g)).expect("an event")
    })
}

/// An agreement and nothing else: n ranks enter, and a message goes up and one down along each link.
fn bare(n: u32, form: Form) -> Workload {
    played("bare", n, form, (n + 2 * (n - 1)) as usize, |g| agreeing(g).expect("an agreement under way"))
}

/// What the goals are for: five workloads of 64 ranks and the most events, and the bare agreement of 64 ranks and of 8.
pub fn races() -> Vec<Race> {
    let five = [
        Race::seeded(|seed| valid(seed, 64, FLAT, MOST)),
        Race::seeded(wild),
        Race::seeded(|seed| notices(seed, FLAT)),
        Race::seeded(calm),
        Race::seeded(|seed| busy(seed, FLAT)),
    ];
    five.into_iter().chain([64, 8].map(|n| Race::new(vec![bare(n, FLAT)]))).collect()
}

/// How times grow with events, and with ranks.
pub fn growth() -> Vec<Race> {
    let sizes = [(64, 512), (64, 1024), (64, 2048), (64, MOST), (32, MOST), (16, MOST), (8, MOST)];
    sizes.into_iter().map(|(n, events)| Race::seeded(|seed| valid(seed, n, FLAT, events))).collect()
}

/// Runs of 64 ranks as they happen in each form, flat, star and nested, with boxes of eight.
pub fn in_forms() -> Vec<[Race; 3]> {
    let forms = [0, 1, 2].map(|number| Form { number, span: 8 });
    let each = |make: fn(u64, Form) -> Workload| forms.map(|form| Race::seeded(|seed| make(seed, form)));
    let bare = forms.map(|form| Race::new(vec![bare(64, form)]));
    vec![each(|seed, form| valid(seed, 64, form, MOST)), each(notices), each(busy), bare]
}

/// No events at all.
pub fn nothing() -> Race {
    Race::new(vec![Workload::new("nothing", 64, FLAT, &[])])
}
