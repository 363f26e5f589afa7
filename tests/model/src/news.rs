//! Request 2026-06, the order of bad news. What it leaves: a schedule's end with every death told in two orders. What it
//! changes: a search through all short schedules for two that differ in the order in which a rank is told of deaths alone,
//! end with the same views, and move or send another number.

use crate::group::{Event, Group};
use crate::random::{owed_notices, Random};
use crate::tree::FLAT;

/// The group after these events, how many moved by them and how many messages were sent, if every one is accepted.
fn play(group: &Group, events: &[Event]) -> Option<(Group, u32, u32)> {
    let (mut group, mut moved, mut sent) = (group.clone(), 0, 0);
    for e in events {
        let answer = group.event(*e);
        if answer.number != 0 {
            return None;
        }
        moved += answer.moved.count;
        sent += answer.sent;
    }
    Some((group, moved, sent))
}

/// A schedule's events, and after them every death that a living rank has still to be told of, in one order and in another.
pub struct Orders {
    pub one: Vec<Event>,
    pub other: Vec<Event>,
    /// Whether another number moves, and another number of messages is sent.
    pub moves: bool,
    pub sends: bool,
}

fn shuffle(random: &mut Random, events: &mut [Event]) {
    for k in (1..events.len()).rev() {
        events.swap(k, random.below(k as u32 + 1) as usize);
    }
}

/// Two orders, the other with some of the notices twice; None where there is but one, or a notice is refused.
pub fn two_orders(random: &mut Random, n: u32, events: &[Event]) -> Option<Orders> {
    let mut group = Group::start(n, FLAT);
    for e in events {
        group.event(*e);
    }
    let mut one: Vec<Event> = owed_notices(&group).iter().map(|(a, b)| Event { kind: 4, a: *a, b: *b }).collect();
    shuffle(random, &mut one);
    let mut other: Vec<Event> = one.iter().chain(one.iter().filter(|_| random.one_in(4))).copied().collect();
    shuffle(random, &mut other);
    if one.len() < 2 || one == other {
        return None;
    }
    let (a, b) = (play(&group, &one)?, play(&group, &other)?);
    let after = |told: Vec<Event>| [events.to_vec(), told].concat();
    Some(Orders { one: after(one), other: after(other), moves: a.1 != b.1, sends: a.2 != b.2 })
}

#[cfg(test)]
mod tests {
    use super::*;

    /// Every event that could be accepted, but for those of kind 6, which move and send nothing; all enter with the same word, as no count
    /// hangs on it.
    fn events(group: &Group) -> Vec<Event> {
        let places = group.net.len() as u32;
        let of = |kind, count: u32, b| (0..count).map(move |a| Event { kind, a, b });
        let notices = (0..group.n).flat_map(|b| of(4, group.n, b));
        of(1, group.n, 7).chain(of(2, places, 0)).chain(of(3, group.n, 0)).chain(notices).chain(of(5, places, 0)).collect()
    }

    /// The same schedule with the notices to each rank in every order, at their places. ASKs tell of deaths too, but not so soon (below).
    fn orders(schedule: &[Event]) -> Vec<Vec<Event>> {
        let places: Vec<usize> = (0..schedule.len()).filter(|k| schedule[*k].kind == 4).collect();
        let mut found = vec![schedule.to_vec()];
        for (done, place) in places.iter().enumerate() {
            for order in found.clone() {
                for other in places[done + 1..].iter().filter(|other| schedule[**other].a == schedule[*place].a) {
                    let mut swapped = order.clone();
                    swapped.swap(*place, *other);
                    found.push(swapped);
                }
            }
        }
        found
    }

    /// Whether some accepted schedule of n ranks and that many events has another order that moves, and one that sends,
    /// another number.
    fn differs(n: u32, count: usize, schedule: &mut Vec<Event>) -> (bool, bool) {
        let Some((group, moved, sent)) = play(&Group::start(n, FLAT), schedule) else { return (false, false) };
        let (mut moves, mut sends) = (false, false);
        if schedule.len() == count {
            for order in orders(schedule) {
                if let Some((other, m, s)) = play(&Group::start(n, FLAT), &order) {
                    let same = group.ranks.iter().zip(&other.ranks).all(|(a, b)| a.marks == b.marks);
                    moves |= same && m != moved;
                    sends |= same && s != sent;
                }
            }
            return (moves, sends);
        }
        for e in events(&group) {
            schedule.push(e);
            let found = differs(n, count, schedule);
            (moves, sends) = (moves || found.0, sends || found.1);
            schedule.pop();
        }
        (moves, sends)
    }

    #[test]
    fn every_order() {
        let notice = |a, b| Event { kind: 4, a, b };
        let fixed = [Event { kind: 3, a: 1, b: 0 }, notice(4, 1)];
        let found = orders(&[notice(0, 1), fixed[0], notice(0, 2), fixed[1], notice(0, 3)]);
        let all: std::collections::BTreeSet<_> = found.iter().map(|o| [0, 2, 4].map(|k| o[k].b)).collect();
        assert!(all.len() == 6 && found.iter().all(|o| [o[1], o[3]] == fixed));
    }

    /// Three ranks and four events for moved, three ranks and five events for messages: nothing smaller, and these do.
    #[test]
    fn the_smallest() {
        let at = |n, count| differs(n, count, &mut Vec::new());
        for count in 0..=6 {
            for n in 1..=2 {
                assert_eq!(at(n, count), (false, false), "{n} ranks, {count} events");
            }
        }
        for n in 3..=5 {
            for count in 0..=3 {
                assert_eq!(at(n, count), (false, false), "{n} ranks, {count} events");
            }
            assert_eq!(at(n, 4), (true, false), "{n} ranks");
        }
        assert_eq!(at(3, 5), (true, true));
    }

    /// Whether a rank learns of a death by a delivery, an ASK's, in an accepted schedule of n ranks and that many events.
    fn asks_tell(group: &Group, count: usize) -> bool {
        count > 0 && events(group).into_iter().any(|e| {
            let mut after = group.clone();
            let told = |g: &Group| g.ranks.iter().map(|r| r.marks.len()).sum::<usize>();
            after.event(e).number == 0 && (e.kind == 2 && told(&after) > told(group) || asks_tell(&after, count - 1))
        })
    }

    #[test]
    fn no_ask_tells_before_six_events() {
        assert!((1..=4).all(|n| !asks_tell(&Group::start(n, FLAT), 5)));
        assert!(asks_tell(&Group::start(3, FLAT), 6));
    }

    /// Who of two ranks is told first: each has one piece of news, and rank 2 enters before or after its own.
    #[test]
    fn told_before_or_after_entering() {
        let sent = |first, second| {
            let notice = |a| Event { kind: 4, a, b: 1 };
            let events = [Event { kind: 3, a: 1, b: 0 }, notice(first), Event { kind: 1, a: 2, b: 7 }, notice(second)];
            play(&Group::start(3, FLAT), &events).expect("accepted").2
        };
        assert_eq!((sent(2, 0), sent(0, 2)), (1, 2));
    }

    /// With 128 messages in flight the order decides what is accepted: rank 63, whose parent is 1 and which knows all deaths
    /// but those of 0 and 1, has no room to report to 0, and needs none where it is told of 0 first.
    #[test]
    fn room_for_one_order() {
        let mut group = Group::start(64, FLAT);
        let mut accepts = |kind, a, b| assert_eq!(group.event(Event { kind, a, b }).number, 0);
        (32..64).for_each(|leaf| accepts(1, leaf, 7));
        for level in [16, 8, 4] {
            (level..2 * level).for_each(|r| accepts(3, r, 0));
            (32..64).for_each(|leaf| (level..2 * level).for_each(|r| accepts(4, leaf, r)));
        }
        (0..4).for_each(|r| accepts(3, r, 0));
        (32..63).for_each(|r| accepts(3, r, 0));
        accepts(5, 0, 0);
        (2..4).chain(32..63).for_each(|r| accepts(4, 63, r));
        assert_eq!(group.net.len(), 128);
        let tell = |orders: [u32; 2]| {
            let mut told = group.clone();
            orders.map(|b| told.event(Event { kind: 4, a: 63, b }).number)
        };
        assert_eq!((tell([1, 0]), tell([0, 1])), ([11, 0], [0, 0]));
    }
}
