//! Document 01, "Schedule file and its listing", with the code of request 2026-08.

use crate::group::{Event, Group};
use crate::rank::Phase;
use crate::tree::FLAT;

pub const MOST: usize = 4096;

pub fn write(n: u8, events: &[Event]) -> Vec<u8> {
    let mut bytes = b"AGR\x01\x00".to_vec();
    bytes.push(n);
    for e in events {
        bytes.push(u8::try_from(e.kind).expect("a kind of one byte"));
        bytes.extend(e.a.to_le_bytes());
        bytes.extend(e.b.to_le_bytes());
    }
    bytes
}

fn number(bytes: &[u8]) -> u32 {
    bytes.iter().rev().fold(0, |sum, byte| sum * 256 + *byte as u32)
}

/// The group's size and the events, or the number of the first check that fails.
pub fn read(bytes: &[u8]) -> Result<(u32, Vec<Event>), u32> {
    if bytes.len() < 6 {
        return Err(20);
    }
    if &bytes[0..3] != b"AGR" {
        return Err(21);
    }
    if number(&bytes[3..5]) != 1 {
        return Err(22);
    }
    if !(1..=64).contains(&bytes[5]) {
        return Err(1);
    }
    if bytes.len() > 6 + 9 * MOST {
        return Err(24);
    }
    if (bytes.len() - 6) % 9 != 0 {
        return Err(23);
    }
    let events = bytes[6..].chunks(9);
    let events = events.map(|e| Event { kind: e[0].into(), a: number(&e[1..5]), b: number(&e[5..9]) });
    Ok((bytes[5] as u32, events.collect()))
}

pub fn listing(bytes: &[u8]) -> String {
    let (n, events) = match read(bytes) {
        Err(refusal) => return format!("refused {refusal}\n"),
        Ok(found) => found,
    };
    let mut group = Group::start(n, FLAT);
    let mut text = format!("agr 1 {n} {}\n", events.len());
    for (place, e) in events.iter().enumerate() {
        let answer = group.event(*e);
        text += &format!("{place} {} {} {}\n", answer.number, answer.sent, answer.moved.count);
    }
    for r in 0..n {
        let rank = &group.ranks[r as usize];
        let verdict = if rank.phase == Phase::Decided { format!("{} {}", rank.result.word, rank.result.code()) } else { "- -".to_string() };
        text += &format!("r {r} {} {} {verdict}\n", group.lives(r) as u8, rank.phase as u8);
    }
    text + &format!("m {}\n", group.net.len())
}

#[cfg(test)]
mod tests {
    use super::*;
    use crate::events::written;
    use crate::pictures::views;

    #[test]
    fn document_01() {
        let events = [
            (1, 2, 7), (1, 1, 6), (1, 0, 5), (2, 0, 0), (2, 0, 0), (3, 0, 0),
            (4, 1, 0), (2, 0, 0), (2, 0, 0), (2, 0, 0), (2, 0, 0), (4, 2, 1),
        ];
        let events: Vec<Event> = events.iter().map(|(kind, a, b)| Event { kind: *kind, a: *a, b: *b }).collect();
        let wanted = "agr 1 3 12\n0 0 1 0\n1 0 0 0\n2 0 0 0\n3 0 1 0\n4 0 1 0\n5 0 0 0\n6 0 1 1\n7 0 0 0\n8 0 1 1\n\
                      9 0 1 0\n10 0 1 0\n11 8 0 0\nr 0 0 3 4 0\nr 1 1 3 6 1\nr 2 1 3 6 1\nm 1\n";
        assert_eq!(listing(&write(3, &events)), wanted);
    }

    const EXAMPLES: &str = concat!(env!("CARGO_MANIFEST_DIR"), "/../../examples");

    fn example(file: &str) -> String {
        std::fs::read_to_string(format!("{EXAMPLES}/{file}")).expect("an example")
    }

    #[test]
    fn examples() {
        let orders = ["inner_first", "leaf_first", "parent_first", "root_first"];
        let others = ["three", "broken_middle", "root_dies", "two_roots", "sixty_four", "reporter_hangs"];
        let verdicts = ["late_root", "told_since", "nobody_acknowledged", "acknowledged", "unacknowledged"];
        for name in others.iter().chain(&orders).chain(&verdicts) {
            let bytes = std::fs::read(format!("{EXAMPLES}/{name}.agr")).expect("a schedule");
            assert_eq!(written(&example(&format!("{name}.events"))), Ok(bytes.clone()), "{name}");
            assert_eq!(listing(&bytes), example(&format!("{name}.listing")), "{name}");
        }
    }

    /// Request 2026-06: other listings, and the same views in the end.
    #[test]
    fn orders() {
        for names in [["inner_first", "leaf_first"], ["parent_first", "root_first"]] {
            let files = names.map(|name| std::fs::read(format!("{EXAMPLES}/{name}.agr")).expect("a schedule"));
            assert_ne!(listing(&files[0]), listing(&files[1]));
            let shown = files.map(|file| views(&file));
            assert_eq!(shown[0], shown[1]);
            assert_eq!(shown, names.map(|name| example(&format!("{name}.views"))));
        }
    }

    /// Without request 2026-04 the root's decision is sent once, to the dead rank, and nothing is left in flight.
    #[test]
    fn reporter_hangs_before() {
        let (before, after) = (example("reporter_hangs_before.listing"), example("reporter_hangs.listing"));
        let pairs = before.lines().zip(after.lines());
        let differing: Vec<_> = pairs.filter(|(b, a)| b != a).collect();
        assert_eq!(before.lines().count(), after.lines().count());
        assert_eq!(differing, [("7 0 1 0", "7 0 2 0"), ("m 0", "m 1")]);
    }

    #[test]
    fn refused_files() {
        let good = write(1, &[Event { kind: 1, a: 0, b: 9 }]);
        let broken = |at: usize, byte: u8| { let mut f = good.clone(); f[at] = byte; listing(&f) };
        assert_eq!(listing(&good[..5]), "refused 20\n");
        assert_eq!(broken(2, b'S'), "refused 21\n");
        assert_eq!(broken(4, 1), "refused 22\n");
        assert_eq!(broken(5, 65), "refused 1\n");
        assert_eq!(listing(&good[..10]), "refused 23\n");
        assert_eq!(listing(&[&good[..6], &[0; 9 * MOST + 1]].concat()), "refused 24\n");
    }
}
