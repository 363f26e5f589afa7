//! Document 02, request 2026-03: a view as a DOT digraph, written and read. The reader takes the text apart into nodes and edges and holds
//! them to the tree; it writes no picture to compare with.

use crate::file;
use crate::group::Group;
use crate::tree::{parent, Set, FLAT};

/// The digraph of a view of n ranks.
pub fn picture(n: u32, marks: &Set) -> String {
    let unmarked: Vec<u32> = (0..n).filter(|r| !marks.contains(r)).collect();
    let mut lines = vec![format!("digraph v{n} {{")];
    for r in &unmarked {
        lines.push(if parent(FLAT, marks, *r).is_none() { format!("{r} [shape=box];") } else { format!("{r};") });
    }
    for r in &unmarked {
        if let Some(above) = parent(FLAT, marks, *r) {
            lines.push(format!("{r} -> {above};"));
        }
    }
    lines.push("}".to_string());
    lines.join("\n") + "\n"
}

/// The writer's number, or the picture where it fits.
pub fn write(n: u32, marks: &Set, room: usize) -> Result<String, u32> {
    if !(1..=64).contains(&n) {
        return Err(1);
    }
    if marks.iter().any(|r| *r >= n) || marks.len() as u32 == n {
        return Err(2);
    }
    let text = picture(n, marks);
    if text.len() > room { Err(30) } else { Ok(text) }
}

/// A number as it is written: no sign, no leading zero.
fn number(text: &str) -> Option<u32> {
    let n: u32 = text.parse().ok()?;
    (n.to_string() == text).then_some(n)
}

/// The size and the marks of the view that the text shows, if it shows one.
pub fn read(text: &[u8]) -> Option<(u32, Set)> {
    let text = std::str::from_utf8(text).ok()?;
    let body = text.strip_suffix("\n}\n")?;
    let mut lines = body.split('\n');
    let n = number(lines.next()?.strip_prefix("digraph v")?.strip_suffix(" {")?)?;
    if !(1..=64).contains(&n) {
        return None;
    }
    let rest: Vec<&str> = lines.map(|line| line.strip_suffix(';')).collect::<Option<_>>()?;
    let (edges, nodes): (Vec<&str>, Vec<&str>) = rest.iter().partition(|line| line.contains(" -> "));
    if rest != [nodes.clone(), edges.clone()].concat() {
        return None;
    }
    let boxed: Vec<u32> = nodes.iter().filter_map(|line| line.strip_suffix(" [shape=box]")).map(number).collect::<Option<_>>()?;
    let listed: Vec<u32> = nodes.iter().map(|line| number(line.strip_suffix(" [shape=box]").unwrap_or(line))).collect::<Option<_>>()?;
    if listed.is_empty() || listed.iter().any(|r| *r >= n) || listed.windows(2).any(|pair| pair[0] >= pair[1]) {
        return None;
    }
    let marks: Set = (0..n).filter(|r| !listed.contains(r)).collect();
    let links: Vec<(u32, u32)> = edges
        .iter()
        .map(|line| line.split_once(" -> ").and_then(|(from, to)| Some((number(from)?, number(to)?))))
        .collect::<Option<_>>()?;
    let roots: Vec<u32> = listed.iter().copied().filter(|r| parent(FLAT, &marks, *r).is_none()).collect();
    let wanted: Vec<(u32, u32)> = listed.iter().filter_map(|r| parent(FLAT, &marks, *r).map(|above| (*r, above))).collect();
    (boxed == roots && links == wanted).then_some((n, marks))
}

/// What the program `views` prints of a schedule.
pub fn views(bytes: &[u8]) -> String {
    let (n, events) = match file::read(bytes) {
        Err(refusal) => return format!("refused {refusal}\n"),
        Ok(found) => found,
    };
    let mut group = Group::start(n, FLAT);
    for e in events {
        group.event(e);
    }
    (0..n).filter(|r| group.lives(*r)).map(|r| picture(n, &group.ranks[r as usize].marks)).collect()
}

#[cfg(test)]
mod tests {
    use super::*;

    const EXAMPLE: &str = "digraph v3 {\n1 [shape=box];\n2;\n2 -> 1;\n}\n";

    #[test]
    fn document_02() {
        assert_eq!(picture(3, &Set::from([0])), EXAMPLE);
        assert_eq!(picture(1, &Set::new()), "digraph v1 {\n0 [shape=box];\n}\n");
        assert_eq!(picture(64, &Set::new()).len(), 876);
    }

    #[test]
    fn writer() {
        let marks = Set::from([0]);
        assert_eq!(write(3, &marks, 41), Ok(EXAMPLE.to_string()));
        assert_eq!(write(3, &marks, 40), Err(30));
        assert_eq!(write(3, &Set::from([3]), 0), Err(2));
        assert_eq!(write(3, &Set::from([0, 1, 2]), 0), Err(2));
        assert_eq!(write(0, &Set::from([0]), 0), Err(1));
        assert_eq!(write(65, &Set::new(), 0), Err(1));
    }

    #[test]
    fn reader() {
        assert_eq!(read(EXAMPLE.as_bytes()), Some((3, Set::from([0]))));
        let refused = |from: &str, to: &str| assert_eq!(read(EXAMPLE.replace(from, to).as_bytes()), None, "{from} to {to}");
        refused("v3", "v03");
        refused("v3", "v65");
        refused("v3", "v0");
        refused("v3", "v2");
        refused(" [shape=box]", "");
        refused("2;\n", "2 [shape=box];\n");
        refused("2 -> 1", "2 -> 0");
        refused("2 -> 1;\n", "");
        refused("2 -> 1;\n", "2 -> 1;\n2 -> 1;\n");
        refused("}\n", "}\n\n");
        refused("}\n", "}");
        refused("1 [shape=box];\n2;\n", "2;\n1 [shape=box];\n");
        refused("2;\n2 -> 1;\n", "2 -> 1;\n2;\n");
        refused("1 [shape=box];\n2;\n2 -> 1;\n", "");
        assert_eq!(read(b""), None);
        assert_eq!(read(b"\xff"), None);
    }

    /// Both living ranks of document 01's example know that rank 0 is dead.
    #[test]
    fn three() {
        let path = |file: &str| format!("{}/../../examples/three.{file}", env!("CARGO_MANIFEST_DIR"));
        let schedule = std::fs::read(path("agr")).expect("a schedule");
        assert_eq!(views(&schedule), EXAMPLE.repeat(2));
        assert_eq!(views(&schedule), std::fs::read_to_string(path("views")).expect("its pictures"));
        assert_eq!(views(&schedule[..5]), "refused 20\n");
    }

    /// Every view of up to 6 ranks that leaves one is read back, and no two have the same picture.
    #[test]
    fn round_trip() {
        let mut seen = std::collections::BTreeSet::new();
        for n in 1..=6 {
            for word in 0..(1u64 << n) - 1 {
                let marks = crate::tree::set(word);
                let text = picture(n, &marks);
                assert_eq!(read(text.as_bytes()), Some((n, marks)));
                assert!(seen.insert(text));
            }
        }
    }
}
