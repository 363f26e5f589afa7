//! A schedule as text, for people: `n SIZE`, then a line `KIND A B` for each event; `#` begins a comment.

use crate::file::write;
use crate::group::Event;

/// What a complaint shows of a text: its start, on one line.
fn shown(text: &str) -> String {
    text.trim().chars().take(40).flat_map(char::escape_debug).collect()
}

/// A decimal number of at most `most`, written in digits alone.
fn number(word: &str, most: u32) -> Result<u32, String> {
    if word.is_empty() || !word.bytes().all(|byte| byte.is_ascii_digit()) {
        return Err(format!("`{}` is no number", shown(word)));
    }
    let value = word.parse().ok().filter(|value| *value <= most);
    value.ok_or(format!("{} does not fit, the most here is {most}", shown(word)))
}

/// A byte: a size or a kind. Whether the program takes it is for the program to say.
fn byte(word: &str) -> Result<u8, String> {
    number(word, 255).map(|value| value as u8)
}

fn event(kind: &str, a: &str, b: &str) -> Result<Event, String> {
    Ok(Event { kind: byte(kind)?.into(), a: number(a, u32::MAX)?, b: number(b, u32::MAX)? })
}

/// The schedule that a text describes, or what is wrong with it, and in which line.
pub fn written(text: &str) -> Result<Vec<u8>, String> {
    let mut size = None;
    let mut events = Vec::new();
    for (k, line) in text.lines().enumerate() {
        let at = |why: String| format!("line {}: {why}", k + 1);
        let words: Vec<&str> = line.split('#').next().unwrap_or("").split_whitespace().collect();
        match (words[..].as_ref(), size) {
            ([], _) => {}
            (["n", n], None) => size = Some(byte(n).map_err(at)?),
            (["n", _], Some(_)) => return Err(at("a second size".to_string())),
            ([kind, a, b], Some(_)) => events.push(event(kind, a, b).map_err(at)?),
            ([_, _, _], None) => return Err(at("an event before the size, `n SIZE`".to_string())),
            _ => return Err(at(format!("`{}` is neither `n SIZE` nor `KIND A B`", shown(line)))),
        }
    }
    match size {
        Some(n) => Ok(write(n, &events)),
        None => Err("there is no size, `n SIZE`".to_string()),
    }
}

#[cfg(test)]
mod tests {
    use super::*;

    #[test]
    fn a_text() {
        let text = "# three ranks\n\nn 3   # the size\n 1 2 7\n4 1 4294967295\n";
        let events = [Event { kind: 1, a: 2, b: 7 }, Event { kind: 4, a: 1, b: u32::MAX }];
        assert_eq!(written(text), Ok(write(3, &events)));
        assert_eq!(written("n 0"), Ok(write(0, &[])));
        assert_eq!(written("n 255\r\n255 0 0\r\n"), Ok(write(255, &[Event { kind: 255, a: 0, b: 0 }])));
    }

    #[test]
    fn what_does_not_fit() {
        for (text, why) in [
            ("n 300\n", "line 1: 300 does not fit, the most here is 255"),
            ("n 256", "line 1: 256 does not fit, the most here is 255"),
            ("n 3\n\n257 0 0\n", "line 3: 257 does not fit, the most here is 255"),
            ("n 3\n1 4294967296 0\n", "line 2: 4294967296 does not fit, the most here is 4294967295"),
            ("n 3\n1 0 99999999999999999999\n", "line 2: 99999999999999999999 does not fit, the most here is 4294967295"),
        ] {
            assert_eq!(written(text), Err(why.to_string()), "{text}");
        }
    }

    #[test]
    fn bad_words() {
        for (text, why) in [
            ("", "there is no size, `n SIZE`"),
            ("# nothing\n", "there is no size, `n SIZE`"),
            ("n three\n", "line 1: `three` is no number"),
            ("n -1\n", "line 1: `-1` is no number"),
            ("n +1\n", "line 1: `+1` is no number"),
            ("n 3\nn 4\n", "line 2: a second size"),
            ("1 0 0\nn 3\n", "line 1: an event before the size, `n SIZE`"),
            ("n 3\n1 0\n", "line 2: `1 0` is neither `n SIZE` nor `KIND A B`"),
            ("n 3\n1 0 0 0\n", "line 2: `1 0 0 0` is neither `n SIZE` nor `KIND A B`"),
            ("n 3\n1 0 0\nenter 0 5\n", "line 3: `enter` is no number"),
            ("n 3\n1 0 0x5\n", "line 2: `0x5` is no number"),
            ("n\n", "line 1: `n` is neither `n SIZE` nor `KIND A B`"),
            ("AGR\x01\0\x03\x01", "line 1: `AGR\\u{1}\\0\\u{3}\\u{1}` is neither `n SIZE` nor `KIND A B`"),
            ("size 3\n", "line 1: `size 3` is neither `n SIZE` nor `KIND A B`"),
        ] {
            assert_eq!(written(text), Err(why.to_string()), "{text}");
        }
    }
}
