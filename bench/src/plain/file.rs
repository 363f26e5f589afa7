//! The run of a schedule file, and what is printed of it.

use super::group::Group;
use super::mending::Mending;
use super::rank::Phase;

/// The most events of a file.
const MOST: usize = 4096;

/// The group's size and how many events there are, or the number of the first check that fails. The last is that there are places enough.
fn checked(file: &[u8], places: usize) -> Result<(usize, usize), u32> {
    let Some((first, events)) = file.split_first_chunk::<6>() else { return Err(20) };
    let [mark @ .., low, high, n] = first;
    if mark != b"AGR" {
        return Err(21);
    }
    if [*low, *high] != [1, 0] {
        return Err(22);
    }
    if !(1..=64).contains(n) {
        return Err(1);
    }
    if events.len() > 9 * MOST {
        return Err(24);
    }
    if events.len() % 9 != 0 {
        return Err(23);
    }
    if places < events.len() / 3 {
        return Err(25);
    }
    Ok((*n as usize, events.len() / 9))
}

fn number(bytes: &[u8]) -> u32 {
    u32::from_le_bytes(bytes.try_into().expect("four bytes"))
}

fn play<M: Mending>(group: &mut Group, file: &[u8], out: &mut [u32]) {
    for (e, answer) in file[6..].chunks_exact(9).zip(out.chunks_exact_mut(3)) {
        answer.copy_from_slice(&group.event::<M>(e[0], number(&e[1..5]), number(&e[5..9])));
    }
}

/// Runs a file and writes answer, sent and how many moved for each event. Gives 0, or what it refuses the file with.
pub fn run<M: Mending>(file: &[u8], out: &mut [u32]) -> u32 {
    match checked(file, out.len()) {
        Err(number) => number,
        Ok((n, _)) => {
            play::<M>(&mut Group::start(n), file, out);
            0
        }
    }
}

/// A number in decimal.
fn put(text: &mut Vec<u8>, mut x: u32) {
    let mut digits = [0; 10];
    let mut at = digits.len();
    loop {
        at -= 1;
        digits[at] = b'0' + (x % 10) as u8;
        x /= 10;
        if x == 0 {
            return text.extend_from_slice(&digits[at..]);
        }
    }
}

/// A line that begins so, with a number in each further field.
fn line(text: &mut Vec<u8>, start: &[u8], numbers: &[u32]) {
    text.extend_from_slice(start);
    for (k, x) in numbers.iter().enumerate() {
        if k > 0 {
            text.push(b' ');
        }
        put(text, *x);
    }
    text.push(b'\n');
}

fn rank_line(text: &mut Vec<u8>, group: &Group, r: usize) {
    let rank = &group.ranks[r];
    let (me, lives, phase) = (r as u32, group.lives(r) as u32, rank.phase as u32);
    if rank.phase == Phase::Decided {
        return line(text, b"r ", &[me, lives, phase, rank.result.word, rank.result.code()]);
    }
    line(text, b"r ", &[me, lives, phase]);
    text.pop();
    text.extend_from_slice(b" - -\n");
}

/// The listing of a file, or its refusal.
pub fn listing<M: Mending>(file: &[u8]) -> Vec<u8> {
    let mut answers = vec![0; 3 * MOST];
    let mut text = Vec::with_capacity(16 * MOST);
    match checked(file, answers.len()) {
        Err(number) => line(&mut text, b"refused ", &[number]),
        Ok((n, events)) => {
            let mut group = Group::start(n);
            play::<M>(&mut group, file, &mut answers);
            list(&mut text, &group, &answers[..3 * events]);
        }
    }
    text
}

fn list(text: &mut Vec<u8>, group: &Group, answers: &[u32]) {
    line(text, b"agr 1 ", &[group.n as u32, answers.len() as u32 / 3]);
    for (place, answer) in answers.chunks_exact(3).enumerate() {
        line(text, b"", &[place as u32, answer[0], answer[1], answer[2]]);
    }
    (0..group.n).for_each(|r| rank_line(text, group, r));
    line(text, b"m ", &[group.net.count as u32]);
}
