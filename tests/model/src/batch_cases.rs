//! Events in one batch and cut into parts, as a text, and what must answer it. The program of crates/batch_cases reads the one and prints the
//! other; its main.rt says how.

use crate::batches::Lent;
use crate::tree::Form;

/// What an answer place holds before a call.
const MARK: u32 = 4_000_000_000;

/// The most places that a case lends for a call.
pub const MOST: usize = 1024;

/// One call: how many numbers it takes, and how many places are lent for the answers.
#[derive(Clone, Copy, PartialEq, Debug)]
pub struct Call {
    pub count: usize,
    pub places: usize,
}

#[derive(Clone, PartialEq, Debug)]
pub struct Case {
    pub size: u32,
    pub form: Form,
    pub hand: u32,
    /// The places that are lent for the whole run.
    pub places: usize,
    pub parts: Vec<Call>,
    pub numbers: Vec<u32>,
}

/// What calls one after the other told and left.
#[derive(PartialEq, Debug)]
pub struct Told {
    pub answers: Vec<u32>,
    /// One place for each number.
    pub places: Vec<u32>,
    past: usize,
    state: Vec<u32>,
}

impl Told {
    /// The first answer that is not 0, or 0.
    fn first(&self) -> u32 {
        self.answers.iter().copied().find(|answer| *answer != 0).unwrap_or(0)
    }

    fn line(&self) -> String {
        format!("{} {} {} {}\n", self.first(), sum(&self.places), self.past, sum(&self.state))
    }
}

fn sum(numbers: &[u32]) -> u64 {
    numbers.iter().fold(0, |h, x| (h * 1_000_003 + *x as u64) % 4_294_967_291)
}

fn spaced<T: ToString>(numbers: impl IntoIterator<Item = T>) -> String {
    numbers.into_iter().map(|x| x.to_string()).collect::<Vec<String>>().join(" ")
}

impl Case {
    fn text(&self) -> String {
        let Case { size, form, hand, places, parts, numbers } = self;
        let list = spaced(parts.iter().flat_map(|part| [part.count, part.places]));
        let events: String = numbers.chunks(3).map(|e| spaced(e) + "\n").collect();
        format!("{size} {} {} {hand} {places} {} {}\n{list}\n{events}\n", form.number, form.span, numbers.len(), parts.len())
    }

    fn read(words: &mut impl Iterator<Item = u32>) -> Option<Case> {
        let (size, form) = (words.next()?, Form { number: words.next()?, span: words.next()? });
        let (hand, places) = (words.next()?, words.next()? as usize);
        let (count, parts) = (words.next()? as usize, words.next()?);
        let part = |_| Some(Call { count: words.next()? as usize, places: words.next()? as usize });
        let parts: Vec<Call> = (0..parts).map(part).collect::<Option<_>>()?;
        let numbers: Vec<u32> = words.take(count).collect();
        let lent = parts.iter().all(|part| part.places <= MOST) && places <= MOST;
        let cut = parts.iter().map(|part| part.count).sum::<usize>() == count;
        (numbers.len() == count && count <= MOST && lent && cut).then_some(Case { size, form, hand, places, parts, numbers })
    }

    /// The calls, one after the other, each on the state that the one before left and on fresh places.
    fn run(&self, calls: &[Call]) -> Told {
        let mut lent = Lent::start(self.size, self.form, self.hand);
        let mut told = Told { answers: Vec::new(), places: Vec::new(), past: 0, state: Vec::new() };
        for Call { count, places } in calls {
            let mut room = [MARK; MOST];
            let at = told.places.len();
            told.answers.push(lent.batch(&self.numbers[at..at + count], &mut room[..*places]));
            told.places.extend(&room[..*count]);
            told.past += room[*count..].iter().filter(|x| **x != MARK).count();
        }
        told.state = lent.numbers();
        told
    }

    pub fn whole(&self) -> Told {
        self.run(&[Call { count: self.numbers.len(), places: self.places }])
    }

    pub fn split(&self) -> Told {
        self.run(&self.parts)
    }

    pub fn answer(&self) -> String {
        let (whole, split) = (self.whole(), self.split());
        let calls: String = split.answers.iter().map(|answer| format!(" {answer}")).collect();
        let told = whole.first() == split.first() && whole.past == split.past;
        let same = told && whole.places == split.places && whole.state == split.state;
        format!("calls{calls}\nwhole {}parts {}{}\n", whole.line(), split.line(), if same { "same" } else { "differ" })
    }
}

/// The cases of a text, or the number of the first one that is none.
pub fn read(text: &str) -> Result<Vec<Case>, String> {
    let numbers: Result<Vec<u32>, _> = text.split_whitespace().map(str::parse).collect();
    let mut words = numbers.map_err(|_| "not numbers of 32 bits".to_string())?.into_iter().peekable();
    let mut cases = Vec::new();
    while words.peek().is_some() {
        cases.push(Case::read(&mut words).ok_or(format!("case {}: not a case", cases.len() + 1))?);
    }
    Ok(cases)
}

pub fn text(cases: &[Case]) -> String {
    cases.iter().map(Case::text).collect()
}

pub fn answers(cases: &[Case]) -> String {
    cases.iter().map(Case::answer).collect()
}

#[cfg(test)]
mod tests {
    use super::*;

    const TEXT: &str = "3 0 1 0 7 6 2\n3 4 3 3\n1 2 7\n2 0 0\n\n1 2 8 6 6 6 2\n2 3 4 6\n1 0 7\n3 0 0\n\n";

    #[test]
    fn a_text() {
        let cases = read(TEXT).expect("cases");
        assert_eq!(cases[0].parts, [Call { count: 3, places: 4 }, Call { count: 3, places: 3 }]);
        assert_eq!(cases[1].numbers, [1, 0, 7, 3, 0, 0]);
        assert_eq!(text(&cases), TEXT);
        assert_eq!(read("3 0 1 0 7 6 2 3 4 3 3 1 2 7 2 0"), Err("case 1: not a case".to_string()));
        assert_eq!(read(&format!("{TEXT}3 0 1 0 6 6 1 3 4 1 2 7 2 0 0")), Err("case 3: not a case".to_string()));
        assert_eq!(read("3 0 x"), Err("not numbers of 32 bits".to_string()));
    }

    /// The second is cut within an event, so that its parts are refused.
    #[test]
    fn whole_and_split() {
        let cases = read(TEXT).expect("cases");
        assert_eq!(cases[0].whole().places, [0, 1, 0, 0, 0, 0]);
        assert_eq!(cases[0].split().places, [0, 1, 0, 0, 0, 0]);
        assert_eq!((cases[1].whole().answers, cases[1].whole().places), (vec![0], vec![2, 0, 0, 2, 0, 0]));
        assert_eq!((cases[1].split().answers, cases[1].split().places), (vec![40, 40], vec![MARK; 6]));
        let shown = answers(&cases);
        let lines: Vec<&str> = shown.lines().collect();
        assert_eq!((lines[0], lines[3], lines[4], lines[7]), ("calls 0 0", "same", "calls 40 40", "differ"));
        assert_eq!(lines[1].strip_prefix("whole "), lines[2].strip_prefix("parts "));
        assert!(lines[5].starts_with("whole 0 ") && lines[6].starts_with("parts 40 "));
    }

    /// A place that was not written counts as no answer does.
    #[test]
    fn sums() {
        assert_eq!(sum(&[1, 2, 3]), (1_000_003 * 1_000_003 + 2 * 1_000_003 + 3) % 4_294_967_291);
        assert!((0..100_000).all(|answer| sum(&[answer]) != sum(&[MARK])));
    }
}
