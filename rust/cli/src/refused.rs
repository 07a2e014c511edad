//! The refused lines of an input: remembered in little memory, and listed.

use std::fmt;
use std::io::Write;

use pevghazo::{Number, Refusal, Size, Windows};

use crate::failure::Failure;
use crate::output::print;
use crate::windows::{NO_DAY, OffSeason, size_in};

/// Why a line was refused. The display is a sentence, or two.
#[derive(Clone, Copy, Debug, PartialEq, Eq)]
pub struct Reason {
    /// The library's number.
    pub number: Number,
    /// Whether the line ends with carriage return and line feed.
    has_return: bool,
    /// What is known of it besides.
    more: More,
}

/// What is known of a refusal besides its number.
#[derive(Clone, Copy, Debug, PartialEq, Eq)]
enum More {
    /// Nothing.
    Nothing,
    /// What the season has against the line.
    Season(OffSeason),
    /// The day does not exist: there were no windows that could have a date that no year has.
    NoDay,
    /// Which size is not sold.
    NotSold(Size),
}

impl Reason {
    /// The reason of a refusal of this line, by these windows if there were some.
    pub fn of(refusal: Refusal, line: &[u8], windows: Option<&Windows>) -> Reason {
        let season = windows.and_then(|windows| OffSeason::of(refusal.number, line, windows));
        Reason::with(refusal.number, line, season.map_or(More::Nothing, More::Season))
    }

    /// The reason why this line was not charged for.
    pub fn of_charge(refusal: Refusal, line: &[u8]) -> Reason {
        let more = match refusal.number {
            Number::NoSuchDay => More::NoDay,
            Number::NotSold => size_in(line).map_or(More::Nothing, More::NotSold),
            _ => More::Nothing,
        };
        Reason::with(refusal.number, line, more)
    }

    /// A refusal of this line with this number.
    fn with(number: Number, line: &[u8], more: More) -> Reason {
        Reason { number, has_return: line.ends_with(b"\r\n"), more }
    }
}

impl fmt::Display for Reason {
    fn fmt(&self, f: &mut fmt::Formatter<'_>) -> fmt::Result {
        match &self.more {
            More::Season(season) => season.fmt(f),
            More::NoDay => f.write_str(NO_DAY),
            More::NotSold(size) => write!(f, "Rings of size {size} are not sold: the price list has 0 for them."),
            More::Nothing => {
                f.write_str(self.number.sentence())?;
                if self.has_return { f.write_str(RETURN) } else { Ok(()) }
            }
        }
    }
}

/// What is said besides of a line that ends as on some systems.
const RETURN: &str = " It ends with carriage return and line feed: take the carriage return away.";

/// Successive lines that were refused for one reason.
#[derive(Debug)]
struct Run {
    first: u64,
    count: u64,
    reason: Reason,
}

/// The refused lines of an input, in their order.
#[derive(Debug, Default)]
pub struct Refused {
    runs: Vec<Run>,
    /// How many they are.
    pub count: u64,
}

impl Refused {
    /// Remembers a line, by its number in the input.
    pub fn add(&mut self, line: u64, reason: Reason) {
        self.count += 1;
        match self.runs.last_mut() {
            Some(run) if run.reason == reason && run.first + run.count == line => run.count += 1,
            _ => self.runs.push(Run { first: line, count: 1, reason }),
        }
    }

    /// The first line, with its reason.
    pub fn first(&self) -> Option<(u64, Reason)> {
        self.runs.first().map(|run| (run.first, run.reason))
    }

    /// The lines, each with its reason.
    pub fn lines(&self) -> impl Iterator<Item = (u64, Reason)> {
        self.runs.iter().flat_map(|run| (run.first..run.first + run.count).map(|line| (line, run.reason)))
    }

    /// Prints where each line is and why it was refused. A line may hold any bytes, and is not shown.
    pub fn list(&self, out: &mut dyn Write) -> Result<(), Failure> {
        let mut list = String::new();
        for (line, reason) in self.lines() {
            list.push_str(&listed(line, reason));
            if list.len() > AT_ONCE {
                print(out, &std::mem::take(&mut list))?;
            }
        }
        print(out, &list)
    }
}

/// A line of such a list.
pub fn listed(line: u64, reason: Reason) -> String {
    format!("line {line}: number {}: {reason}\n", reason.number.number())
}

/// How long a part of a list may be before it is printed.
pub const AT_ONCE: usize = 1 << 13;

#[cfg(test)]
mod tests {
    use super::*;

    fn reason(number: Number) -> Reason {
        Reason { number, has_return: false, more: More::Nothing }
    }

    /// However many lines of one reason follow each other, they take one place, of 40 bytes.
    #[test]
    fn successive_lines_take_one_place() {
        let mut refused = Refused::default();
        assert_eq!(refused.first(), None);
        (2..1_000_002).for_each(|line| refused.add(line, reason(Number::BadLine)));
        assert_eq!((refused.runs.len(), refused.count, size_of::<Run>()), (1, 1_000_000, 40));
        // Another reason, the first one again, a gap, and a carriage return.
        refused.add(1_000_002, reason(Number::Pooled));
        refused.add(1_000_003, reason(Number::BadLine));
        refused.add(1_000_005, reason(Number::BadLine));
        refused.add(1_000_006, Reason { has_return: true, ..reason(Number::BadLine) });
        assert_eq!((refused.runs.len(), refused.count), (5, 1_000_004));
        assert_eq!(refused.first(), Some((2, reason(Number::BadLine))));
    }

    /// A list of several parts is whole and in order.
    #[test]
    fn a_long_list() {
        let (mut refused, mut expected) = (Refused::default(), String::new());
        for line in (1..2_000).filter(|line| line % 7 > 0) {
            let number = if line % 5 > 2 { Number::Pooled } else { Number::PoolFull };
            refused.add(line, reason(number));
            expected += &format!("line {line}: number {}: {}\n", number.number(), number.sentence());
        }
        let mut printed = Vec::new();
        refused.list(&mut printed).unwrap();
        assert!(expected.len() > 2 * AT_ONCE && printed == expected.as_bytes());
    }
}
