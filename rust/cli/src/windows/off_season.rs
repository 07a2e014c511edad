//! Why the season refuses an issue line: number 16 or 17, with what the user has to know of it.

use std::fmt;

use pevghazo::{DAY_MAX, Number, Size, Window, Windows};

use super::{Date, has_day, size_in, wrong_dates};

/// Why a line was refused. The display is a sentence, or two.
#[derive(Clone, Copy, Debug, PartialEq, Eq)]
pub struct OffSeason {
    /// The line's size.
    size: Size,
    /// The window of this size.
    window: Window,
    /// What is wrong.
    why: Why,
}

/// What is wrong with a line.
#[derive(Clone, Copy, Debug, PartialEq, Eq)]
enum Why {
    /// Number 16: there is no such day. The window may have a date that no year has besides.
    NoDay,
    /// Number 16: only the window has a date that no year has.
    WrongWindow,
    /// Number 17: the day is outside the window; and the first permitted day, if there is one.
    Outside(Option<u32>),
}

impl OffSeason {
    /// Why a line was refused with this number; nothing where the number is another than the season's.
    pub fn of(number: Number, line: &[u8], windows: &Windows) -> Option<OffSeason> {
        let size = size_in(line)?;
        let why = match number {
            Number::NoSuchDay if has_day(line) => Why::WrongWindow,
            Number::NoSuchDay => Why::NoDay,
            Number::OutOfSeason => Why::Outside(windows.first_day(line).ok().flatten()),
            _ => return None,
        };
        Some(OffSeason { size, window: windows.of(size), why })
    }

    /// What is wrong with the window, or nothing.
    fn wrong_window(&self) -> String {
        let wrong = wrong_dates(self.window);
        if wrong.is_empty() {
            return String::new();
        }
        format!("Size {} {}, which no year has.", self.size, wrong.join(" and "))
    }
}

impl fmt::Display for OffSeason {
    fn fmt(&self, f: &mut fmt::Formatter<'_>) -> fmt::Result {
        let OffSeason { size, window, why } = self;
        match why {
            Why::NoDay => f.write_str(format!("{NO_DAY} {}", self.wrong_window()).trim_end()),
            Why::WrongWindow => f.write_str(&self.wrong_window()),
            Why::Outside(first) => {
                let (opening, closing) = (Date::opening(*window), Date::closing(*window));
                write!(f, "The line's day is outside the window of size {size}, {opening} to {closing}. ")?;
                match first {
                    Some(day) => write!(f, "The first permitted day is {day:08}."),
                    None => write!(f, "No later day up to {DAY_MAX} is permitted."),
                }
            }
        }
    }
}

/// What is said of a day that does not exist.
pub const NO_DAY: &str = "The day does not exist: days are those of the years 1900 to 2199.";
