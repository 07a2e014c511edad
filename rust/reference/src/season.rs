//! Issue seasons (document 02, request 8).
//!
//! A window is followed through the years: its *seasons* are written down one by one, each from the day on which it opens to the day
//! on which it closes, which is a day of the next year where the window runs over New Year. The first season opens in 1899, since it
//! may last into 1900. A day is permitted where it lies in a season.

use crate::days::{YEARS, day_of, exists, is_leap, length_of};
use crate::issue::{self, Line};
use crate::refusal::Number;

/// A month and a day of it.
#[derive(Clone, Copy, Debug, PartialEq, Eq, PartialOrd, Ord)]
pub struct Date {
    /// The month.
    pub month: u8,
    /// The day.
    pub day: u8,
}

/// 29 February.
const LEAP_DAY: Date = Date { month: 2, day: 29 };

impl Date {
    /// Whether a leap year has it.
    pub fn is_in_leap_year(self) -> bool {
        let month = u32::from(self.month);
        (1..=12).contains(&month) && (1..=length_of(2000, month)).contains(&u32::from(self.day))
    }

    /// The day of a year that it means, or that `instead` means in a year without 29 February.
    fn in_year(self, year: u32, instead: Date) -> u32 {
        let date = if self == LEAP_DAY && !is_leap(year) { instead } else { self };
        day_of(year, date.month.into(), date.day.into())
    }
}

/// A window: when it opens and when it closes, both included.
#[derive(Clone, Copy, Debug, PartialEq, Eq)]
pub struct Window {
    /// The opening.
    pub opening: Date,
    /// The closing.
    pub closing: Date,
}

impl Window {
    /// Its seasons, in their order. Meets 16, for a date that no leap year has.
    pub fn seasons(&self) -> Result<Seasons, Number> {
        if !self.opening.is_in_leap_year() || !self.closing.is_in_leap_year() {
            return Err(Number::NoDay);
        }
        let years = YEARS.start() - 1..=*YEARS.end();
        let seasons = years.map(|year| self.season(year)).filter(|(opens, closes)| opens <= closes);
        Ok(Seasons(seasons.collect()))
    }

    /// The season that opens in a year, by its first day and its last; there is none where the last lies before the first.
    fn season(&self, year: u32) -> (u32, u32) {
        let year_of_closing = if self.opening > self.closing { year + 1 } else { year };
        let opens = self.opening.in_year(year, Date { month: 3, day: 1 });
        let closes = self.closing.in_year(year_of_closing, Date { month: 2, day: 28 });
        (opens, closes)
    }
}

/// The seasons of a window, each by its first day and its last, in their order. No two have a day in common.
#[derive(Clone, Debug, PartialEq, Eq)]
pub struct Seasons(Vec<(u32, u32)>);

impl Seasons {
    /// The day on which the first season opens that does not close before this day.
    fn opening_from(&self, day: u32) -> Option<u32> {
        let over = self.0.partition_point(|(_, closes)| *closes < day);
        self.0.get(over).map(|(opens, _)| *opens)
    }

    /// Whether a day that exists is permitted.
    pub fn permit(&self, day: u32) -> bool {
        self.opening_from(day).is_some_and(|opens| opens <= day)
    }

    /// The first permitted day from one that exists: that day itself, or the one on which the next season opens.
    pub fn first_from(&self, day: u32) -> Option<u32> {
        self.opening_from(day).map(|opens| opens.max(day))
    }
}

/// The windows of the sizes A to H, in this order.
#[derive(Clone, Copy, Debug, PartialEq, Eq)]
pub struct Windows(pub [Window; 8]);

impl Windows {
    /// The window of a size.
    fn of(&self, size: char) -> Window {
        self.0["ABCDEFGH".find(size).expect("a line has no other size")]
    }

    /// The seasons for a line. Meets 16.
    fn seasons_for(&self, line: &Line) -> Result<Seasons, Number> {
        if !exists(line.day) {
            return Err(Number::NoDay);
        }
        self.of(line.size).seasons()
    }

    /// Whether a line may be issued on its day. Meets 16 and 17.
    pub fn check(&self, line: &Line) -> Result<(), Number> {
        if self.seasons_for(line)?.permit(line.day) { Ok(()) } else { Err(Number::OutOfSeason) }
    }

    /// The first permitted day for a line, from its own on. Meets 13 and 16.
    pub fn first_day(&self, bytes: &[u8]) -> Result<Option<u32>, Number> {
        let line = issue::read(bytes).ok_or(Number::Line)?;
        Ok(self.seasons_for(&line)?.first_from(line.day))
    }
}
