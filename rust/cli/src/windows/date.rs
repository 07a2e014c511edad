//! The dates of windows.

use std::fmt;

use pevghazo::{Size, Window, Windows};

use super::line_of;

/// A month and a day, as a window has them.
#[derive(Clone, Copy, Debug, PartialEq, Eq)]
pub struct Date {
    /// The month.
    pub month: u8,
    /// The day of the month.
    pub day: u8,
}

/// 29 February, which common years do not have.
const LEAP_DAY: Date = Date { month: 2, day: 29 };

impl Date {
    /// The opening of a window.
    pub fn opening(window: Window) -> Date {
        Date { month: window.open_month, day: window.open_day }
    }

    /// The closing of a window.
    pub fn closing(window: Window) -> Date {
        Date { month: window.close_month, day: window.close_day }
    }

    /// Whether it is 29 February.
    pub fn is_leap_day(self) -> bool {
        self == LEAP_DAY
    }

    /// Whether some year has it, as the library says: it refuses lines in a window with any other date.
    fn is_of_a_year(self) -> bool {
        let Date { month, day } = self;
        let window = Window { open_month: month, open_day: day, close_month: month, close_day: day };
        Windows::new([window; 8]).first_day(&line_of(Size::A, 20_000_101)).is_ok()
    }
}

impl fmt::Display for Date {
    /// Four digits.
    fn fmt(&self, f: &mut fmt::Formatter<'_>) -> fmt::Result {
        write!(f, "{:02}{:02}", self.month, self.day)
    }
}

/// What is wrong with a window, for each of its dates that no year has: as `opens on 0230`.
pub fn wrong_dates(window: Window) -> Vec<String> {
    let dates = [("opens", Date::opening(window)), ("closes", Date::closing(window))];
    let wrong = dates.into_iter().filter(|(_, date)| !date.is_of_a_year());
    wrong.map(|(does, date)| format!("{does} on {date}")).collect()
}
