//! Issue seasons: the days on which the rings of each size may be issued.

use crate::Size;
use crate::raw::{self, WindowsRecord};
use crate::refusal::{Refusal, answer};

/// The part of the year in which rings of one size may be issued, from an opening to a closing month and day, both included.
///
/// Which way a window runs is told from its dates as written: one that opens later than it closes runs over New Year, and one whose
/// dates are equal holds that one day. After that, in a year without 29 February, a closing on it means 28 February and an opening
/// on it 1 March. So 29 February to 29 February is empty in such a year, and 29 February to 28 February holds every day.
///
/// The fields may hold anything: a date that no leap year has, such as 30 February, is found when a line of the window's size is
/// handed over, which is then refused by [`Number::NoSuchDay`](crate::Number::NoSuchDay).
#[repr(C)]
#[derive(Clone, Copy, Debug, PartialEq, Eq, Hash)]
pub struct Window {
    /// The month of the opening, 1 to 12.
    pub open_month: u8,
    /// The day of the opening.
    pub open_day: u8,
    /// The month of the closing, 1 to 12.
    pub close_month: u8,
    /// The day of the closing.
    pub close_day: u8,
}

/// The windows of the eight sizes.
///
/// ```
/// use pevghazo::{Number, Size, Window, Windows};
///
/// # fn main() -> Result<(), pevghazo::Refusal> {
/// let spring = Window { open_month: 3, open_day: 1, close_month: 6, close_day: 30 };
/// let winter = Window { open_month: 11, open_day: 15, close_month: 2, close_day: 29 };
/// let windows = Windows::new([spring, spring, winter, spring, spring, spring, spring, spring]);
/// assert_eq!(windows.of(Size::C), winter);
///
/// // Size C may be issued over New Year: on 14 January at once, on 1 March from 15 November on.
/// assert_eq!(windows.first_day(b"7,C,12001,12100,20250114\n")?, Some(20_250_114));
/// assert_eq!(windows.first_day(b"7,C,12001,12100,20250301\n")?, Some(20_251_115));
///
/// // No spring follows the last one, and 2025 has no 29 February.
/// assert_eq!(windows.first_day(b"7,D,12001,12100,21990701\n")?, None);
/// assert_eq!(windows.first_day(b"7,D,12001,12100,20250229\n").unwrap_err().number, Number::NoSuchDay);
/// # Ok(())
/// # }
/// ```
///
/// [`Pool::add_in_season`](crate::Pool::add_in_season) adds a line to a pool where its day is permitted.
#[derive(Clone, Copy, Debug, PartialEq, Eq, Hash)]
pub struct Windows(WindowsRecord);

impl Windows {
    /// These windows, for the sizes A to H in this order. Any are taken: see [`Window`].
    #[must_use]
    pub const fn new(windows: [Window; 8]) -> Windows {
        Windows(WindowsRecord { sizes: windows })
    }

    /// The window of a size.
    #[must_use]
    pub const fn of(&self, size: Size) -> Window {
        self.0.sizes[(size.byte() - Size::A.byte()) as usize]
    }

    /// The first permitted day for an issue line, its line feed included: the first from the line's own day on that is inside the
    /// window of the line's size, as the number of its eight digits; none exactly where no such day is left up to the end of 2199.
    /// Checks 13 and 16, in this order.
    pub fn first_day(&self, line: &[u8]) -> Result<Option<u32>, Refusal> {
        let first = raw::first_day(&self.0, line);
        answer(first.number, 0)?;
        Ok(first.found.then_some(first.day))
    }

    /// The record that is lent to the library.
    pub(crate) const fn record(&self) -> &WindowsRecord {
        &self.0
    }
}
