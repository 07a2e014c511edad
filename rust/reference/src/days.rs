//! Days of the Gregorian calendar (document 02, request 8).
//!
//! A day is the number of its eight digits, year, month, day, so that a later day is a greater number. All days of the years 1900 to
//! 2199 stand in one list, which is written once; a day exists where it is found there.

use std::ops::RangeInclusive;
use std::sync::LazyLock;

/// The years that a day may lie in.
pub const YEARS: RangeInclusive<u32> = 1900..=2199;

/// All days that exist, in their order.
static ALL: LazyLock<Vec<u32>> = LazyLock::new(|| YEARS.flat_map(days_of_year).collect());

/// Whether a year has a 29 February: every fourth has, but of the full centuries only every fourth.
pub fn is_leap(year: u32) -> bool {
    let counted = if year.is_multiple_of(100) { year / 100 } else { year };
    counted.is_multiple_of(4)
}

/// The days of a month, which is 1 to 12.
pub fn length_of(year: u32, month: u32) -> u32 {
    match month {
        2 if is_leap(year) => 29,
        2 => 28,
        4 | 6 | 9 | 11 => 30,
        _ => 31,
    }
}

/// The day with these parts.
pub fn day_of(year: u32, month: u32, day: u32) -> u32 {
    year * 10_000 + month * 100 + day
}

/// The days of a year, in their order.
fn days_of_year(year: u32) -> impl Iterator<Item = u32> {
    let days_of_month = move |month| (1..=length_of(year, month)).map(move |day| day_of(year, month, day));
    (1..=12).flat_map(days_of_month)
}

/// All days that exist, in their order.
pub fn all() -> &'static [u32] {
    &ALL
}

/// Whether a day exists.
pub fn exists(day: u32) -> bool {
    ALL.binary_search(&day).is_ok()
}
