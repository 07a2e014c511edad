//! Issue lines, as groups return rings (document 02, request 6).
//!
//! A line is `group,size,first,last,day`, ended by a line feed, as in `7,C,12001,12100,20250304`. It is read as a text: cut at its
//! commas, with each number read and then written again, which must give the same digits.

use std::ops::RangeInclusive;

/// The numbers of groups.
pub const GROUPS: RangeInclusive<u32> = 0..=31;
/// The numbers of rings.
pub const RINGS: RangeInclusive<u32> = 1..=99_999_999;
/// The letters of sizes.
pub const SIZES: RangeInclusive<char> = 'A'..='H';

/// What a line says.
#[derive(Clone, Copy, Debug, PartialEq, Eq)]
pub struct Line {
    /// The group.
    pub group: u32,
    /// The letter of the size.
    pub size: char,
    /// The first number.
    pub first: u32,
    /// The last number, not below the first.
    pub last: u32,
    /// The day, as eight digits say it; whether there is such a day is not asked.
    pub day: u32,
}

impl Line {
    /// The line's bytes, its line feed included.
    pub fn bytes(&self) -> Vec<u8> {
        let Line { group, size, first, last, day } = self;
        format!("{group},{size},{first},{last},{day:08}\n").into_bytes()
    }
}

/// A number in decimal, without leading zeros, within a range.
fn number(text: &str, within: RangeInclusive<u32>) -> Option<u32> {
    let number: u32 = text.parse().ok()?;
    (within.contains(&number) && number.to_string() == text).then_some(number)
}

/// The size of one letter.
fn size(text: &str) -> Option<char> {
    let letter = text.chars().next()?;
    (SIZES.contains(&letter) && letter.to_string() == text).then_some(letter)
}

/// The number that eight digits say.
fn day(text: &str) -> Option<u32> {
    let number: u32 = text.parse().ok()?;
    (format!("{number:08}") == text && text.len() == 8).then_some(number)
}

/// Reads bytes that are exactly one line, line feed included.
pub fn read(bytes: &[u8]) -> Option<Line> {
    let text = std::str::from_utf8(bytes).ok()?.strip_suffix('\n')?;
    let fields: Vec<&str> = text.split(',').collect();
    let [group, size_text, first, last, day_text] = fields[..] else { return None };
    let line = Line {
        group: number(group, GROUPS)?,
        size: size(size_text)?,
        first: number(first, RINGS)?,
        last: number(last, RINGS)?,
        day: day(day_text)?,
    };
    (line.first <= line.last).then_some(line)
}
