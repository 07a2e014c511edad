//! The pool of unused rings (document 02, request 6; additions inside the season, request 8).
//!
//! The runs are kept in a map, in the order of their sizes and first numbers, so that only the neighbours of a line's place can
//! meet or touch it.

use std::collections::BTreeMap;

use crate::issue::{self, Line};
use crate::refusal::Number;
use crate::season::Windows;

/// The most runs of a pool.
pub const RUNS: usize = 256;

/// A pool of rings. The default is the empty pool.
#[derive(Clone, Debug, Default, PartialEq, Eq)]
pub struct Pool {
    /// The last number of each run, by its size and first number.
    runs: BTreeMap<(char, u32), u32>,
}

impl Pool {
    /// The runs, by size and first number: the size, the first number and the last.
    pub fn runs(&self) -> impl Iterator<Item = (char, u32, u32)> {
        self.runs.iter().map(|((size, first), last)| (*size, *first, *last))
    }

    /// The run of a size that begins at this number, or is the nearest one before it.
    fn up_to(&self, size: char, number: u32) -> Option<(u32, u32)> {
        let mut before = self.runs.range((size, 0)..=(size, number));
        before.next_back().map(|((_, first), last)| (*first, *last))
    }

    /// Whether a number of a size is pooled.
    pub fn holds(&self, size: char, number: u32) -> bool {
        self.up_to(size, number).is_some_and(|(_, last)| number <= last)
    }

    /// The rings pooled.
    pub fn rings(&self) -> u64 {
        self.runs().map(|(_, first, last)| u64::from(last - first) + 1).sum()
    }

    /// Adds an issue line. Meets 13, 14 and 15, with the pool left as it was.
    pub fn add(&mut self, bytes: &[u8]) -> Result<(), Number> {
        let line = issue::read(bytes).ok_or(Number::Line)?;
        self.add_line(&line)
    }

    /// Adds an issue line inside the season. Meets 13, 16, 17, 14 and 15, with the pool left as it was.
    pub fn add_in_season(&mut self, windows: &Windows, bytes: &[u8]) -> Result<(), Number> {
        let line = issue::read(bytes).ok_or(Number::Line)?;
        windows.check(&line)?;
        self.add_line(&line)
    }

    /// Adds what a line says. Meets 14 and 15.
    fn add_line(&mut self, line: &Line) -> Result<(), Number> {
        let joined = self.joined(line)?;
        if joined.runs.len() > RUNS {
            return Err(Number::Runs);
        }
        *self = joined;
        Ok(())
    }

    /// The pool with a line's run joined to those that it touches, however many runs there are then. Meets 14.
    fn joined(&self, line: &Line) -> Result<Pool, Number> {
        let Line { size, mut first, mut last, .. } = *line;
        // The last run that does not begin behind the line's: any other that meets it would meet this one.
        if self.up_to(size, last).is_some_and(|(_, end)| end >= first) {
            return Err(Number::Pooled);
        }
        let mut joined = self.clone();
        if let Some((start, end)) = self.up_to(size, first)
            && end + 1 == first
        {
            joined.runs.remove(&(size, start));
            first = start;
        }
        if let Some(end) = joined.runs.remove(&(size, last + 1)) {
            last = end;
        }
        joined.runs.insert((size, first), last);
        Ok(joined)
    }
}
