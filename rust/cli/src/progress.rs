//! How far a long input was gone through, shown to a person: on the standard error, where it is a terminal.

use std::io::{IsTerminal, Write, stderr};

/// How many lines are read between two showings.
const EVERY: u64 = 1 << 14;

/// Takes what a terminal's line shows away.
const CLEAR: &str = "\r\x1b[K";

/// What is shown.
pub struct Progress {
    is_terminal: bool,
    is_shown: bool,
}

impl Progress {
    /// Nothing yet.
    pub fn new() -> Progress {
        Progress { is_terminal: stderr().is_terminal(), is_shown: false }
    }

    /// Shows how many lines were read, and how much of the input, now and then.
    pub fn show(&mut self, lines: u64, read: u64, length: Option<u64>) {
        if lines.is_multiple_of(EVERY) {
            self.put(&text(lines, read, length));
        }
    }

    /// Shows how many letters of a box were gone through.
    pub fn show_letters(&mut self, letters: usize, all: usize) {
        self.put(&format!("{letters} of {all} letters"));
    }

    /// Shows these words in the place of those before.
    fn put(&mut self, words: &str) {
        if self.is_terminal {
            say(&format!("{CLEAR}{words}"));
            self.is_shown = true;
        }
    }
}

impl Drop for Progress {
    /// Takes it away, before something else is shown.
    fn drop(&mut self) {
        if self.is_shown {
            say(CLEAR);
        }
    }
}

/// Writes to the terminal; where that fails, nothing is lost.
fn say(text: &str) {
    let _ = stderr().write_all(text.as_bytes());
}

/// The words: the lines, and how many in a hundred bytes, where the input's length is known.
fn text(lines: u64, read: u64, length: Option<u64>) -> String {
    match length.filter(|length| *length > 0) {
        Some(length) => format!("{lines} lines, {} %", (u128::from(read) * 100 / u128::from(length)).min(100)),
        None => format!("{lines} lines"),
    }
}

#[cfg(test)]
mod tests {
    use super::*;

    #[test]
    fn the_words() {
        assert_eq!(text(16_384, 500, None), "16384 lines");
        assert_eq!(text(16_384, 500, Some(0)), "16384 lines");
        assert_eq!(text(16_384, 999, Some(1_000)), "16384 lines, 99 %");
        // A file that grew while it was read.
        assert_eq!(text(1, u64::MAX, Some(1)), "1 lines, 100 %");
    }
}
