//! Adding issue lines.
//!
//! All lines are tried on a copy of the pool, and the refused ones are remembered. Then the copy takes the pool's place and is
//! committed, and the state file is free for others; and only then is it printed which lines were refused and what was added. So
//! whoever takes the output slowly, or not at all, keeps nobody waiting and takes nothing back.

use std::io::{Read, Write};

use pevghazo::{Pool, Windows};

use crate::arguments::Arguments;
use crate::failure::Failure;
use crate::lines::Lines;
use crate::output::{check_standard, print};
use crate::progress::Progress;
use crate::refused::{Reason, Refused};
use crate::state_file::Used;
use crate::windows::WindowsFile;

/// What became of the lines.
#[derive(Debug, Default)]
struct Tally {
    /// How many were read.
    lines: u64,
    /// Those of them that were refused.
    refused: Refused,
    /// How many were added.
    added: u64,
    /// How many rings these have.
    rings: u64,
}

/// What decides on lines besides the pool.
#[derive(Clone, Copy)]
struct Rules<'a> {
    /// The windows in which they may be added, if there are some.
    windows: Option<&'a Windows>,
    /// Whether none is added where one is refused.
    all: bool,
}

/// Adds the issue lines of an input: those that are accepted together, or none where one is refused and that is wanted. With windows, what
/// they permit.
pub fn add(arguments: &Arguments, out: &mut dyn Write) -> Result<(), Failure> {
    check_standard()?;
    let file = arguments.has("windows").then(|| WindowsFile::open(arguments)).transpose()?;
    let rules = Rules { windows: file.as_ref().map(|file| &file.windows), all: arguments.has("all-or-none") };
    let mut lines = Lines::open(arguments)?;
    let mut used = Used::<Pool>::open(arguments)?;
    let tally = add_lines(&mut used.state, &mut lines, rules)?;
    commit(&mut used, tally.added)?;
    drop(used);
    tally.print(out).map_err(|failure| added_all_the_same(failure, tally.added))?;
    let Tally { refused, added, .. } = tally;
    let failure =
        |(line, reason)| Err(Failure::Lines { reason, line, refused: refused.count, done: Some(("added", added)) });
    refused.first().map_or(Ok(()), failure)
}

/// Tries all lines, and adds those that are accepted; or none where one is refused and all are wanted.
fn add_lines<R: Read>(pool: &mut Pool, lines: &mut Lines<R>, rules: Rules) -> Result<Tally, Failure> {
    let mut tried = pool.clone();
    let mut tally = try_lines(&mut tried, lines, rules.windows)?;
    if tally.refused.count == 0 || !rules.all {
        (tally.added, tally.rings) = (tally.lines - tally.refused.count, tried.rings() - pool.rings());
        *pool = tried;
    }
    Ok(tally)
}

/// Tries all lines on a pool.
fn try_lines<R: Read>(pool: &mut Pool, lines: &mut Lines<R>, windows: Option<&Windows>) -> Result<Tally, Failure> {
    let (mut tally, mut progress) = (Tally::default(), Progress::new());
    while let Some(line) = lines.next()? {
        tally.lines += 1;
        let added = match windows {
            Some(windows) => pool.add_in_season(windows, line),
            None => pool.add(line),
        };
        if let Err(refusal) = added {
            tally.refused.add(tally.lines, Reason::of(refusal, line, windows));
        }
        progress.show(tally.lines, lines.read, lines.length);
    }
    Ok(tally)
}

/// Commits the pool if it was altered; and where `--restore` took an older copy, which is the newest after that.
fn commit(used: &mut Used<Pool>, added: u64) -> Result<(), Failure> {
    let committed = if used.is_older() { used.commit() } else { used.commit_if_altered() };
    committed.map_err(|error| match error.is_committed() {
        true => added_all_the_same(Failure::State(error), added),
        false => Failure::NotAdded(error),
    })
}

/// A failure after the commit.
fn added_all_the_same(failure: Failure, added: u64) -> Failure {
    if added == 0 { failure } else { Failure::Added(Box::new(failure)) }
}

impl Tally {
    /// Lists the refused lines, and prints what was added.
    fn print(&self, out: &mut dyn Write) -> Result<(), Failure> {
        self.refused.list(out)?;
        print(out, &format!("added {} of {} lines, {} rings\n", self.added, self.lines, self.rings))
    }
}

#[cfg(test)]
mod tests {
    use std::io;
    use std::path::Path;

    use super::*;

    /// Fails where a text ends.
    struct Failing<'a>(&'a [u8]);

    impl Read for Failing<'_> {
        fn read(&mut self, buffer: &mut [u8]) -> io::Result<usize> {
            if self.0.is_empty() { Err(io::Error::other("no more")) } else { self.0.read(buffer) }
        }
    }

    /// Where the input cannot be read to its end, no line is added: the pool that would be committed is as it was.
    #[test]
    fn an_input_that_cannot_be_read_to_its_end() {
        let mut pool = Pool::new();
        pool.add(b"7,C,12001,12100,20250304\n").unwrap();
        let before = pool.clone();
        for text in ["7,D,1,5,20250304\n", "7,D,1,5,20250304\nnothing\n", "7,D,1,5,20250304\n7,D,6", ""] {
            for all in [false, true] {
                let mut lines = Lines::of(Path::new("lines"), Failing(text.as_bytes()), None);
                let failure = add_lines(&mut pool, &mut lines, Rules { windows: None, all }).unwrap_err();
                assert_eq!((failure.to_string().as_str(), failure.status()), ("Could not read lines: no more.", 4));
                assert_eq!(pool, before);
            }
        }
    }
}
