//! The first permitted day: of a size and a day that were typed, or of each issue line of an input.

use std::io::Write;

use pevghazo::{BadSize, Size, Windows};

use crate::arguments::{Arguments, digits};
use crate::failure::Failure;
use crate::lines::Lines;
use crate::output::{check_standard, print};
use crate::refused::{AT_ONCE, Reason, listed};
use crate::windows::{WindowsFile, line_of};

/// Prints the first permitted days.
pub fn first_day(arguments: &Arguments, out: &mut dyn Write) -> Result<(), Failure> {
    match (arguments.has_operands(), arguments.has("in")) {
        (true, false) => of_words(arguments, out),
        (false, true) => of_lines(arguments, out),
        _ => Err(Failure::Usage("Either SIZE and DAY or --in is needed, and not both: see --help.".to_string())),
    }
}

/// The first permitted day of a size, from a day on.
fn of_words(arguments: &Arguments, out: &mut dyn Write) -> Result<(), Failure> {
    let (size, day) = (read_size(arguments.operand("SIZE")?)?, read_day(arguments.operand("DAY")?)?);
    let windows = WindowsFile::open(arguments)?.windows;
    let first = ask(&windows, &line_of(size, day)).map_err(Failure::Day)?;
    print(out, &first)
}

/// The size in a word that was typed.
fn read_size(text: &str) -> Result<Size, Failure> {
    text.parse().map_err(|bad: BadSize| Failure::Usage(format!("SIZE is {text:?}. {bad}")))
}

/// The day in a word that was typed: any eight digits.
fn read_day(text: &str) -> Result<u32, Failure> {
    let day = digits(text).filter(|_| text.len() == 8);
    day.ok_or_else(|| {
        Failure::Usage(format!(
            "DAY is {text:?}. A day is eight digits, of the year, the month and the day, as 20250304."
        ))
    })
}

/// What is printed of an issue line: its first permitted day, or that there is none.
fn ask(windows: &Windows, line: &[u8]) -> Result<String, Reason> {
    match windows.first_day(line) {
        Ok(Some(day)) => Ok(format!("{day:08}\n")),
        Ok(None) => Ok("none\n".to_string()),
        Err(refusal) => Err(Reason::of(refusal, line, Some(windows))),
    }
}

/// The same for each line of an input, in the lines' order; a refused one is listed in its place.
fn of_lines(arguments: &Arguments, out: &mut dyn Write) -> Result<(), Failure> {
    check_standard()?;
    let windows = WindowsFile::open(arguments)?.windows;
    let mut lines = Lines::open(arguments)?;
    let mut asked = Asked::default();
    let mut text = String::new();
    while let Some(line) = lines.next()? {
        text.push_str(&asked.answer(&windows, line));
        if text.len() > AT_ONCE {
            print(out, &std::mem::take(&mut text))?;
        }
    }
    print(out, &text)?;
    let failure = |(line, reason)| Err(Failure::Lines { reason, line, refused: asked.refused, done: None });
    asked.first.map_or(Ok(()), failure)
}

/// What became of the lines.
#[derive(Default)]
struct Asked {
    /// How many were read.
    lines: u64,
    /// How many of them were refused.
    refused: u64,
    /// The first of these, with its reason.
    first: Option<(u64, Reason)>,
}

impl Asked {
    /// What is printed of the next line.
    fn answer(&mut self, windows: &Windows, line: &[u8]) -> String {
        self.lines += 1;
        ask(windows, line).unwrap_or_else(|reason| {
            self.refused += 1;
            self.first.get_or_insert((self.lines, reason));
            listed(self.lines, reason)
        })
    }
}
