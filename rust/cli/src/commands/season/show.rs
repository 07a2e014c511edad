//! A year's calendar of the sizes that are open.

use std::io::Write;

use crate::arguments::Arguments;
use crate::calendar::Calendar;
use crate::failure::Failure;
use crate::output::{Output, Time, tell};
use crate::table::CALENDARS;
use crate::windows::WindowsFile;

/// Shows the calendar of a year, at a terminal or as a page to print.
pub fn show(arguments: &Arguments, out: &mut dyn Write) -> Result<(), Failure> {
    let year = arguments.required_year("year")?;
    let format = arguments.word("format", &CALENDARS)?.unwrap_or(CALENDARS[0]);
    let output = Output::of(arguments, "out", |_| false)?.unwrap_or(Output::Standard);
    let calendar = Calendar::new(&WindowsFile::open(arguments)?, year);
    output.write(calendar.text(format).as_bytes(), Time::First, out)?;
    if !output.is_standard() {
        tell(&format!("Wrote the issue seasons of {year}."));
    }
    Ok(())
}
