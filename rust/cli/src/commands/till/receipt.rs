//! The last receipt of a till once more.

use std::io::Write;

use crate::arguments::Arguments;
use crate::failure::Failure;
use crate::output::{Output, Time, check_standard, tell};
use crate::state::{TillBook, waits};
use crate::state_file::Used;
use crate::table::FORMATS;

use super::note_handed_out;

/// Gives the last receipt again, in any format, or for the first time, and then notes that. A file that has just its bytes already is
/// fine.
pub fn receipt(arguments: &Arguments, out: &mut dyn Write) -> Result<(), Failure> {
    let format = arguments.word("format", &FORMATS)?.unwrap_or(FORMATS[0]);
    let mut used = Used::<TillBook>::open(arguments)?;
    let output = Output::of(arguments, "out", |path| used.is_own(path))?.unwrap_or(Output::Standard);
    if output.is_standard() {
        check_standard()?;
    }
    let Some(receipt) = used.state.receipt() else {
        return Err(Failure::NotNow("There is no receipt: nothing was charged with this till yet.".to_string()));
    };
    let (number, text) = (receipt.number, receipt.text(format));
    drop(receipt);
    if waits(&used.state.last) {
        output.write(text.as_bytes(), Time::Again, out)?;
        note_handed_out(&mut used)?;
    } else {
        // Whoever reads the output may be slow, and needs the state file no more.
        drop(used);
        output.write(text.as_bytes(), Time::Again, out)?;
    }
    if !output.is_standard() {
        tell(&format!("Wrote receipt {number}."));
    }
    Ok(())
}
