//! The codes of packets, and the check of one. Both ends have these commands; they alter nothing.

use std::ffi::OsStr;
use std::io::Write;

use pevghazo::{BadCode, Code, Refusal};

use crate::arguments::Arguments;
use crate::end::Codes;
use crate::failure::Failure;
use crate::labels::Labels;
use crate::output::{Output, Time, print, tell};
use crate::state_file::Used;
use crate::table::FORMATS;

/// Lists the codes of a range of packets, all or none.
pub fn codes<E: Codes>(arguments: &Arguments, out: &mut dyn Write) -> Result<(), Failure> {
    let packets = arguments.required_range("packets")?;
    let format = arguments.word("format", &FORMATS)?.unwrap_or(FORMATS[0]);
    let used = Used::<E>::open(arguments)?;
    let output = Output::of(arguments, "out", |path| used.is_own(path))?.unwrap_or(Output::Standard);
    output.must_be_new()?;
    let group = used.state.group(arguments)?;
    let code = |packet| Ok((packet, used.state.code(group, packet)?));
    let codes = packets.map(code).collect::<Result<_, Refusal>>()?;
    let labels = Labels { group, index: used.state.index(group), codes };
    // Whoever reads the output may be slow, and needs the state file no more.
    drop(used);
    output.write(labels.text(format).as_bytes(), Time::First, out)?;
    tell(&format!("Listed the codes of {labels}."));
    Ok(())
}

/// Checks a code that was read off a packet.
pub fn check<E: Codes>(arguments: &Arguments, out: &mut dyn Write) -> Result<(), Failure> {
    let packet = arguments.required_number("packet")?;
    let read = read_code(arguments.required("code")?)?;
    let used = Used::<E>::open(arguments)?;
    let group = used.state.group(arguments)?;
    // Compared in constant time.
    let matches = used.state.code(group, packet)? == read;
    let index = used.state.index(group);
    drop(used);
    if matches {
        return print(out, "match\n");
    }
    print(out, "mismatch\n")?;
    Err(Failure::Mismatch { group, packet, index })
}

/// The code in a text that was typed.
fn read_code(text: &OsStr) -> Result<Code, Failure> {
    let text = text.to_str().unwrap_or_default();
    text.parse().map_err(|bad: BadCode| Failure::Usage(format!("The value of --code is no code. {bad}")))
}
