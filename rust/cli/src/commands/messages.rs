//! Sealing, opening, and handing out again: the commands that both ends have.
//!
//! Every call and what belongs to it are committed together, with a note that it was not handed out yet; then it is handed
//! out; then that is noted. A next message for the same session does not take the place of one that was never handed out.

use std::ffi::OsStr;
use std::io::{Write, stderr};
use std::os::unix::ffi::OsStrExt;
use std::path::Path;

use pevghazo::{Envelope, Number, envelope};
use pevghazo_store::{Secret, shown};

use crate::arguments::Arguments;
use crate::end::End;
use crate::failure::Failure;
use crate::input;
use crate::output::{Output, Time, print, tell};
use crate::state::{Held, Message, waits};
use crate::state_file::Used;
use crate::table::AREAS;

/// Seals a message into an envelope.
pub fn seal<E: End>(arguments: &Arguments, out: &mut dyn Write) -> Result<(), Failure> {
    input::check_names(arguments)?;
    let metadata = input::metadata(arguments)?;
    let message = input::message(arguments)?;
    let mut used = Used::<E>::open(arguments)?;
    let output = main_output(arguments, &used)?;
    let group = used.state.group(arguments)?;
    if waits(&used.state.kept(group)?.envelope) {
        return Err(Failure::NotNow(format!(
            "An envelope for group {group} was sealed before and not handed out: do that first, with `{}`.",
            again::<E>("resend", group, arguments)
        )));
    }
    output.must_be_new()?;
    let sealed = used.state.seal(group, &metadata, &message);
    let bytes = sealed.map_err(|refusal| used.state.refused(group, refusal))?;
    let length = bytes.len();
    used.state.kept(group)?.envelope = Some(Held::waiting(bytes));
    used.commit().map_err(|error| kept_envelope::<E>(group, arguments, error.into()))?;
    hand_out_envelope(&mut used, group, arguments, &output, Time::First, out)?;
    let index = used.state.index(group);
    tell(&format!("Sealed {} bytes for group {group}: envelope of {length} bytes, index {index}.", message.len()));
    Ok(())
}

/// Opens an envelope that arrived.
pub fn open<E: End>(arguments: &Arguments, out: &mut dyn Write) -> Result<(), Failure> {
    let bytes = input::envelope(arguments)?;
    let mut used = Used::<E>::open(arguments)?;
    let outputs = message_outputs(arguments, &used)?;
    let arrival = envelope::read(&bytes)?;
    let group = arrival.group;
    takes(&mut used.state, &arrival, arguments)?;
    outputs.must_be_new()?;
    let text = match used.state.open(&arrival) {
        Ok(text) => text,
        Err(refusal) if refusal.number == Number::WrongTag => {
            // At the office the group's count has grown.
            used.commit_if_altered().map_err(|error| Failure::NotCounted(refusal, error))?;
            return Err(used.state.refused(group, refusal));
        }
        Err(refusal) => return Err(used.state.refused(group, refusal)),
    };
    let length = text.len();
    let kept = used.state.kept(group)?;
    // Its tag covers all messages before it: the other end has the last envelope.
    kept.envelope = None;
    let metadata = Secret::from(arrival.metadata);
    kept.message = Some(Held::waiting(Message { metadata, text }));
    used.commit().map_err(|error| kept_message::<E>(group, arguments, error.into()))?;
    hand_out_message(&mut used, group, arguments, &outputs, Time::First, out)?;
    let index = used.state.index(group);
    tell(&format!("Opened an envelope of group {group}: message of {length} bytes, index {index}."));
    let mut result = if E::NAME == AREAS[0] { format!("group {group}\n") } else { String::new() };
    if !arrival.rest.is_empty() {
        let next = arguments.number("from")?.unwrap_or(0) as usize + arrival.place;
        result.push_str(&format!("next {next}\n"));
    }
    report(&result, outputs.are_standard(), out);
    Ok(())
}

/// Whether this end may open an arrival now.
fn takes<E: End>(end: &mut E, arrival: &Envelope, arguments: &Arguments) -> Result<(), Failure> {
    if arrival.letter != E::LETTER {
        return Err(Failure::OtherLetter(arrival.letter));
    }
    let group = arrival.group;
    end.takes(group)?;
    if waits(&end.kept(group)?.message) {
        return Err(Failure::NotNow(format!(
            "A message of group {group} was opened before and not handed out: do that first, with `{}`.",
            again::<E>("reread", group, arguments)
        )));
    }
    Ok(())
}

/// Prints what a script needs to know: on the standard output, or on the standard error where the other is taken or fails.
fn report(result: &str, taken: bool, out: &mut dyn Write) {
    if taken || print(out, result).is_err() {
        let _ = stderr().write_all(result.as_bytes());
    }
}

/// Hands out the last envelope again.
pub fn resend<E: End>(arguments: &Arguments, out: &mut dyn Write) -> Result<(), Failure> {
    let mut used = Used::<E>::open(arguments)?;
    let output = main_output(arguments, &used)?;
    let group = used.state.group(arguments)?;
    if used.state.kept(group)?.envelope.is_none() {
        return Err(Failure::NotNow(format!(
            "No envelope for group {group} is kept: none was sealed, an arrival has shown that it got there, or it was forgotten."
        )));
    }
    hand_out_envelope(&mut used, group, arguments, &output, Time::Again, out)?;
    tell(&format!("Handed out the last envelope for group {group}."));
    Ok(())
}

/// Hands out the last message again.
pub fn reread<E: End>(arguments: &Arguments, out: &mut dyn Write) -> Result<(), Failure> {
    let mut used = Used::<E>::open(arguments)?;
    let outputs = message_outputs(arguments, &used)?;
    let group = used.state.group(arguments)?;
    if used.state.kept(group)?.message.is_none() {
        return Err(Failure::NotNow(format!(
            "No message of group {group} is kept: none was opened, or it was forgotten."
        )));
    }
    hand_out_message(&mut used, group, arguments, &outputs, Time::Again, out)?;
    tell(&format!("Handed out the last message of group {group}."));
    Ok(())
}

/// Where an envelope goes, or a message.
fn main_output<E: End>(arguments: &Arguments, used: &Used<E>) -> Result<Output, Failure> {
    arguments.required("out")?;
    let output = Output::of(arguments, "out", |path| used.is_own(path))?;
    output.ok_or_else(|| Failure::Usage("The option --out is missing.".to_string()))
}

/// Where a message and its metadata go.
struct Outputs {
    message: Output,
    metadata: Option<Output>,
}

impl Outputs {
    /// Whether one of them is the standard output.
    fn are_standard(&self) -> bool {
        self.message.is_standard() || self.metadata.as_ref().is_some_and(Output::is_standard)
    }

    /// Refuses files that are there already.
    fn must_be_new(&self) -> Result<(), Failure> {
        self.metadata.as_ref().map_or(Ok(()), Output::must_be_new)?;
        self.message.must_be_new()
    }
}

fn message_outputs<E: End>(arguments: &Arguments, used: &Used<E>) -> Result<Outputs, Failure> {
    let metadata = Output::of(arguments, "metadata-out", |path| used.is_own(path))?;
    let message = main_output(arguments, used)?;
    if metadata.as_ref().is_some_and(|metadata| metadata.is_same(&message)) {
        return Err(Failure::Usage("Message and metadata cannot go to the same output.".to_string()));
    }
    Ok(Outputs { message, metadata })
}

/// Hands out the kept envelope, and notes that.
fn hand_out_envelope<E: End>(
    used: &mut Used<E>,
    group: u32,
    arguments: &Arguments,
    output: &Output,
    time: Time,
    out: &mut dyn Write,
) -> Result<(), Failure> {
    if let Some(held) = &mut used.state.kept(group)?.envelope {
        output.write(&held.content, time, out).map_err(|failure| kept_envelope::<E>(group, arguments, failure))?;
        held.handed_out = true;
    }
    used.commit_if_altered().map_err(Failure::NotNoted)
}

/// Hands out the kept message, and notes that.
fn hand_out_message<E: End>(
    used: &mut Used<E>,
    group: u32,
    arguments: &Arguments,
    outputs: &Outputs,
    time: Time,
    out: &mut dyn Write,
) -> Result<(), Failure> {
    if let Some(held) = &mut used.state.kept(group)?.message {
        let Message { metadata, text } = &held.content;
        let first = outputs.metadata.as_ref().map_or(Ok(()), |output| output.write(metadata, time, out));
        first
            .and_then(|()| outputs.message.write(text, time, out))
            .map_err(|failure| kept_message::<E>(group, arguments, failure))?;
        held.handed_out = true;
    }
    used.commit_if_altered().map_err(Failure::NotNoted)
}

/// The command that hands something out again, as it is typed; only the output is left to choose.
pub fn again<E: End>(command: &str, group: u32, arguments: &Arguments) -> String {
    let option = if E::NAME == AREAS[0] { format!(" --group {group}") } else { String::new() };
    format!("{}{option} --out FILE", typed(E::NAME, command, arguments))
}

/// Another command on the same state file, as it is typed.
pub fn typed(area: &str, command: &str, arguments: &Arguments) -> String {
    let state = quoted(arguments.value("state").unwrap_or_default());
    // A name that starts with dashes would be taken for an option.
    let state = if state.starts_with('-') { format!("--state={state}") } else { format!("--state {state}") };
    format!("pevghazo {area} {command} {state}")
}

/// A name as a shell takes it, without control characters.
fn quoted(name: &OsStr) -> String {
    let plain = |byte: u8| byte.is_ascii_alphanumeric() || b"/._-+,:@%".contains(&byte);
    match name.to_str() {
        Some(text) if !text.is_empty() && text.bytes().all(plain) => text.to_string(),
        Some(text) if shown(Path::new(name)) == text => format!("'{}'", text.replace('\'', "'\\''")),
        _ => {
            let mut text = String::from("$'");
            for byte in name.as_bytes() {
                match byte {
                    b'\'' | b'\\' => text.extend(['\\', char::from(*byte)]),
                    b' '..=b'~' => text.push(char::from(*byte)),
                    byte => text.push_str(&format!("\\x{byte:02x}")),
                }
            }
            text + "'"
        }
    }
}

fn kept_envelope<E: End>(group: u32, arguments: &Arguments, source: Failure) -> Failure {
    kept("envelope", again::<E>("resend", group, arguments), source)
}

fn kept_message<E: End>(group: u32, arguments: &Arguments, source: Failure) -> Failure {
    kept("message", again::<E>("reread", group, arguments), source)
}

/// The failure to hand out something that is kept, unless the state that keeps it was not committed at all.
pub fn kept(what: &'static str, command: String, source: Failure) -> Failure {
    match source {
        Failure::State(error) if !error.is_committed() => Failure::State(error),
        source => Failure::Kept { what, command, source: Box::new(source) },
    }
}

#[cfg(test)]
mod tests {
    use super::*;

    #[test]
    fn names_are_quoted_for_a_shell() {
        for (name, text) in [
            (&b"office.state"[..], "office.state"),
            (b"my office", "'my office'"),
            (b"it's", "'it'\\''s'"),
            (b"", "''"),
            ("\u{e9}t\u{e9}".as_bytes(), "'\u{e9}t\u{e9}'"),
            (b"a\nb'\\", "$'a\\x0ab\\'\\\\'"),
            (b"\xff", "$'\\xff'"),
            ("\u{202e}".as_bytes(), "$'\\xe2\\x80\\xae'"),
        ] {
            assert_eq!(quoted(OsStr::from_bytes(name)), text);
        }
    }
}
