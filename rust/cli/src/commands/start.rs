//! Starting a lone session.

use std::ffi::OsStr;
use std::io::Write;

use pevghazo::{Letter, Plain, Refusal, SaeSession, SaneSession, SaneTag, Session, envelope};
use pevghazo_store::{self as store, Secret};

use super::messages::{again, kept, typed};
use crate::arguments::Arguments;
use crate::end::End;
use crate::failure::Failure;
use crate::input;
use crate::letters::Opened;
use crate::output::{check_standard, print, tell};
use crate::starts::{Nonce, Start};
use crate::state::{Kept, Lone, Mode, Sae, Sane, State, waits};
use crate::state_file::{Used, create};
use crate::tag::StartTag;

/// Starts a group's session.
pub fn group(arguments: &Arguments) -> Result<(), Failure> {
    let group = checked_group(arguments)?;
    let key = input::key(arguments)?;
    let (session, _) = Session::start(&key)?;
    place(arguments, group, session, |keys| keys.add(&key, arguments.has("reuse-key")))?;
    tell(&format!("Group {group} has started."));
    Ok(())
}

/// Starts a session in SANE, at either end, and prints the start's tag.
pub fn sane(arguments: &Arguments, out: &mut dyn Write) -> Result<(), Failure> {
    let Started { group, key, nonce, session, tag } = Started::of(arguments, Letter::N, SaneSession::start, out)?;
    let placed = place(arguments, group, session, |starts| starts.add(&key, &nonce, tag));
    print_tag(arguments, Sane::NAME, tag, placed, out)?;
    tell(&format!("A session in SANE has started for group {group}."));
    Ok(())
}

/// Starts the reading of a session of the first version, and prints the start's tag. Key and nonce may have been used before.
pub fn sae(arguments: &Arguments, out: &mut dyn Write) -> Result<(), Failure> {
    let Started { group, key, nonce, session, tag } = Started::of(arguments, Letter::F, SaeSession::start, out)?;
    let start = Start { tag, counter: nonce.counter() };
    let placed = place_old(arguments, Sae { group, session, start, opened: Opened::none(&key)? });
    print_tag(arguments, Sae::NAME, tag, placed, out)?;
    tell(&format!("An old session of group {group} can be read from its start."));
    Ok(())
}

/// A session that was started with a nonce, and what it was started with.
struct Started<S> {
    group: u32,
    key: Secret,
    nonce: Nonce,
    session: S,
    tag: SaneTag,
}

impl<S> Started<S> {
    /// Starts a session of this letter's mode, unless another tag is expected.
    fn of(
        arguments: &Arguments,
        letter: Letter,
        start: impl FnOnce(&[u8], &[u8]) -> Result<(S, SaneTag, u32), Refusal>,
        out: &mut dyn Write,
    ) -> Result<Started<S>, Failure> {
        let group = checked_group(arguments)?;
        let expected = arguments.value("expect").map(read_tag).transpose()?;
        input::check_names(arguments)?;
        check_standard()?;
        let nonce = input::nonce(arguments)?;
        let key = input::key(arguments)?;
        let (session, tag, _) = start(&key, nonce.bytes())?;
        // Compared in constant time.
        if expected.is_some_and(|expected| expected != StartTag::from(tag)) {
            print(out, "mismatch\n")?;
            return Err(Failure::OtherTag(letter));
        }
        Ok(Started { group, key, nonce, session, tag })
    }
}

/// Prints the tag of a start whose session was placed in a state file. Where that cannot be seen, `show` shows it.
fn print_tag(
    arguments: &Arguments,
    area: &str,
    tag: SaneTag,
    placed: Result<(), Failure>,
    out: &mut dyn Write,
) -> Result<(), Failure> {
    let unseen = |failure| kept("tag", typed(area, "show", arguments), failure);
    placed.map_err(|failure| if failure.is_committed() { unseen(failure) } else { failure })?;
    print(out, &format!("tag {}\n", StartTag::from(tag))).map_err(unseen)
}

/// The tag in a text that was typed.
fn read_tag(text: &OsStr) -> Result<StartTag, Failure> {
    text.to_str().unwrap_or_default().parse().map_err(|_| Failure::Usage(NO_TAG.to_string()))
}

/// What is said of another text.
const NO_TAG: &str = "\
The value of --expect is no tag. A tag of a start has 32 hexadecimal digits, and between its groups of four there may be spaces \
and hyphens.";

/// The group that a session is started for, once the options were found to go together.
fn checked_group(arguments: &Arguments) -> Result<u32, Failure> {
    let group = arguments.required_number("group")?;
    if arguments.has("restore") && !arguments.has("replace") {
        return Err(Failure::Usage("A new state file is no older copy: --restore needs --replace here.".to_string()));
    }
    // No header can be written for a group above 31, whichever the letter: number 3.
    envelope::write_header(Letter::S, group, &Plain { metadata: &[], message: &[] })?;
    Ok(group)
}

/// Puts a session that was started into a new state file, or in the place of the old session. `note` notes the start, or refuses
/// it.
fn place<S: Mode>(
    arguments: &Arguments,
    group: u32,
    session: S,
    note: impl FnOnce(&mut S::Starts) -> Result<(), Failure>,
) -> Result<(), Failure> {
    if !arguments.has("replace") {
        let mut starts = S::Starts::default();
        note(&mut starts)?;
        return place_new(arguments, &Lone { group, session, kept: Kept::default(), starts });
    }
    let mut used = Used::<Lone<S>>::open(arguments)?;
    used.state.takes(group)?;
    if waits(&used.state.kept.message) {
        return Err(Failure::NotNow(format!(
            "A message was opened and not handed out: do that first, with `{}`.",
            again::<Lone<S>>("reread", group, arguments)
        )));
    }
    note(&mut used.state.starts)?;
    used.state.session = session;
    used.state.kept = Kept::default();
    Ok(used.commit()?)
}

/// Puts a session of the first version into a new state file, or in the place of the one there, of which nothing is kept.
fn place_old(arguments: &Arguments, state: Sae) -> Result<(), Failure> {
    if !arguments.has("replace") {
        return place_new(arguments, &state);
    }
    let mut used = Used::<Sae>::open(arguments)?;
    used.state.takes(state.group)?;
    used.state = state;
    Ok(used.commit()?)
}

/// Puts a session into a new state file.
fn place_new<S: State>(arguments: &Arguments, state: &S) -> Result<(), Failure> {
    create(arguments, state).map_err(|failure| match failure {
        Failure::State(error @ store::Error::Exists { .. }) => Failure::Started(error),
        failure => failure,
    })
}
