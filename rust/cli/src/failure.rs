//! Everything that may go wrong, each with a plain sentence and an exit status.

use std::path::{Path, PathBuf};
use std::{fmt, io};

use pevghazo::{Group, Letter, Number, Refusal, Size, TILL_LINES};
use pevghazo_store::{self as store, shown};

use crate::letters::Stop;
use crate::refused::Reason;
use crate::state::Bad;

/// Why a command failed. The display is one or more plain sentences.
#[derive(Debug)]
pub enum Failure {
    /// The command line is not one that this program takes.
    Usage(String),
    /// The state file could not be used.
    State(store::Error),
    /// The state file is an older copy; and what is to be said of one of its kind.
    Older(store::Error, &'static str),
    /// The state file is whole, but it does not hold what the command needs.
    Content {
        /// The state file.
        path: PathBuf,
        /// What is wrong with it.
        bad: Bad,
    },
    /// The state file was there, as its lock file says, and is not any more; with it, what it knew of nonces is lost.
    Lost(PathBuf),
    /// A session is to be started in a new state file, and there is one.
    Started(store::Error),
    /// An input could not be read or an output not be written.
    File {
        /// What was tried.
        what: &'static str,
        /// On which file.
        path: PathBuf,
        /// What the system said.
        source: io::Error,
    },
    /// An output is whole and in its place, but the disk did not confirm its name.
    NotSynced {
        /// The output.
        path: PathBuf,
        /// What the system said.
        source: io::Error,
    },
    /// Others may read a key.
    OpenKey(PathBuf),
    /// There is a file in the place of an output.
    OutputExists(PathBuf),
    /// An input has more bytes than any envelope with its followers should have.
    LargeInput(PathBuf),
    /// The state asks for something else first.
    NotNow(String),
    /// An envelope for another group than the state file's.
    OtherGroup {
        /// The group that was asked for.
        asked: u32,
        /// The group of the state file.
        own: u32,
    },
    /// An envelope with another letter than those of the state file's sessions.
    OtherLetter(Letter),
    /// The opening of a box of old letters has stopped at one of them.
    Stopped(Box<Stop>),
    /// Letters of a box were opened, but the report could not be printed.
    NotReported(Box<Failure>),
    /// The key was used in this state file before.
    UsedKey,
    /// The nonce was used under this key before.
    UsedNonce,
    /// The nonce is a counter, and not above the last one under this key.
    UsedCounter {
        /// The counter.
        counter: u64,
        /// The last one.
        last: u64,
    },
    /// The tag of a start in this letter's mode is not the expected one.
    OtherTag(Letter),
    /// A code that was read off a packet is not the packet's.
    Mismatch {
        /// The group.
        group: u32,
        /// The packet.
        packet: u32,
        /// The index that the session stands at.
        index: u32,
    },
    /// A ring is not in the pool.
    NotPooled {
        /// Its size.
        size: Size,
        /// Its number.
        number: u32,
    },
    /// Issue lines were refused.
    Lines {
        /// Why the first one was.
        reason: Reason,
        /// The number of its line.
        line: u64,
        /// How many lines were refused.
        refused: u64,
        /// What was done with others and with how many, as `added` to the pool, if something was to be.
        done: Option<(&'static str, u64)>,
    },
    /// The library refused the question for the first permitted day of a size.
    Day(Reason),
    /// A file with a line for each size, as with windows or prices, does not follow its format; the sentences.
    BySize(String),
    /// An input has more lines than a till takes.
    ManyLines(PathBuf),
    /// Lines were added to a pool, but this could not be printed, or it was not committed as it should.
    Added(Box<Failure>),
    /// The pool could not be committed.
    NotAdded(store::Error),
    /// Lines were charged for, but the receipt was not handed out, or the till was not committed as it should.
    Charged {
        /// The command that gives the receipt.
        command: String,
        /// What hindered it.
        source: Box<Failure>,
    },
    /// The till could not be committed.
    NotCharged(store::Error),
    /// The proved library refused the call, which was one of this letter's mode.
    Refused(Refusal, Letter),
    /// The library refused the call, as the group's allowance of the day does not cover it.
    Spent {
        /// What the library gave.
        refusal: Refusal,
        /// The group, with its count of the day.
        group: Group,
        /// The allowance that each group has.
        allowance: u32,
    },
    /// The library found a wrong tag, and the group's count could not be committed, or not as it should.
    NotCounted(Refusal, store::Error),
    /// The call was made and is in the state file, but what belongs to it was not handed out.
    Kept {
        /// What was not handed out.
        what: &'static str,
        /// The command that does it.
        command: String,
        /// What hindered it.
        source: Box<Failure>,
    },
    /// Everything was handed out, but this could not be noted in the state file, or not as it should.
    NotNoted(store::Error),
    /// The demo did not go as it should.
    Demo(&'static str),
}

impl Failure {
    /// Makes a failure of the system's error on a file.
    pub fn file(what: &'static str, path: &Path) -> impl FnOnce(io::Error) -> Failure {
        let path = path.to_path_buf();
        move |source| Failure::File { what, path, source }
    }

    /// Whether the new state was committed all the same.
    pub fn is_committed(&self) -> bool {
        matches!(self, Failure::State(error) if error.is_committed())
    }

    /// The exit status: 10 and the number for a refusal.
    pub fn status(&self) -> u8 {
        match self {
            Failure::Demo(_) => 1,
            Failure::Usage(_) => 2,
            Failure::Older(..) => 8,
            Failure::State(_)
            | Failure::Content { .. }
            | Failure::Lost(_)
            | Failure::Started(_)
            | Failure::NotAdded(_)
            | Failure::NotCharged(_)
            | Failure::NotCounted(..)
            | Failure::NotNoted(_) => 3,
            Failure::File { .. }
            | Failure::NotSynced { .. }
            | Failure::OpenKey(_)
            | Failure::OutputExists(_)
            | Failure::BySize(_)
            | Failure::ManyLines(_)
            | Failure::LargeInput(_) => 4,
            Failure::NotNow(_) => 5,
            Failure::OtherGroup { .. } | Failure::OtherLetter(_) => 6,
            Failure::UsedKey | Failure::UsedNonce | Failure::UsedCounter { .. } => 7,
            Failure::Mismatch { .. } | Failure::OtherTag(_) | Failure::NotPooled { .. } => 9,
            Failure::Refused(refusal, _) | Failure::Spent { refusal, .. } => 10 + refusal.number.number(),
            Failure::Lines { reason, .. } | Failure::Day(reason) => 10 + reason.number.number(),
            Failure::Stopped(stop) => stop.source.status(),
            Failure::Kept { source, .. }
            | Failure::Added(source)
            | Failure::Charged { source, .. }
            | Failure::NotReported(source) => source.status(),
        }
    }

    /// The number of a refusal of a call on a session, or of reading an envelope.
    pub fn number(&self) -> Option<Number> {
        if let Failure::Refused(refusal, _) = self { Some(refusal.number) } else { None }
    }
}

impl From<Refusal> for Failure {
    fn from(refusal: Refusal) -> Failure {
        Failure::Refused(refusal, Letter::S)
    }
}

impl From<store::Error> for Failure {
    fn from(error: store::Error) -> Failure {
        Failure::State(error)
    }
}

impl fmt::Display for Failure {
    fn fmt(&self, f: &mut fmt::Formatter<'_>) -> fmt::Result {
        match self {
            Failure::Usage(sentence) | Failure::NotNow(sentence) | Failure::BySize(sentence) => f.write_str(sentence),
            Failure::Older(error, means) => write!(f, "{error} {means}"),
            Failure::State(error) => error.fmt(f),
            Failure::Content { path, bad } => write!(f, "The state file {} cannot be used: {bad}.", shown(path)),
            Failure::Lost(path) => write!(f, "The state file {} was here before, and is lost. {LOST}", shown(path)),
            Failure::Started(error) => write!(f, "{error} `--replace` starts the next session in it."),
            Failure::OtherGroup { asked, own } => {
                write!(f, "This is for group {asked}, and the state file is that of group {own}.")
            }
            Failure::OtherLetter(letter) => f.write_str(other_letter(*letter)),
            Failure::Stopped(stop) => stop.fmt(f),
            Failure::UsedKey => f.write_str(USED_KEY),
            Failure::UsedNonce => {
                write!(f, "This nonce was used under this key in this state file before. {SHARED} Take another one.")
            }
            Failure::UsedCounter { counter, last } => used_counter(f, *counter, *last),
            Failure::OtherTag(letter) => f.write_str(if *letter == Letter::F { OTHER_OLD_TAG } else { OTHER_TAG }),
            Failure::Mismatch { group, packet, index } => mismatch(f, *group, *packet, *index),
            Failure::NotPooled { size, number } => write!(f, "The ring {size} {number} is not in the pool."),
            Failure::Lines { reason, line, refused, done } => lines(f, reason, *line, *refused, *done),
            Failure::Day(reason) => write!(f, "Refused, number {}: {reason}", reason.number.number()),
            Failure::Refused(refusal, letter) => refused(f, refusal, *letter),
            Failure::Spent { refusal, group, allowance } => spent(f, refusal, group, *allowance),
            Failure::Demo(what) => write!(f, "The demo did not go as it should: {what}."),
            Failure::File { .. }
            | Failure::NotSynced { .. }
            | Failure::OpenKey(_)
            | Failure::OutputExists(_)
            | Failure::ManyLines(_)
            | Failure::LargeInput(_) => self.fmt_file(f),
            Failure::Added(_)
            | Failure::NotAdded(_)
            | Failure::Charged { .. }
            | Failure::NotCharged(_)
            | Failure::NotReported(_)
            | Failure::NotCounted(..)
            | Failure::Kept { .. }
            | Failure::NotNoted(_) => self.fmt_afterwards(f),
        }
    }
}

impl Failure {
    /// The sentences of inputs, outputs and keys.
    fn fmt_file(&self, f: &mut fmt::Formatter<'_>) -> fmt::Result {
        match self {
            Failure::File { what, path, source } => write!(f, "Could not {what} {}: {source}.", shown(path)),
            Failure::NotSynced { path, source } => write!(
                f,
                "{} is there and whole, but the disk did not confirm its name: {source}. A power failure may take it away.",
                shown(path)
            ),
            Failure::OpenKey(path) => {
                write!(f, "Others may read or write the key file {}: take that away with chmod 600.", shown(path))
            }
            Failure::OutputExists(path) => {
                write!(f, "There is a file {} already: remove it or choose another output.", shown(path))
            }
            Failure::LargeInput(path) => {
                write!(f, "{} is too large: a file with envelopes has at most 16 MiB.", shown(path))
            }
            Failure::ManyLines(path) => write!(
                f,
                "{} has more than {TILL_LINES} lines, and a till takes no more: divide it. Nothing was charged.",
                shown(path)
            ),
            _ => Ok(()),
        }
    }

    /// The sentences of what went wrong once the call was made.
    fn fmt_afterwards(&self, f: &mut fmt::Formatter<'_>) -> fmt::Result {
        match self {
            Failure::Added(source) => {
                write!(f, "{source} The lines were added all the same: `pool show` shows the pool.")
            }
            Failure::NotAdded(error) => write!(f, "{error} Nothing was added."),
            Failure::Charged { command, source } => {
                write!(f, "{source} The lines were charged all the same: `{command}` gives the receipt.")
            }
            Failure::NotCharged(error) => write!(f, "{error} Nothing was charged."),
            Failure::NotReported(source) => {
                write!(
                    f,
                    "{source} The letters were opened all the same: the same command reports them as opened before."
                )
            }
            Failure::NotCounted(refusal, error) => {
                refused(f, refusal, Letter::S)?;
                let not_added = if error.is_committed() { "" } else { "Its count could not be added to the group's: " };
                write!(f, " {not_added}{error}")
            }
            Failure::Kept { what, command, source } => {
                write!(f, "{source} The {what} is kept in the state file: hand it out with `{command}`.")
            }
            Failure::NotNoted(error) if error.is_committed() => write!(f, "Everything was handed out. {error}"),
            Failure::NotNoted(error) => {
                write!(f, "Everything was handed out, but this could not be noted: {error}")
            }
            _ => Ok(()),
        }
    }
}

/// What is said of a key that was used before.
const USED_KEY: &str = "\
This key was used in this state file before: under it, old envelopes would be accepted again. Make a new one, as with \
`pevghazo keygen`; `--reuse-key` takes it all the same.";

/// What is said of an envelope with a letter that is not the state file's.
fn other_letter(letter: Letter) -> &'static str {
    match letter {
        Letter::S => OF_SANSE,
        Letter::N => OF_SANE,
        Letter::F => OF_OLD,
    }
}

/// What is said of an envelope that is for a group's or the office's state file.
const OF_SANSE: &str = "\
This envelope has the letter S: it is that of a session in SANSE, and `pevghazo group open`, or `pevghazo office open`, is for it.";

/// What is said of an envelope that is for a session in SANE.
const OF_SANE: &str =
    "This envelope has the letter N: it is that of a session in SANE, and `pevghazo sane open` is for it.";

/// What is said of an old letter.
const OF_OLD: &str =
    "This envelope has the letter F: it is an old letter, of the first version, and `pevghazo sae open` is for it.";

/// Why a nonce is not used twice.
const SHARED: &str = "Under one key and one nonce two messages would share keystream, and whoever sees both envelopes learns \
how the messages differ.";

/// The sentences of a counter that was used before, or may have been.
fn used_counter(f: &mut fmt::Formatter<'_>, counter: u64, last: u64) -> fmt::Result {
    let take = if last < u64::MAX { "Take a higher one." } else { "There is no higher one: take a new key." };
    write!(
        f,
        "The counter {counter} is not above {last}, the last one under this key in this state file. {SHARED} {take}"
    )
}

/// What is said of a state file that is lost, and had known nonces.
const LOST: &str = "\
The nonces that were used in it are not known, and under one key none may repeat. Bring the newest one back; if there is none, \
remove its lock file, and start under a new key, or with a counter that is certainly above all that were used.";

/// What is said of a start with another tag than the expected one.
const OTHER_TAG: &str = "\
This is not the tag of a start with this key and this nonce: the other end has another key or another nonce, or its tag was not \
typed as it stands there. Nothing was started, and the nonce can still be used.";

/// The same of an old session.
const OTHER_OLD_TAG: &str = "\
This is not the tag of a start with this key and this nonce: one of them is not that of the old session, or its tag was not typed as it \
was noted. Nothing was started.";

/// What is said of a wrong tag besides that it is wrong.
const WRONG_TAG: &str = "\
Or both ends have sealed at once: then neither envelope can be opened, and the session is replaced under a new key.";

/// The same in SANE.
const WRONG_SANE_TAG: &str = "\
Or both ends have sealed at once: then neither envelope can be opened, whoever sees both learns how their messages differ, and \
the session is replaced under another nonce.";

/// What is said of a wrong tag at last: earlier versions did not seal the header.
const EARLIER: &str = "Or a version before 0.8 has sealed it: only such a version opens it.";

/// What is said besides where a session of the first version was to seal.
const SEALED_TODAY: &str =
    "Today `pevghazo group seal`, `pevghazo office seal` and `pevghazo sane seal` seal messages.";

/// The sentence of a refusal with its number, and what is said besides of a wrong tag, or of sealing as the first version did. Of an old
/// letter with a wrong tag, its box says more.
fn refused(f: &mut fmt::Formatter<'_>, refusal: &Refusal, letter: Letter) -> fmt::Result {
    write!(f, "Refused, number {}: {}", refusal.number.number(), refusal.number.sentence())?;
    match (refusal.number, letter) {
        (Number::WrongTag, Letter::S) => write!(f, " {WRONG_TAG} {EARLIER}"),
        (Number::WrongTag, Letter::N) => write!(f, " {WRONG_SANE_TAG} {EARLIER}"),
        (Number::ReadOnly, _) => write!(f, " {SEALED_TODAY}"),
        _ => Ok(()),
    }
}

/// The sentences of a refusal by a group's allowance.
fn spent(f: &mut fmt::Formatter<'_>, refusal: &Refusal, group: &Group, allowance: u32) -> fmt::Result {
    refused(f, refusal, Letter::S)?;
    if allowance == 0 {
        return f.write_str(" It is 0, for every group: `pevghazo office day` begins a day with another one.");
    }
    let Group { group, count, .. } = group;
    let left = allowance.saturating_sub(*count);
    write!(
        f,
        " Group {group} has spent {count} of {allowance} permutations on this day, and the call needs more than the \
         remaining {left}. The other groups have counts of their own, and the next `pevghazo office day` sets all to 0."
    )
}

/// The sentences of issue lines that were refused.
fn lines(
    f: &mut fmt::Formatter<'_>,
    reason: &Reason,
    line: u64,
    refused: u64,
    done: Option<(&str, u64)>,
) -> fmt::Result {
    write!(f, "Refused, number {}, at line {line}: {reason}", reason.number.number())?;
    write!(f, " Lines refused: {refused}.")?;
    done.map_or(Ok(()), |(what, count)| write!(f, " Lines {what}: {count}."))
}

/// The sentences of a code that does not match.
fn mismatch(f: &mut fmt::Formatter<'_>, group: u32, packet: u32, index: u32) -> fmt::Result {
    write!(
        f,
        "This is not the code of packet {packet} of group {group} at index {index}. Codes change with each message that is \
         sealed or opened: was the packet labelled at this index?"
    )
}
