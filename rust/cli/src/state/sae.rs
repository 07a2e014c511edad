//! The state of a session of the first version, whose letters are opened.
//!
//! | bytes | content |
//! |---|---|
//! | 8 | `sae----1` |
//! | 4 and [`SaeSession::BYTES`] | the group's number, and the session |
//! | 16, and a counter | the tag of its start, and its counter |
//! | 32 | the key of the letters' fingerprints |
//! | 4 | how many letters were opened |
//! | 16 for each of them, in their order | its fingerprint |
//!
//! No message is kept: each is in its file before the state that follows it is committed. After a kill in between, the letter is opened
//! again, and its file has the same bytes. That is right since nothing is sealed in such a session.

use pevghazo::{Envelope, Letter, Refusal, SaeSession};
use pevghazo_store::Secret;

use super::State;
use super::format::{self, Bad, Part, Reader};
use crate::failure::Failure;
use crate::letters::Opened;
use crate::starts::Start;
use crate::table::AREAS;

/// What is said of an older copy.
const OLDER: &str = "\
The letters that were opened since are not known in it. `--restore` takes it all the same: then they are opened again, in their order.";

/// The state of a session of the first version.
#[derive(Debug)]
pub struct Sae {
    /// The group's number.
    pub group: u32,
    /// The session.
    pub session: SaeSession,
    /// How it was started.
    pub start: Start,
    /// The letters that were opened.
    pub opened: Opened,
}

impl Sae {
    /// The word that the commands of such sessions start with.
    pub const NAME: &'static str = AREAS[3];

    /// Whether a letter of this group may be opened here, or a session of it started.
    pub fn takes(&self, group: u32) -> Result<(), Failure> {
        if group == self.group { Ok(()) } else { Err(Failure::OtherGroup { asked: group, own: self.group }) }
    }

    /// Whether this is an old letter of the state file's group.
    pub fn takes_letter(&self, letter: &Envelope) -> Result<(), Failure> {
        if letter.letter == Letter::F { self.takes(letter.group) } else { Err(Failure::OtherLetter(letter.letter)) }
    }
}

/// Opens a letter, whose header is not under its tag: gives its message.
pub fn open_letter(session: &mut SaeSession, letter: &Envelope) -> Result<Secret, Refusal> {
    Ok(Secret::from(session.unwrap_envelope(letter)?.message))
}

impl State for Sae {
    const OLDER: &'static str = OLDER;

    fn encode(&self) -> Secret {
        let mut bytes = format::started(&format::SAE);
        bytes.add(&self.group.to_le_bytes());
        bytes.add(&self.session.to_bytes());
        self.start.put(&mut bytes);
        self.opened.put(&mut bytes);
        bytes
    }

    fn decode(bytes: &[u8]) -> Result<Sae, Bad> {
        let (_, mut reader) = Reader::after(bytes, &format::SAE)?;
        let group = reader.number()?;
        let session = SaeSession::from_bytes(reader.take(SaeSession::BYTES)?).map_err(|_| Bad::Format)?;
        let (start, opened) = (Start::read(&mut reader)?, Opened::read(&mut reader)?);
        reader.end(Sae { group, session, start, opened })
    }
}
