//! The state of one session: that of a group, or of one in SANE.

use std::fmt;

use pevghazo::{BadBytes, Envelope, Letter, Plain, Refusal, SaneSession, Sealed, Session, Unwrapped};
use pevghazo_store::Secret;

use super::format::{self, Bad, Kind, Part, Reader};
use super::{Kept, State};
use crate::keys::Keys;
use crate::starts::Starts;
use crate::table::AREAS;

/// What differs between the modes of lone sessions.
pub trait Mode: Sized + fmt::Debug {
    /// The word that the commands of such sessions start with.
    const NAME: &'static str;
    /// The letter of their envelopes.
    const LETTER: Letter;
    /// The kind of their state files.
    const KIND: Kind;
    /// The bytes of a stored session.
    const BYTES: usize;
    /// Whether their sessions start with nonces.
    const NONCES: bool;
    /// What a state file knows of the starts of its sessions.
    type Starts: Part + Default + fmt::Debug;
    /// The session's bytes.
    fn to_bytes(&self) -> pevghazo::Secret;
    /// The session of these bytes.
    fn from_bytes(bytes: &[u8]) -> Result<Self, BadBytes>;
    /// Seals a message into an envelope.
    fn seal(&mut self, group: u32, plain: &Plain) -> Result<Sealed, Refusal>;
    /// Unwraps an arrival, whose header is under its tag.
    fn unwrap_envelope(&mut self, arrival: &Envelope) -> Result<Unwrapped, Refusal>;
    /// The index.
    fn index(&self) -> u32;
    /// The toggle.
    fn toggle(&self) -> bool;
    /// Whether the session is open.
    fn is_open(&self) -> bool;
}

/// The state of one session.
#[derive(Debug)]
pub struct Lone<S: Mode> {
    /// The group's number.
    pub group: u32,
    /// The session.
    pub session: S,
    /// What is kept of it.
    pub kept: Kept,
    /// What is known of the starts in this state file.
    pub starts: S::Starts,
}

/// A group's state.
pub type Group = Lone<Session>;

/// The state of a session in SANE, at either end.
pub type Sane = Lone<SaneSession>;

impl<S: Mode> State for Lone<S> {
    const KNOWS_NONCES: bool = S::NONCES;

    fn encode(&self) -> Secret {
        let mut bytes = format::started(&S::KIND);
        bytes.add(&self.group.to_le_bytes());
        bytes.add(&self.session.to_bytes());
        self.kept.put(&mut bytes);
        self.starts.put(&mut bytes);
        bytes
    }

    fn decode(bytes: &[u8]) -> Result<Lone<S>, Bad> {
        let (version, mut reader) = Reader::after(bytes, &S::KIND)?;
        let group = reader.number()?;
        let session = S::from_bytes(reader.take(S::BYTES)?).map_err(|_| Bad::Format)?;
        let kept = Kept::read(&mut reader)?;
        // Only the newest version of each kind knows the starts.
        let newest = version == S::KIND.version;
        let starts = if newest { S::Starts::read(&mut reader)? } else { S::Starts::default() };
        reader.end(Lone { group, session, kept, starts })
    }
}

impl Mode for Session {
    const NAME: &'static str = AREAS[1];
    const LETTER: Letter = Letter::S;
    const KIND: Kind = format::GROUP;
    const BYTES: usize = Session::BYTES;
    const NONCES: bool = false;
    type Starts = Keys;

    fn to_bytes(&self) -> pevghazo::Secret {
        Session::to_bytes(self)
    }

    fn from_bytes(bytes: &[u8]) -> Result<Session, BadBytes> {
        Session::from_bytes(bytes)
    }

    fn seal(&mut self, group: u32, plain: &Plain) -> Result<Sealed, Refusal> {
        Session::seal(self, group, plain)
    }

    fn unwrap_envelope(&mut self, arrival: &Envelope) -> Result<Unwrapped, Refusal> {
        Session::unwrap_envelope(self, arrival)
    }

    fn index(&self) -> u32 {
        Session::index(self)
    }

    fn toggle(&self) -> bool {
        Session::toggle(self)
    }

    fn is_open(&self) -> bool {
        Session::is_open(self)
    }
}

impl Mode for SaneSession {
    const NAME: &'static str = AREAS[2];
    const LETTER: Letter = Letter::N;
    const KIND: Kind = format::SANE;
    const BYTES: usize = SaneSession::BYTES;
    const NONCES: bool = true;
    type Starts = Starts;

    fn to_bytes(&self) -> pevghazo::Secret {
        SaneSession::to_bytes(self)
    }

    fn from_bytes(bytes: &[u8]) -> Result<SaneSession, BadBytes> {
        SaneSession::from_bytes(bytes)
    }

    fn seal(&mut self, group: u32, plain: &Plain) -> Result<Sealed, Refusal> {
        SaneSession::seal(self, group, plain)
    }

    fn unwrap_envelope(&mut self, arrival: &Envelope) -> Result<Unwrapped, Refusal> {
        SaneSession::unwrap_envelope(self, arrival)
    }

    fn index(&self) -> u32 {
        SaneSession::index(self)
    }

    fn toggle(&self) -> bool {
        SaneSession::toggle(self)
    }

    fn is_open(&self) -> bool {
        SaneSession::is_open(self)
    }
}
