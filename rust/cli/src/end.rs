//! The ends of sessions, for the commands that all have: sealing, opening and codes by the proved library.

use pevghazo::{Code, Envelope, Letter, Number, Plain, Refusal};
use pevghazo_store::Secret;

use crate::arguments::Arguments;
use crate::failure::Failure;
use crate::state::{Group, Kept, Lone, Mode, Office, State};
use crate::table::AREAS;

/// An end of sessions: the office with its table, or an end with one session.
pub trait End: State {
    /// The word that this end's commands start with.
    const NAME: &'static str;
    /// The letter of its envelopes.
    const LETTER: Letter;
    /// The group that a command is about.
    fn group(&self, arguments: &Arguments) -> Result<u32, Failure>;
    /// Whether an envelope for this group may be opened here.
    fn takes(&self, group: u32) -> Result<(), Failure>;
    /// Seals a message for a group into an envelope.
    fn seal(&mut self, group: u32, metadata: &[u8], message: &[u8]) -> Result<Vec<u8>, Refusal>;
    /// Opens an arrival, whose header is under its tag.
    fn open(&mut self, arrival: &Envelope) -> Result<Secret, Refusal>;
    /// What is kept of a group's messages.
    fn kept(&mut self, group: u32) -> Result<&mut Kept, Refusal>;
    /// The index of a group's session.
    fn index(&self, group: u32) -> u32;
    /// The failure of a call for a group that the library refused.
    fn refused(&self, _group: u32, refusal: Refusal) -> Failure {
        Failure::Refused(refusal, Self::LETTER)
    }
}

/// An end whose sessions give codes of packets.
pub trait Codes: End {
    /// The code of a packet of a group.
    fn code(&self, group: u32, packet: u32) -> Result<Code, Refusal>;
}

impl End for Office {
    const NAME: &'static str = AREAS[0];
    const LETTER: Letter = Letter::S;

    fn group(&self, arguments: &Arguments) -> Result<u32, Failure> {
        arguments.required_number("group")
    }

    fn takes(&self, _: u32) -> Result<(), Failure> {
        Ok(())
    }

    fn seal(&mut self, group: u32, metadata: &[u8], message: &[u8]) -> Result<Vec<u8>, Refusal> {
        Ok(self.table.seal(group, &Plain { metadata, message })?.envelope)
    }

    fn open(&mut self, arrival: &Envelope) -> Result<Secret, Refusal> {
        Ok(Secret::from(self.table.unwrap_envelope(arrival.group, arrival)?.message))
    }

    fn kept(&mut self, group: u32) -> Result<&mut Kept, Refusal> {
        Office::kept(self, group)
    }

    fn index(&self, group: u32) -> u32 {
        self.table.group(group).map_or(0, |group| group.index)
    }

    fn refused(&self, group: u32, refusal: Refusal) -> Failure {
        match self.table.group(group) {
            Some(group) if refusal.number == Number::Allowance => {
                Failure::Spent { refusal, group, allowance: self.table.allowance() }
            }
            _ => Failure::Refused(refusal, Self::LETTER),
        }
    }
}

impl Codes for Office {
    fn code(&self, group: u32, packet: u32) -> Result<Code, Refusal> {
        Ok(self.table.code(group, packet)?.0)
    }
}

impl<S: Mode> End for Lone<S> {
    const NAME: &'static str = S::NAME;
    const LETTER: Letter = S::LETTER;

    fn group(&self, _: &Arguments) -> Result<u32, Failure> {
        Ok(self.group)
    }

    fn takes(&self, group: u32) -> Result<(), Failure> {
        if group == self.group { Ok(()) } else { Err(Failure::OtherGroup { asked: group, own: self.group }) }
    }

    fn seal(&mut self, group: u32, metadata: &[u8], message: &[u8]) -> Result<Vec<u8>, Refusal> {
        Ok(self.session.seal(group, &Plain { metadata, message })?.envelope)
    }

    fn open(&mut self, arrival: &Envelope) -> Result<Secret, Refusal> {
        Ok(Secret::from(self.session.unwrap_envelope(arrival)?.message))
    }

    fn kept(&mut self, _: u32) -> Result<&mut Kept, Refusal> {
        Ok(&mut self.kept)
    }

    fn index(&self, _: u32) -> u32 {
        self.session.index()
    }
}

impl Codes for Group {
    fn code(&self, _: u32, packet: u32) -> Result<Code, Refusal> {
        Ok(self.session.code(packet)?.0)
    }
}
