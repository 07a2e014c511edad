//! The record of a session, which is carried along from call to call, and what all modes of sessions share (document 01,
//! "SANSE", "Counts and limits" and "What stops a call, in checking order").
//!
//! A *session* is what two ends hold under one key. *Wrapping* turns *metadata*, which travels in the clear, and a *message*
//! into a *cryptogram* of the message's length and a *tag*. *Unwrapping* turns them back, or refuses. Every tag covers all
//! messages of the session so far, those of both directions. What a call puts in the history, and where tag and keystream
//! come from, is the mode's: see [`crate::sanse`], [`crate::sane`] and, for old letters, [`crate::sae`].
//!
//! A call for an envelope is handed its header too (document 02, request 7). Its *metadata string* is the header's bytes followed
//! by the metadata; that of a call without an envelope is the metadata. History, tag, count and growth go by the string, and
//! only the limit on the metadata by the metadata alone.

use std::fmt;
use std::marker::PhantomData;

use crate::deck::{Deck, blocks};
use crate::envelope::check_header;
use crate::limits::{INDEX_MAX, check_lengths};
use crate::refusal::{Number, Refusal};
use crate::sae::Sae;
use crate::sane::Sane;
use crate::sanse::Sanse;
use crate::xoodoo::State;

/// A session of SANSE.
pub type Session = Record<Sanse>;

/// A session of SANE.
pub type SaneSession = Record<Sane>;

/// A session of old letters, in Farfalle-SAE.
pub type SaeSession = Record<Sae>;

/// The record of a session in a mode. Its fields are open so that tests can make any record, also one that no calls leave
/// behind.
#[derive(Clone, Debug, PartialEq, Eq)]
pub struct Record<M> {
    /// The accumulator of the history; the lane at x of plane y is element x + 4y.
    pub accumulator: State,
    /// The key's mask, rolled `index` times.
    pub mask: State,
    /// The input index after the history's last string.
    pub index: u32,
    /// The toggle e, which changes with each accepted message, but for old letters.
    pub toggle: bool,
    /// Whether the session is open.
    pub open: bool,
    /// The mode, so that the records of one are not taken for those of another.
    pub mode: PhantomData<M>,
}

/// What a scheme of sessions settles, be it a mode that seals or that of old letters.
pub trait Scheme: Clone + fmt::Debug + Eq {
    /// The bytes of a tag.
    const TAG: usize;

    /// Whether the toggle changes with each accepted message.
    const TOGGLES: bool;

    /// The permutations of a call with a metadata string and a message of these lengths.
    fn count(metadata: usize, message: usize) -> u32;

    /// The steps of wrap from this history and toggle on, with the metadata string as `metadata`. They fill `cryptogram`, which
    /// has the message's length, and `tag`, and give the history that they leave.
    fn wrap(
        history: Deck,
        toggle: bool,
        metadata: &[u8],
        message: &[u8],
        cryptogram: &mut [u8],
        tag: &mut [u8],
    ) -> Deck;

    /// The steps of unwrap from this history and toggle on, likewise, up to the tag. They fill `message`, which has the
    /// cryptogram's length, and give the history that they leave; the tag is the start of its output.
    fn unwrap(history: Deck, toggle: bool, metadata: &[u8], cryptogram: &[u8], tag: &[u8], message: &mut [u8]) -> Deck;
}

/// A mode that seals: its sessions wrap, and have calls for an envelope.
pub trait Mode: Scheme {
    /// The letter of the mode's envelopes.
    const LETTER: u8;
}

/// The header that a call for an envelope is handed; none for a call without one.
pub type Header<'a> = Option<&'a [u8]>;

/// The metadata string of a call: the header's bytes, if it is handed one, and the metadata.
pub fn metadata_string(header: Header<'_>, metadata: &[u8]) -> Vec<u8> {
    [header.unwrap_or_default(), metadata].concat()
}

/// The frame bits after metadata.
pub fn metadata_frame(toggle: bool) -> [bool; 2] {
    [false, toggle]
}

/// Whether metadata of this length is put in the history before a message of that length.
pub fn takes_metadata(metadata: usize, message: usize) -> bool {
    metadata > 0 || message == 0
}

/// By how much a call with metadata and message of these lengths raises the index.
pub fn growth(metadata: usize, message: usize) -> u32 {
    let mut growth = 0;
    if takes_metadata(metadata, message) {
        growth += blocks(metadata) + 1;
    }
    if message > 0 {
        growth += blocks(message) + 1;
    }
    u32::try_from(growth).expect("lengths within their limits")
}

/// The history gains the metadata with these frame bits, unless they are empty and a message follows.
pub(crate) fn compress_metadata(history: &mut Deck, frame: &[bool], metadata: &[u8], message: usize) {
    if takes_metadata(metadata.len(), message) {
        history.compress(metadata, frame);
    }
}

/// Puts the sum of `input` and the deck function's output from byte `offset` on into `output`, which has the same length.
pub(crate) fn add_keystream(deck: &Deck, offset: usize, input: &[u8], output: &mut [u8]) {
    deck.output(offset, output);
    for (out, byte) in output.iter_mut().zip(input) {
        *out ^= byte;
    }
}

impl<M> Record<M> {
    /// A closed record: zero in all its numbers.
    pub const CLOSED: Record<M> =
        Record { accumulator: [0; 12], mask: [0; 12], index: 0, toggle: false, open: false, mode: PhantomData };

    /// The open record of a session that starts with this history.
    pub(crate) fn opened(history: Deck) -> Record<M> {
        let mut record = Record { open: true, ..Record::CLOSED };
        record.set(history);
        record
    }

    /// The deck function's state in this record.
    pub(crate) fn deck(&self) -> Deck {
        Deck { accumulator: self.accumulator, mask: self.mask, index: u64::from(self.index) }
    }

    /// Takes in a history.
    fn set(&mut self, history: Deck) {
        self.accumulator = history.accumulator;
        self.mask = history.mask;
        self.index = u32::try_from(history.index).expect("the index was checked");
    }
}

impl<M: Scheme> Record<M> {
    /// Takes in the history of an accepted message.
    fn accept(&mut self, history: Deck) {
        self.set(history);
        self.toggle ^= M::TOGGLES;
    }

    /// The checks 5 to 9 of a call with these lengths, whose metadata string has `head` bytes before the metadata. Gives the call's
    /// count where none is met.
    fn check_call(
        &self,
        head: usize,
        metadata: usize,
        message: usize,
        tag: usize,
        output: usize,
    ) -> Result<u32, Number> {
        if !self.open {
            return Err(Number::Closed);
        }
        check_lengths(&[metadata, message], tag, M::TAG)?;
        if output < message {
            return Err(Number::Buffer);
        }
        let string = head + metadata;
        if u64::from(self.index) + u64::from(growth(string, message)) > u64::from(INDEX_MAX) {
            return Err(Number::Full);
        }
        Ok(M::count(string, message))
    }

    /// Wraps with these bytes before the metadata in the metadata string, or none. Meets 5 to 9.
    pub(crate) fn wrap_after(
        &mut self,
        head: &[u8],
        metadata: &[u8],
        message: &[u8],
        cryptogram: &mut [u8],
        tag: &mut [u8],
    ) -> Result<u32, Refusal> {
        let count = self.check_call(head.len(), metadata.len(), message.len(), tag.len(), cryptogram.len())?;
        let cryptogram = &mut cryptogram[..message.len()];
        let string = metadata_string(Some(head), metadata);
        let history = M::wrap(self.deck(), self.toggle, &string, message, cryptogram, tag);
        self.accept(history);
        Ok(count)
    }

    /// Unwraps likewise. Meets 5 to 9 and 11.
    pub(crate) fn unwrap_after(
        &mut self,
        head: &[u8],
        metadata: &[u8],
        cryptogram: &[u8],
        tag: &[u8],
        message: &mut [u8],
    ) -> Result<u32, Refusal> {
        let count = self.check_call(head.len(), metadata.len(), cryptogram.len(), tag.len(), message.len())?;
        let message = &mut message[..cryptogram.len()];
        let string = metadata_string(Some(head), metadata);
        let history = M::unwrap(self.deck(), self.toggle, &string, cryptogram, tag, message);
        let mut found = vec![0; M::TAG];
        history.output(0, &mut found);
        if found != tag {
            message.fill(0);
            return Err(Refusal { number: Number::Tag, count });
        }
        self.accept(history);
        Ok(count)
    }

    /// Unwraps an arrival: the message goes to the start of `message`, whose other bytes keep their content. Gives the count
    /// of permutations. Meets 5 to 9, with everything left as it was, and 11, which leaves the session as it was, sets the
    /// first bytes of `message`, as many as the cryptogram has, to zero, and has the count of an accepted call.
    pub fn unwrap(
        &mut self,
        metadata: &[u8],
        cryptogram: &[u8],
        tag: &[u8],
        message: &mut [u8],
    ) -> Result<u32, Refusal> {
        self.unwrap_after(&[], metadata, cryptogram, tag, message)
    }
}

impl<M: Mode> Record<M> {
    /// Check 1 of a call with this header, or none, and the checks 5 to 9 of one with these lengths. Gives the call's count where
    /// none is met.
    pub(crate) fn check(
        &self,
        header: Header<'_>,
        metadata: usize,
        message: usize,
        tag: usize,
        output: usize,
    ) -> Result<u32, Number> {
        check_own_header::<M>(header, metadata, message)?;
        self.check_call(header.map_or(0, <[u8]>::len), metadata, message, tag, output)
    }

    /// Wraps a message: the cryptogram goes to the start of `cryptogram`, whose other bytes keep their content, and the tag
    /// to `tag`. Gives the count of permutations. Meets 5 to 9, with everything left as it was.
    pub fn wrap(
        &mut self,
        metadata: &[u8],
        message: &[u8],
        cryptogram: &mut [u8],
        tag: &mut [u8],
    ) -> Result<u32, Refusal> {
        self.wrap_for(None, metadata, message, cryptogram, tag)
    }

    /// [`Record::wrap`] for the envelope with this header, which meets 1 first; or without one.
    pub fn wrap_for(
        &mut self,
        header: Header<'_>,
        metadata: &[u8],
        message: &[u8],
        cryptogram: &mut [u8],
        tag: &mut [u8],
    ) -> Result<u32, Refusal> {
        check_own_header::<M>(header, metadata.len(), message.len())?;
        self.wrap_after(header.unwrap_or_default(), metadata, message, cryptogram, tag)
    }

    /// [`Record::unwrap`] of what arrived in the envelope with this header, which meets 1 first; or without one.
    pub fn unwrap_for(
        &mut self,
        header: Header<'_>,
        metadata: &[u8],
        cryptogram: &[u8],
        tag: &[u8],
        message: &mut [u8],
    ) -> Result<u32, Refusal> {
        check_own_header::<M>(header, metadata.len(), cryptogram.len())?;
        self.unwrap_after(header.unwrap_or_default(), metadata, cryptogram, tag, message)
    }
}

/// Check 1 of a call of a mode with these lengths, where it is handed a header.
fn check_own_header<M: Mode>(header: Header<'_>, metadata: usize, message: usize) -> Result<(), Number> {
    match header {
        Some(bytes) => check_header(bytes, M::LETTER, None, metadata, message),
        None => Ok(()),
    }
}

#[cfg(test)]
pub(crate) mod tests {
    use super::*;
    use crate::deck::tests::counted;
    use crate::envelope::header_bytes;

    /// Wraps, unwraps and refuses at the edges from this session on, without an envelope and for one with this letter, if there is
    /// one: counts are the permutations made, and the index grows by its formula.
    pub(crate) fn check_counts<M: Scheme>(session: &Record<M>, letter: Option<u8>) {
        let edges = [0, 1, 20, 31, 32, 33, 37, 38, 47, 48, 49, 79, 80, 81, 95, 96, 97, 1_000, 16_383, 16_384];
        for (a, m) in edges.into_iter().flat_map(|a| edges.map(|m| (a, m))) {
            check_count(session, &[], a, m);
            if let Some(letter) = letter {
                check_count(session, &header_bytes(letter, 7, a, m), a, m);
            }
        }
    }

    /// The same of a call with these lengths, and these bytes before the metadata.
    fn check_count<M: Scheme>(session: &Record<M>, head: &[u8], a: usize, m: usize) {
        let (mut here, mut there, mut wrong) = (session.clone(), session.clone(), session.clone());
        let (metadata, message) = (vec![1; a], vec![2; m]);
        let (mut cryptogram, mut tag, mut back) = (vec![0; m], vec![0; M::TAG], vec![0; m]);
        let (answer, made) = counted(|| here.wrap_after(head, &metadata, &message, &mut cryptogram, &mut tag));
        assert_eq!(answer, Ok(made), "wrap of {a} and {m} bytes");
        let (answer, made) = counted(|| there.unwrap_after(head, &metadata, &cryptogram, &tag, &mut back));
        assert_eq!(answer, Ok(made), "unwrap of {a} and {m} bytes");
        assert_eq!(back, message);
        assert_eq!(here.index, session.index + growth(head.len() + a, m));
        tag[0] ^= 1;
        let (answer, made) = counted(|| wrong.unwrap_after(head, &metadata, &cryptogram, &tag, &mut back));
        assert_eq!(answer, Err(Refusal { number: Number::Tag, count: made }), "wrong tag, {a} and {m} bytes");
    }
}
