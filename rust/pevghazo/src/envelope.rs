//! The envelope: the bytes in which a sealed message travels.
//!
//! It is the header `S,group,metadata length,message length,` in decimal, then metadata, cryptogram and tag. An envelope of
//! a [`SaneSession`](crate::SaneSession) has the letter N and a shorter tag. One with the letter F is an old letter, which is read and
//! never written, and which a [`SaeSession`](crate::SaeSession) opens.
//!
//! The header is under the tag: where a message is wrapped and unwrapped *for an envelope*, the header's bytes stand before the
//! metadata in what the tag covers, so an envelope whose header was altered is refused, also where two groups have one key.
//! [`Session::seal`](crate::Session::seal) and [`Session::open`](crate::Session::open), and those of a
//! [`SaneSession`](crate::SaneSession) and a [`Table`](crate::Table), do all steps at once:
//!
//! ```
//! use pevghazo::{Letter, Plain, Session, envelope};
//!
//! # fn main() -> Result<(), pevghazo::Refusal> {
//! let (mut office, _) = Session::start(&[7; 32])?;
//! let (mut group, _) = Session::start(&[7; 32])?;
//!
//! let plain = Plain { metadata: b"size C", message: b"12001-12100" };
//! let header = envelope::write_header(Letter::S, 7, &plain)?;
//! assert_eq!(header, b"S,7,6,11,");
//! let wrapped = office.wrap_envelope(&header, &plain)?;
//! let bytes = envelope::write(Letter::S, 7, plain.metadata, &wrapped.cryptogram, &wrapped.tag)?;
//! assert!(bytes.starts_with(b"S,7,6,11,size C"));
//!
//! let arrived = envelope::read(&bytes)?;
//! assert_eq!((arrived.letter, arrived.group, arrived.metadata), (Letter::S, 7, &b"size C"[..]));
//! assert_eq!(group.unwrap_envelope(&arrived)?.message, b"12001-12100");
//! # Ok(())
//! # }
//! ```
//!
//! Versions before 0.8 did not put the header under the tag: an envelope that they sealed is refused by 11, so both ends move to
//! this version together. What [`Session::wrap`](crate::Session::wrap) wrapped is unwrapped by
//! [`Session::unwrap`](crate::Session::unwrap) as before, and not for an envelope. But metadata that begin with the bytes of a
//! header, handed to a call without an envelope, are the same text as header and metadata of a call for one: who uses both sorts
//! in one session keeps them apart by what the metadata begin with. The header of an old letter is not under its tag.

use crate::raw;
use crate::refusal::{Number, Refusal, answer};
use crate::texts::{Arrival, Opened, Plain, Sealed, Unwrapped, Wrapped};
use crate::{HEADER_MAX, SAE_TAG_LENGTH, SANE_TAG_LENGTH, TAG_LENGTH};

/// The letter that an envelope begins with: the mode of the session that sealed it.
///
/// ```
/// use pevghazo::Letter;
///
/// assert_eq!((Letter::S.byte(), Letter::S.tag_length()), (b'S', 32));
/// assert_eq!((Letter::N.byte(), Letter::N.tag_length()), (b'N', 16));
/// assert_eq!((Letter::F.byte(), Letter::F.tag_length()), (b'F', 16));
/// ```
#[derive(Clone, Copy, Debug, PartialEq, Eq, Hash)]
pub enum Letter {
    /// Xoofff-SANSE: a [`Session`](crate::Session), or a group of a [`Table`](crate::Table).
    S,
    /// Xoofff-SANE: a [`SaneSession`](crate::SaneSession).
    N,
    /// Farfalle-SAE, an old letter of the first version: a [`SaeSession`](crate::SaeSession). It is read and never written.
    F,
}

impl Letter {
    /// The letter's byte.
    #[must_use]
    pub const fn byte(self) -> u8 {
        match self {
            Letter::S => b'S',
            Letter::N => b'N',
            Letter::F => b'F',
        }
    }

    /// The bytes of the tag in an envelope with this letter.
    #[must_use]
    pub const fn tag_length(self) -> usize {
        match self {
            Letter::S => TAG_LENGTH,
            Letter::N => SANE_TAG_LENGTH,
            Letter::F => SAE_TAG_LENGTH,
        }
    }

    /// The letter that the library has read.
    fn of(byte: u8) -> Letter {
        let letter = [Letter::S, Letter::N, Letter::F].into_iter().find(|letter| letter.byte() == byte);
        letter.unwrap_or_else(|| unreachable!("the library has no letter {byte}"))
    }
}

/// An envelope that was read. Its parts are those of the bytes that it was read from.
#[derive(Clone, Copy, Debug, PartialEq, Eq)]
pub struct Envelope<'a> {
    /// The letter.
    pub letter: Letter,
    /// The group, 0 to 31.
    pub group: u32,
    /// The header: all bytes before the metadata.
    pub header: &'a [u8],
    /// The metadata.
    pub metadata: &'a [u8],
    /// The cryptogram.
    pub cryptogram: &'a [u8],
    /// The tag, as long as the letter says.
    pub tag: &'a [u8],
    /// The place after the envelope.
    pub place: usize,
    /// The bytes from that place on.
    pub rest: &'a [u8],
}

impl<'a> Envelope<'a> {
    /// Its parts without the header, as calls without an envelope take them: those on a session whose tags have this length, 32
    /// bytes, or 16 for a [`SaneSession`](crate::SaneSession) and a [`SaeSession`](crate::SaeSession). An envelope whose letter has
    /// another length of tags gets 7. What was wrapped for an envelope is unwrapped by
    /// [`Session::unwrap_envelope`](crate::Session::unwrap_envelope) instead.
    pub fn arrival<const TAG: usize>(&self) -> Result<Arrival<'a, TAG>, Refusal> {
        let tag = self.tag.try_into().map_err(|_| Refusal { number: Number::BadTagLength, count: 0 })?;
        Ok(Arrival { metadata: self.metadata, cryptogram: self.cryptogram, tag })
    }

    /// The envelope with the message that `unwrap` writes to its buffer and gives the count of.
    pub(crate) fn opened<F>(&self, unwrap: F) -> Result<Opened<'a>, Refusal>
    where
        F: FnOnce(&mut [u8]) -> Result<u32, Refusal>,
    {
        let Unwrapped { message, count } = Unwrapped::by(self.cryptogram.len(), unwrap)?;
        Ok(Opened { group: self.group, metadata: self.metadata, message, count, rest: self.rest })
    }
}

/// The header for sealing, by a session that is open or not. Checks 3, 5 and 6.
pub(crate) fn header_for(letter: Letter, group: u32, is_open: bool, plain: &Plain<'_>) -> Result<Vec<u8>, Refusal> {
    let header = write_header(letter, group, plain);
    match header {
        Err(Refusal { number: Number::BadGroup, .. }) => header,
        _ if !is_open => Err(Refusal { number: Number::NotOpen, count: 0 }),
        _ => header,
    }
}

/// The envelope of a message that was wrapped by this letter's mode, for a group up to 31.
pub(crate) fn sealed<const TAG: usize>(
    letter: Letter,
    group: u32,
    plain: &Plain<'_>,
    wrapped: &Wrapped<TAG>,
) -> Sealed {
    let envelope = write(letter, group, plain.metadata, &wrapped.cryptogram, &wrapped.tag);
    Sealed { envelope: envelope.expect("wrapping has met the checks of writing"), count: wrapped.count }
}

/// Reads the envelope at the start of the bytes; more bytes may follow. Checks 1 and 2.
pub fn read(bytes: &[u8]) -> Result<Envelope<'_>, Refusal> {
    let parts = raw::read_envelope(bytes);
    answer(parts.number, 0)?;
    Ok(Envelope {
        letter: Letter::of(parts.letter),
        group: parts.group,
        header: &bytes[..parts.metadata],
        metadata: &bytes[parts.metadata..parts.cryptogram],
        cryptogram: &bytes[parts.cryptogram..parts.tag],
        tag: &bytes[parts.tag..parts.place],
        place: parts.place,
        rest: &bytes[parts.place..],
    })
}

/// Writes the header alone of the envelope in which this metadata and message travel, to fresh bytes. Checks 18, for the letter F, 3
/// and 6.
pub fn write_header(letter: Letter, group: u32, plain: &Plain<'_>) -> Result<Vec<u8>, Refusal> {
    let mut bytes = vec![0; HEADER_MAX];
    let written = raw::write_header(letter.byte(), group, plain.metadata.len(), plain.message.len(), &mut bytes);
    answer(written.number, 0)?;
    bytes.truncate(written.len);
    Ok(bytes)
}

/// Writes an envelope to fresh bytes. Checks 18, for the letter F, 3, 6 and 7; the letter says how long the tag is.
pub fn write(letter: Letter, group: u32, metadata: &[u8], cryptogram: &[u8], tag: &[u8]) -> Result<Vec<u8>, Refusal> {
    let mut bytes = vec![0; HEADER_MAX + metadata.len() + cryptogram.len() + tag.len()];
    let len = write_to(letter, group, metadata, cryptogram, tag, &mut bytes)?;
    bytes.truncate(len);
    Ok(bytes)
}

/// Writes an envelope to the start of a buffer, whose other bytes keep their content, and gives its length. Checks 18, for the letter
/// F, 3 and 6 to 8; the letter says how long the tag is.
pub fn write_to(
    letter: Letter,
    group: u32,
    metadata: &[u8],
    cryptogram: &[u8],
    tag: &[u8],
    out: &mut [u8],
) -> Result<usize, Refusal> {
    let written = raw::write_envelope(letter.byte(), group, metadata, cryptogram, tag, out);
    answer(written.number, 0)?;
    Ok(written.len)
}
