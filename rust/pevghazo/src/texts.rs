//! What is handed over, and what comes back. Each part has a name, since two slices could be swapped unseen, and a message that
//! was handed over as metadata would travel in the clear.

use std::fmt;

use crate::TAG_LENGTH;
use crate::refusal::Refusal;

/// What is wrapped or sealed.
///
/// ```
/// use pevghazo::{Plain, Session};
///
/// # fn main() -> Result<(), pevghazo::Refusal> {
/// let (mut session, _) = Session::start(&[7; 32])?;
/// let wrapped = session.wrap(&Plain { metadata: b"size C", message: b"12001-12100" })?;
/// assert_eq!((wrapped.cryptogram.len(), wrapped.count), (11, 7));
/// # Ok(())
/// # }
/// ```
///
/// Without the names it does not compile:
///
/// ```compile_fail,E0061
/// let (mut session, _) = pevghazo::Session::start(&[7; 32]).unwrap();
/// let wrapped = session.wrap(b"12001-12100", b"size C").unwrap();
/// ```
#[derive(Clone, Copy)]
pub struct Plain<'a> {
    /// The metadata, which travel in the clear; at most 16,384 bytes.
    pub metadata: &'a [u8],
    /// The message; at most 16,384 bytes.
    pub message: &'a [u8],
}

/// What is unwrapped, as it arrived. Its tag has 32 bytes, or 16 for a [`SaneSession`](crate::SaneSession) and a
/// [`SaeSession`](crate::SaeSession).
#[derive(Clone, Copy, Debug, PartialEq, Eq)]
pub struct Arrival<'a, const TAG: usize = TAG_LENGTH> {
    /// The metadata.
    pub metadata: &'a [u8],
    /// The cryptogram.
    pub cryptogram: &'a [u8],
    /// The tag.
    pub tag: &'a [u8; TAG],
}

/// A wrapped message: what travels beside the metadata, and what the wrapping cost. Its tag has 32 bytes, or 16 from a
/// [`SaneSession`](crate::SaneSession).
#[must_use = "the session has gone on: the other end needs this message before the next one"]
#[derive(Clone, Debug, PartialEq, Eq)]
pub struct Wrapped<const TAG: usize = TAG_LENGTH> {
    /// The cryptogram, as long as the message.
    pub cryptogram: Vec<u8>,
    /// The tag.
    pub tag: [u8; TAG],
    /// The permutations done.
    pub count: u32,
}

impl<const TAG: usize> Wrapped<TAG> {
    /// A message of so many bytes, whose cryptogram and tag `wrap` writes to its buffers; it gives the count.
    pub(crate) fn by<F>(message: usize, wrap: F) -> Result<Wrapped<TAG>, Refusal>
    where
        F: FnOnce(&mut [u8], &mut [u8; TAG]) -> Result<u32, Refusal>,
    {
        let mut wrapped = Wrapped { cryptogram: vec![0; message], tag: [0; TAG], count: 0 };
        wrapped.count = wrap(&mut wrapped.cryptogram, &mut wrapped.tag)?;
        Ok(wrapped)
    }
}

/// An unwrapped message. Its memory is the caller's: [`wipe`](crate::wipe) sets it to zero.
#[must_use = "the session has gone on: the message cannot be unwrapped again"]
pub struct Unwrapped {
    /// The message.
    pub message: Vec<u8>,
    /// The permutations done.
    pub count: u32,
}

impl Unwrapped {
    /// A message of so many bytes that `unwrap` writes to its buffer and gives the count of.
    pub(crate) fn by<F>(message: usize, unwrap: F) -> Result<Unwrapped, Refusal>
    where
        F: FnOnce(&mut [u8]) -> Result<u32, Refusal>,
    {
        let mut unwrapped = Unwrapped { message: vec![0; message], count: 0 };
        unwrapped.count = unwrap(&mut unwrapped.message)?;
        Ok(unwrapped)
    }
}

/// A sealed message: the envelope's bytes, and what the sealing cost.
#[must_use = "the session has gone on: the other end needs this envelope before the next one"]
#[derive(Clone, Debug, PartialEq, Eq)]
pub struct Sealed {
    /// The envelope.
    pub envelope: Vec<u8>,
    /// The permutations done.
    pub count: u32,
}

/// An opened envelope. The message's memory is the caller's: [`wipe`](crate::wipe) sets it to zero.
#[must_use = "the session has gone on: the envelope cannot be opened again"]
pub struct Opened<'a> {
    /// The group that the header names, 0 to 31. The header is under the tag, but for an old letter ([`SaeSession`](crate::SaeSession)).
    pub group: u32,
    /// The metadata, a part of the envelope's bytes.
    pub metadata: &'a [u8],
    /// The message.
    pub message: Vec<u8>,
    /// The permutations done.
    pub count: u32,
    /// The bytes after the envelope.
    pub rest: &'a [u8],
}

impl fmt::Debug for Plain<'_> {
    /// Without the message.
    fn fmt(&self, f: &mut fmt::Formatter<'_>) -> fmt::Result {
        f.debug_struct("Plain").field("metadata", &self.metadata).finish_non_exhaustive()
    }
}

impl fmt::Debug for Unwrapped {
    /// Without the message.
    fn fmt(&self, f: &mut fmt::Formatter<'_>) -> fmt::Result {
        f.debug_struct("Unwrapped").field("count", &self.count).finish_non_exhaustive()
    }
}

impl fmt::Debug for Opened<'_> {
    /// Without the message.
    fn fmt(&self, f: &mut fmt::Formatter<'_>) -> fmt::Result {
        f.debug_struct("Opened")
            .field("group", &self.group)
            .field("metadata", &self.metadata)
            .field("count", &self.count)
            .finish_non_exhaustive()
    }
}
