//! Old letters: a lone session in Farfalle-SAE, the mode of the first version, which only opens.

use std::fmt;

use crate::envelope::{self, Envelope, Letter};
use crate::raw::{self, SaeRecord};
use crate::record;
use crate::refusal::{BadBytes, Number, Refusal, answer};
use crate::secret::Secret;
use crate::texts::{Arrival, Opened, Plain, Unwrapped, Wrapped};
use crate::{SAE_TAG_LENGTH, SaeTag};

/// A session of old letters under a key and a nonce, in Farfalle-SAE over Xoofff. It only opens.
///
/// The first version, a trial, sealed its letters so, in envelopes with the letter F. They open here in their order, from a
/// session's first letter on. Nothing is sealed so any more: [`SaeSession::wrap`] is always refused by 18, and so is
/// [writing](envelope::write) an envelope with the letter F. Messages of today go by a [`Session`](crate::Session) or a
/// [`SaneSession`](crate::SaneSession).
///
/// A refused letter leaves the session as it was, so the right next one still opens. As nothing is sealed, a session may be
/// started as often as one likes with one key and one nonce, to read its letters again.
///
/// What the tag of an old letter does not cover:
///
/// - **the header**: a group's number that was altered on the way is not seen, so who knows the group compares it. Lengths that
///   were altered move bytes from one part of the letter to another, which gets 11;
/// - **where one letter ends and the next begins**: a letter with metadata A and cryptogram C, and the two letters (A, empty)
///   and (empty, C) in a row, leave one and the same session. Two such letters that were put together to one, with the tag of the
///   second, are accepted, and give another message than the one that was sealed.
///
/// ```
/// use pevghazo::{Number, Plain, SaeSession};
///
/// # fn main() -> Result<(), pevghazo::Refusal> {
/// let key = b"the key of an old session";
/// let (mut session, _tag, count) = SaeSession::start(key, b"1")?;
/// assert_eq!((count, session.index()), (4, 2));
///
/// // A letter that is not the next one is refused, and the session stays as it was.
/// let damaged = b"F,7,6,5,size C12001................";
/// assert_eq!(session.open(damaged).unwrap_err().number, Number::WrongTag);
/// assert_eq!(session.index(), 2);
///
/// let refusal = session.wrap(&Plain { metadata: b"size C", message: b"12001" }).unwrap_err();
/// assert_eq!((refusal.number, refusal.count), (Number::ReadOnly, 0));
/// # Ok(())
/// # }
/// ```
///
/// It is a type of its own, which no call of another mode takes, and it cannot be copied by accident:
///
/// ```compile_fail,E0599
/// let (session, _, _) = pevghazo::SaeSession::start(&[7; 32], b"1").unwrap();
/// let copy = session.clone();
/// ```
pub struct SaeSession {
    /// In a box, so that a moved session leaves nothing behind.
    record: Box<SaeRecord>,
}

impl SaeSession {
    /// The bytes of a stored session.
    pub const BYTES: usize = record::BYTES;

    /// Starts a session under the key and the nonce of the old letters, of 16 to 47 and 0 to 16,384 bytes, and gives it with the
    /// start's tag and the permutations done. Checks 4 and 6. Where the first version's own tag of the start is known, equal tags
    /// show that key and nonce are the letters' own.
    ///
    /// The session is one more, in a record of its own, so a refused start costs no session. (In the C interface a start is
    /// lent a record, and a refused one closes it.)
    pub fn start(key: &[u8], nonce: &[u8]) -> Result<(SaeSession, SaeTag, u32), Refusal> {
        let mut record = Box::new(SaeRecord::closed());
        let mut tag = [0; SAE_TAG_LENGTH];
        let given = raw::sae_start(&mut record, key, nonce, &mut tag);
        let count = answer(given.number, given.count)?;
        Ok((SaeSession { record }, tag, count))
    }

    /// Unwraps an old letter by its parts. Checks 5, 6, 9 and 11.
    pub fn unwrap(&mut self, arrival: &Arrival<'_, SAE_TAG_LENGTH>) -> Result<Unwrapped, Refusal> {
        Unwrapped::by(arrival.cryptogram.len(), |out| self.unwrap_to(arrival, out))
    }

    /// [`SaeSession::unwrap`] into a buffer: the message goes to the start of `out`, whose other bytes keep their content. Gives
    /// the permutations done. Checks 5, 6, 8, 9 and 11; after 11 the part of `out` that the message would have taken is zero.
    pub fn unwrap_to(&mut self, arrival: &Arrival<'_, SAE_TAG_LENGTH>, out: &mut [u8]) -> Result<u32, Refusal> {
        let given = raw::sae_unwrap(&mut self.record, arrival.metadata, arrival.cryptogram, arrival.tag, out);
        answer(given.number, given.count)
    }

    /// Unwraps an old letter that was [read](envelope::read), by its metadata, cryptogram and tag; its header is not under the tag.
    /// Checks 1, 5, 9 and 11; an envelope with another letter than F gets 1. Any group is taken.
    pub fn unwrap_envelope(&mut self, envelope: &Envelope<'_>) -> Result<Unwrapped, Refusal> {
        Unwrapped::by(envelope.cryptogram.len(), |out| self.unwrap_envelope_to(envelope, out))
    }

    /// [`SaeSession::unwrap_envelope`] into a buffer, as [`SaeSession::unwrap_to`]. Checks 1, 5, 8, 9 and 11.
    pub fn unwrap_envelope_to(&mut self, envelope: &Envelope<'_>, out: &mut [u8]) -> Result<u32, Refusal> {
        let Envelope { letter, metadata, cryptogram, tag, .. } = *envelope;
        if letter != Letter::F {
            return Err(Refusal { number: Number::BadHeader, count: 0 });
        }
        let given = raw::sae_unwrap(&mut self.record, metadata, cryptogram, tag, out);
        answer(given.number, given.count)
    }

    /// Opens the old letter at the start of the bytes, an envelope with the letter F; more bytes may follow. Checks 1, 2, 5, 9 and
    /// 11. An envelope with another letter gets 1.
    ///
    /// The header is not under the tag, so the group that is handed out is the one that stands there, whoever wrote it.
    pub fn open<'a>(&mut self, bytes: &'a [u8]) -> Result<Opened<'a>, Refusal> {
        let envelope = envelope::read(bytes)?;
        envelope.opened(|out| self.unwrap_envelope_to(&envelope, out))
    }

    /// Always refused by 18, before every other check: such a session only opens.
    pub fn wrap(&mut self, plain: &Plain<'_>) -> Result<Wrapped<SAE_TAG_LENGTH>, Refusal> {
        Wrapped::by(plain.message.len(), |out, tag| self.wrap_to(plain, out, tag))
    }

    /// The same with buffers, which stay as they were.
    pub fn wrap_to(&mut self, plain: &Plain<'_>, out: &mut [u8], tag: &mut SaeTag) -> Result<u32, Refusal> {
        let given = raw::sae_wrap(&mut self.record, plain.metadata, plain.message, out, tag);
        answer(given.number, given.count)
    }

    /// The index: how many blocks the session's history has taken so far, with one more for each string, the nonce among them. It
    /// grows with each accepted letter, up to 1,048,576.
    #[must_use]
    pub fn index(&self) -> u32 {
        self.record.index
    }

    /// The toggle, which is false from the start on: no call alters it.
    #[must_use]
    pub fn toggle(&self) -> bool {
        self.record.toggle
    }

    /// Whether the session is open. A started one is.
    #[must_use]
    pub fn is_open(&self) -> bool {
        self.record.opened
    }

    /// The session's bytes, for storing it, in the layout of [`Session::to_bytes`](crate::Session::to_bytes). They are as secret
    /// as the session, and set to zero when they are dropped; what they are copied to is the caller's to [`wipe`](crate::wipe).
    ///
    /// The bytes do not tell the mode, so who stores sessions of several keeps them apart.
    #[must_use]
    pub fn to_bytes(&self) -> Secret {
        record::to_bytes(&*self.record)
    }

    /// A session from its stored bytes, which are refused as [`Session::from_bytes`](crate::Session::from_bytes) refuses them.
    pub fn from_bytes(bytes: &[u8]) -> Result<SaeSession, BadBytes> {
        Ok(SaeSession { record: record::from_bytes(bytes)? })
    }
}

impl fmt::Debug for SaeSession {
    /// What is not secret.
    fn fmt(&self, f: &mut fmt::Formatter<'_>) -> fmt::Result {
        record::debug("SaeSession", &*self.record, f)
    }
}
