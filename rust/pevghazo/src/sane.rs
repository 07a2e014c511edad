//! A lone session in Xoofff-SANE, for an end that keeps a counter.

use std::fmt;

use crate::by_four::by_four;
use crate::envelope::{self, Envelope, Letter, header_for, sealed};
use crate::raw::{self, SaneRecord};
use crate::record;
use crate::refusal::{BadBytes, Refusal, answer};
use crate::secret::Secret;
use crate::texts::{Arrival, Opened, Plain, Sealed, Unwrapped, Wrapped};
use crate::{SANE_TAG_LENGTH, SaneTag};

/// One end of a session under a key and a nonce, in Xoofff-SANE.
///
/// It is for ends that keep a reliable counter, since **a nonce must not repeat under one key**. Its keystream does not wait for
/// the tag, so that one pass over a message is enough where a [`Session`](crate::Session) needs two, and its tag has 16 bytes
/// instead of 32.
///
/// Why: the keystream that hides a message comes from the key, the nonce and the messages before it, and not from the message
/// itself. Two messages with one keystream give away their sum to anybody who sees the two cryptograms, and often enough both
/// texts. One keystream is used twice
///
/// - where two sessions start with one key and one nonce: for the first message in which they differ;
/// - where both ends seal from one state, since one of them had not yet opened all that the other had sealed: the ends have to
///   agree on who seals next;
/// - where a session is read back from a stored copy that is not the newest, and seals again.
///
/// None of these is refused. So the nonce, of 0 to 16,384 bytes and no secret, is a counter that only grows, and that is
/// written down before the session is used. Who has no such counter uses a [`Session`](crate::Session), where none of the three
/// shares keystream.
///
/// Its calls are those of a [`Session`](crate::Session), without codes. Its envelopes have the letter N, and it does not stand
/// in a [`Table`](crate::Table).
///
/// ```
/// use pevghazo::{Arrival, Plain, SaneSession};
///
/// # fn main() -> Result<(), pevghazo::Refusal> {
/// let key = b"a key of 16 to 47 bytes";
/// let counter = 41_u64.to_le_bytes();
/// let (mut office, tag, count) = SaneSession::start(key, &counter)?;
/// let (mut group, same_tag, _) = SaneSession::start(key, &counter)?;
/// // A start's tag that is the same at both ends shows that they share key and nonce.
/// assert_eq!((tag, count), (same_tag, 4));
///
/// let wrapped = office.wrap(&Plain { metadata: b"size C", message: b"12001-12100" })?;
/// let arrival = Arrival { metadata: b"size C", cryptogram: &wrapped.cryptogram, tag: &wrapped.tag };
/// assert_eq!(group.unwrap(&arrival)?.message, b"12001-12100");
///
/// // The same message a second time is refused, and the session stays as it was.
/// let refusal = group.unwrap(&arrival).unwrap_err();
/// assert_eq!(refusal.number, pevghazo::Number::WrongTag);
/// # Ok(())
/// # }
/// ```
///
/// It cannot be copied, since two copies would share keystream:
///
/// ```compile_fail,E0599
/// let (session, _, _) = pevghazo::SaneSession::start(&[7; 32], b"41").unwrap();
/// let copy = session.clone();
/// ```
///
/// Nor is it handed over in the place of a [`Session`](crate::Session), or the other way round; a tag of the other mode has
/// another length:
///
/// ```compile_fail,E0308
/// use pevghazo::{Arrival, SaneSession};
///
/// let (mut session, _, _) = SaneSession::start(&[7; 32], b"41").unwrap();
/// let message = session.unwrap(&Arrival { metadata: b"", cryptogram: b"", tag: &[0; 32] });
/// ```
pub struct SaneSession {
    /// In a box, so that a moved session leaves nothing behind.
    record: Box<SaneRecord>,
}

impl SaneSession {
    /// The bytes of a stored session.
    pub const BYTES: usize = record::BYTES;

    /// Starts a session under a key of 16 to 47 bytes and a nonce of 0 to 16,384, and gives it with the start's tag and the
    /// permutations done. Checks 4 and 6. The nonce must not have been used under this key before.
    ///
    /// The session is one more, in a record of its own, so a refused start costs no session. (In the C interface a start is
    /// lent a record, and a refused one closes it.)
    pub fn start(key: &[u8], nonce: &[u8]) -> Result<(SaneSession, SaneTag, u32), Refusal> {
        let mut record = Box::new(SaneRecord::closed());
        let mut tag = [0; SANE_TAG_LENGTH];
        let given = raw::sane_start(&mut record, key, nonce, &mut tag);
        let count = answer(given.number, given.count)?;
        Ok((SaneSession { record }, tag, count))
    }

    /// Wraps a message. Checks 5, 6 and 9.
    pub fn wrap(&mut self, plain: &Plain<'_>) -> Result<Wrapped<SANE_TAG_LENGTH>, Refusal> {
        Wrapped::by(plain.message.len(), |out, tag| self.wrap_to(plain, out, tag))
    }

    /// [`SaneSession::wrap`] into buffers: the cryptogram goes to the start of `out`, whose other bytes keep their content, and
    /// the tag to `tag`. Gives the permutations done. Checks 5, 6, 8 and 9.
    pub fn wrap_to(&mut self, plain: &Plain<'_>, out: &mut [u8], tag: &mut SaneTag) -> Result<u32, Refusal> {
        let Plain { metadata, message } = *plain;
        let wrap = if by_four(metadata, message) { raw::sane_wrap_four } else { raw::sane_wrap };
        let given = wrap(&mut self.record, metadata, message, out, tag);
        answer(given.number, given.count)
    }

    /// Unwraps an arrival. Checks 5, 6, 9 and 11.
    pub fn unwrap(&mut self, arrival: &Arrival<'_, SANE_TAG_LENGTH>) -> Result<Unwrapped, Refusal> {
        Unwrapped::by(arrival.cryptogram.len(), |out| self.unwrap_to(arrival, out))
    }

    /// [`SaneSession::unwrap`] into a buffer: the message goes to the start of `out`, whose other bytes keep their content.
    /// Gives the permutations done. Checks 5, 6, 8, 9 and 11; after 11 the part of `out` that the message would have taken is
    /// zero.
    pub fn unwrap_to(&mut self, arrival: &Arrival<'_, SANE_TAG_LENGTH>, out: &mut [u8]) -> Result<u32, Refusal> {
        let Arrival { metadata, cryptogram, tag } = *arrival;
        let unwrap = if by_four(metadata, cryptogram) { raw::sane_unwrap_four } else { raw::sane_unwrap };
        let given = unwrap(&mut self.record, metadata, cryptogram, tag, out);
        answer(given.number, given.count)
    }

    /// Wraps a message for the envelope with this header, which then stands under the tag before the metadata:
    /// [`envelope::write_header`] gives it. Checks 1, 5 and 9; a header that breaks the layout, or whose letter or lengths are not
    /// those of this call, gets 1. Any group is taken.
    pub fn wrap_envelope(&mut self, header: &[u8], plain: &Plain<'_>) -> Result<Wrapped<SANE_TAG_LENGTH>, Refusal> {
        Wrapped::by(plain.message.len(), |out, tag| self.wrap_envelope_to(header, plain, out, tag))
    }

    /// [`SaneSession::wrap_envelope`] into buffers, as [`SaneSession::wrap_to`]. Checks 1, 5, 8 and 9.
    pub fn wrap_envelope_to(
        &mut self,
        header: &[u8],
        plain: &Plain<'_>,
        out: &mut [u8],
        tag: &mut SaneTag,
    ) -> Result<u32, Refusal> {
        let Plain { metadata, message } = *plain;
        let wrap = if by_four(metadata, message) { raw::sane_wrap_envelope_four } else { raw::sane_wrap_envelope };
        let given = wrap(&mut self.record, header, metadata, message, out, tag);
        answer(given.number, given.count)
    }

    /// Unwraps an envelope that was [read](envelope::read), by its header, metadata, cryptogram and tag. Checks 1, 5, 9 and 11; an
    /// envelope with another [letter](Letter) gets 1. Any group is taken, but the tag covers it.
    pub fn unwrap_envelope(&mut self, envelope: &Envelope<'_>) -> Result<Unwrapped, Refusal> {
        Unwrapped::by(envelope.cryptogram.len(), |out| self.unwrap_envelope_to(envelope, out))
    }

    /// [`SaneSession::unwrap_envelope`] into a buffer, as [`SaneSession::unwrap_to`]. Checks 1, 5, 8, 9 and 11.
    pub fn unwrap_envelope_to(&mut self, envelope: &Envelope<'_>, out: &mut [u8]) -> Result<u32, Refusal> {
        let Envelope { header, metadata, cryptogram, tag, .. } = *envelope;
        let unwrap =
            if by_four(metadata, cryptogram) { raw::sane_unwrap_envelope_four } else { raw::sane_unwrap_envelope };
        let given = unwrap(&mut self.record, header, metadata, cryptogram, tag, out);
        answer(given.number, given.count)
    }

    /// Seals a message into an envelope with this group's number and the letter N. Checks 3, 5, 6 and 9.
    ///
    /// ```
    /// use pevghazo::{Number, Plain, SaneSession, Session};
    ///
    /// # fn main() -> Result<(), pevghazo::Refusal> {
    /// let (mut office, _, _) = SaneSession::start(&[7; 32], b"41")?;
    /// let (mut group, _, _) = SaneSession::start(&[7; 32], b"41")?;
    ///
    /// let sealed = office.seal(7, &Plain { metadata: b"size C", message: b"12001-12100" })?;
    /// assert!(sealed.envelope.starts_with(b"N,7,6,11,size C"));
    ///
    /// // A session of the other mode does not take it.
    /// let (mut other, _) = Session::start(&[7; 32])?;
    /// assert_eq!(other.open(&sealed.envelope).unwrap_err().number, Number::BadHeader);
    ///
    /// let opened = group.open(&sealed.envelope)?;
    /// assert_eq!((opened.group, opened.metadata, &opened.message[..]), (7, &b"size C"[..], &b"12001-12100"[..]));
    /// # Ok(())
    /// # }
    /// ```
    pub fn seal(&mut self, group: u32, plain: &Plain<'_>) -> Result<Sealed, Refusal> {
        let header = header_for(Letter::N, group, self.is_open(), plain)?;
        let wrapped = self.wrap_envelope(&header, plain)?;
        Ok(sealed(Letter::N, group, plain, &wrapped))
    }

    /// Opens the envelope at the start of the bytes; more bytes may follow. Checks 1, 2, 5, 9 and 11. An envelope with
    /// another [letter](Letter) gets 1.
    ///
    /// A session does not know its group's number, so the header's is handed out and not looked at. But it is under the tag: an
    /// accepted envelope is the other end's next one, with the header that it was sealed with.
    pub fn open<'a>(&mut self, bytes: &'a [u8]) -> Result<Opened<'a>, Refusal> {
        let envelope = envelope::read(bytes)?;
        envelope.opened(|out| self.unwrap_envelope_to(&envelope, out))
    }

    /// The index: how many blocks the session's history has taken so far, with one more for each string, the nonce among them. It
    /// grows with each accepted message, up to 1,048,576.
    #[must_use]
    pub fn index(&self) -> u32 {
        self.record.index
    }

    /// The toggle, which changes with each accepted message.
    #[must_use]
    pub fn toggle(&self) -> bool {
        self.record.toggle
    }

    /// Whether the session is open. A started one is.
    #[must_use]
    pub fn is_open(&self) -> bool {
        self.record.opened
    }

    /// The session's bytes, for storing it, in the layout of [`Session::to_bytes`](crate::Session::to_bytes). They are as secret
    /// as the session, and set to zero when they are dropped; what they are copied to is the caller's to [`wipe`](crate::wipe).
    ///
    /// A session that is stored must not be used again until it is read back, and only the newest stored one may be read: an
    /// older one would seal with keystream that was used before. The bytes do not tell the mode, so who stores sessions of both
    /// keeps them apart.
    ///
    /// ```
    /// use pevghazo::{Plain, SaneSession};
    ///
    /// # fn main() -> Result<(), pevghazo::Refusal> {
    /// let (mut session, _, _) = SaneSession::start(&[7; 32], b"41")?;
    /// let sealed = session.seal(7, &Plain { metadata: b"", message: b"12001-12100" })?;
    /// let bytes = session.to_bytes();
    /// drop(session);
    ///
    /// let session = SaneSession::from_bytes(&bytes).unwrap();
    /// assert_eq!((session.index(), session.toggle(), session.is_open()), (6, true, true));
    /// # Ok(())
    /// # }
    /// ```
    #[must_use]
    pub fn to_bytes(&self) -> Secret {
        record::to_bytes(&*self.record)
    }

    /// A session from its stored bytes, which are refused as [`Session::from_bytes`](crate::Session::from_bytes) refuses them.
    pub fn from_bytes(bytes: &[u8]) -> Result<SaneSession, BadBytes> {
        Ok(SaneSession { record: record::from_bytes(bytes)? })
    }
}

impl fmt::Debug for SaneSession {
    /// What is not secret.
    fn fmt(&self, f: &mut fmt::Formatter<'_>) -> fmt::Result {
        record::debug("SaneSession", &*self.record, f)
    }
}
