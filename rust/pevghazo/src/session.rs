//! A lone session, as a group holds it.

use std::fmt;

use crate::Tag;
use crate::by_four::by_four;
use crate::code::Code;
use crate::envelope::{self, Envelope, Letter, header_for, sealed};
use crate::raw::{self, Record};
use crate::record;
use crate::refusal::{BadBytes, Refusal, answer};
use crate::secret::Secret;
use crate::texts::{Arrival, Opened, Plain, Sealed, Unwrapped, Wrapped};

/// One end of a session under a key.
///
/// Both ends start one with the same key, and every message goes from one to the other, in its order. A session holds what
/// the key gave, so it is secret; its memory is set to zero when it is dropped, and the stack that a call used is overwritten
/// before the call returns.
///
/// [`wrap`](Session::wrap) and [`unwrap`](Session::unwrap) work on the parts of a message, [`seal`](Session::seal) and
/// [`open`](Session::open) on whole [envelopes](crate::envelope), whose header the tag covers too;
/// [`wrap_envelope`](Session::wrap_envelope) and [`unwrap_envelope`](Session::unwrap_envelope) work on the parts of one.
///
/// ```
/// use pevghazo::{Arrival, Plain, Session};
///
/// # fn main() -> Result<(), pevghazo::Refusal> {
/// let key = b"a key of 16 to 47 bytes";
/// let (mut office, count) = Session::start(key)?;
/// let (mut group, _) = Session::start(key)?;
/// assert_eq!(count, 1);
///
/// let wrapped = office.wrap(&Plain { metadata: b"size C", message: b"12001-12100" })?;
/// let arrival = Arrival { metadata: b"size C", cryptogram: &wrapped.cryptogram, tag: &wrapped.tag };
/// assert_eq!(group.unwrap(&arrival)?.message, b"12001-12100");
///
/// // The same message a second time is refused, and the session stays as it was.
/// let refusal = group.unwrap(&arrival).unwrap_err();
/// assert_eq!(refusal.number, pevghazo::Number::WrongTag);
///
/// // Messages go both ways, also ones with metadata alone.
/// let wrapped = group.wrap(&Plain { metadata: b"none left", message: b"" })?;
/// let arrival = Arrival { metadata: b"none left", cryptogram: b"", tag: &wrapped.tag };
/// assert_eq!(office.unwrap(&arrival)?.message, b"");
/// # Ok(())
/// # }
/// ```
///
/// A session that was used twice from one state would seal two messages for one place in the row: equal ones would show as
/// equal, and of two the other end would take whichever comes first, so that one could take the other's place. So it cannot
/// be copied:
///
/// ```compile_fail,E0599
/// let (session, _) = pevghazo::Session::start(&[7; 32]).unwrap();
/// let copy = session.clone();
/// ```
///
/// ```compile_fail,E0382
/// let (session, _) = pevghazo::Session::start(&[7; 32]).unwrap();
/// let moved = session;
/// session.index();
/// ```
///
/// Only [`Session::to_bytes`] and [`Session::from_bytes`] make a second one, which is for storing it.
pub struct Session {
    /// In a box, so that a moved session leaves nothing behind.
    record: Box<Record>,
}

impl Session {
    /// The bytes of a stored session.
    pub const BYTES: usize = record::BYTES;

    /// Starts a session under a key of 16 to 47 bytes, and gives it with the permutations done. Check 4.
    ///
    /// The session is one more, in a record of its own, so a refused start costs no session. (In the C interface a start is
    /// lent a record, and a refused one closes it.)
    pub fn start(key: &[u8]) -> Result<(Session, u32), Refusal> {
        let mut record = Box::new(Record::closed());
        let given = raw::start(&mut record, key);
        let count = answer(given.number, given.count)?;
        Ok((Session { record }, count))
    }

    /// Wraps a message. Checks 5, 6 and 9.
    pub fn wrap(&mut self, plain: &Plain<'_>) -> Result<Wrapped, Refusal> {
        Wrapped::by(plain.message.len(), |out, tag| self.wrap_to(plain, out, tag))
    }

    /// [`Session::wrap`] into buffers: the cryptogram goes to the start of `out`, whose other bytes keep their content, and
    /// the tag to `tag`. Gives the permutations done. Checks 5, 6, 8 and 9.
    ///
    /// ```
    /// use pevghazo::{Plain, Session};
    ///
    /// # fn main() -> Result<(), pevghazo::Refusal> {
    /// let (mut session, _) = Session::start(&[7; 32])?;
    /// let (mut out, mut tag) = ([0xAA; 8], [0; 32]);
    /// let count = session.wrap_to(&Plain { metadata: b"size C", message: b"12001" }, &mut out, &mut tag)?;
    /// assert_eq!(count, 7);
    /// assert_eq!(out[5..], [0xAA; 3]);
    /// # Ok(())
    /// # }
    /// ```
    pub fn wrap_to(&mut self, plain: &Plain<'_>, out: &mut [u8], tag: &mut Tag) -> Result<u32, Refusal> {
        let Plain { metadata, message } = *plain;
        let wrap = if by_four(metadata, message) { raw::wrap_four } else { raw::wrap };
        let given = wrap(&mut self.record, metadata, message, out, tag);
        answer(given.number, given.count)
    }

    /// Unwraps an arrival. Checks 5, 6, 9 and 11.
    pub fn unwrap(&mut self, arrival: &Arrival<'_>) -> Result<Unwrapped, Refusal> {
        Unwrapped::by(arrival.cryptogram.len(), |out| self.unwrap_to(arrival, out))
    }

    /// [`Session::unwrap`] into a buffer: the message goes to the start of `out`, whose other bytes keep their content. Gives
    /// the permutations done. Checks 5, 6, 8, 9 and 11; after 11 the part of `out` that the message would have taken is zero.
    pub fn unwrap_to(&mut self, arrival: &Arrival<'_>, out: &mut [u8]) -> Result<u32, Refusal> {
        let Arrival { metadata, cryptogram, tag } = *arrival;
        let unwrap = if by_four(metadata, cryptogram) { raw::unwrap_four } else { raw::unwrap };
        let given = unwrap(&mut self.record, metadata, cryptogram, tag, out);
        answer(given.number, given.count)
    }

    /// Wraps a message for the envelope with this header, which then stands under the tag before the metadata:
    /// [`envelope::write_header`] gives it. Checks 1, 5 and 9; a header that breaks the layout, or whose letter or lengths are not
    /// those of this call, gets 1. Any group is taken.
    pub fn wrap_envelope(&mut self, header: &[u8], plain: &Plain<'_>) -> Result<Wrapped, Refusal> {
        Wrapped::by(plain.message.len(), |out, tag| self.wrap_envelope_to(header, plain, out, tag))
    }

    /// [`Session::wrap_envelope`] into buffers, as [`Session::wrap_to`]. Checks 1, 5, 8 and 9.
    pub fn wrap_envelope_to(
        &mut self,
        header: &[u8],
        plain: &Plain<'_>,
        out: &mut [u8],
        tag: &mut Tag,
    ) -> Result<u32, Refusal> {
        let Plain { metadata, message } = *plain;
        let wrap = if by_four(metadata, message) { raw::wrap_envelope_four } else { raw::wrap_envelope };
        let given = wrap(&mut self.record, header, metadata, message, out, tag);
        answer(given.number, given.count)
    }

    /// Unwraps an envelope that was [read](envelope::read), by its header, metadata, cryptogram and tag. Checks 1, 5, 9 and 11; an
    /// envelope with another [letter](Letter) gets 1. Any group is taken, but the tag covers it.
    pub fn unwrap_envelope(&mut self, envelope: &Envelope<'_>) -> Result<Unwrapped, Refusal> {
        Unwrapped::by(envelope.cryptogram.len(), |out| self.unwrap_envelope_to(envelope, out))
    }

    /// [`Session::unwrap_envelope`] into a buffer, as [`Session::unwrap_to`]. Checks 1, 5, 8, 9 and 11.
    pub fn unwrap_envelope_to(&mut self, envelope: &Envelope<'_>, out: &mut [u8]) -> Result<u32, Refusal> {
        let Envelope { header, metadata, cryptogram, tag, .. } = *envelope;
        let unwrap = if by_four(metadata, cryptogram) { raw::unwrap_envelope_four } else { raw::unwrap_envelope };
        let given = unwrap(&mut self.record, header, metadata, cryptogram, tag, out);
        answer(given.number, given.count)
    }

    /// Seals a message into an envelope with this group's number. Checks 3, 5, 6 and 9.
    ///
    /// ```
    /// use pevghazo::{Plain, Session};
    ///
    /// # fn main() -> Result<(), pevghazo::Refusal> {
    /// let (mut office, _) = Session::start(&[7; 32])?;
    /// let (mut group, _) = Session::start(&[7; 32])?;
    ///
    /// let sealed = office.seal(7, &Plain { metadata: b"size C", message: b"12001-12100" })?;
    /// assert!(sealed.envelope.starts_with(b"S,7,6,11,size C"));
    ///
    /// let opened = group.open(&sealed.envelope)?;
    /// assert_eq!((opened.group, opened.metadata, &opened.message[..]), (7, &b"size C"[..], &b"12001-12100"[..]));
    /// # Ok(())
    /// # }
    /// ```
    pub fn seal(&mut self, group: u32, plain: &Plain<'_>) -> Result<Sealed, Refusal> {
        let header = header_for(Letter::S, group, self.is_open(), plain)?;
        let wrapped = self.wrap_envelope(&header, plain)?;
        Ok(sealed(Letter::S, group, plain, &wrapped))
    }

    /// Opens the envelope at the start of the bytes; more bytes may follow. Checks 1, 2, 5, 9 and 11. An envelope with
    /// another [letter](Letter) gets 1.
    ///
    /// A session does not know its group's number, so the header's is handed out and not looked at. But it is under the tag: an
    /// accepted envelope is the other end's next one, with the header that it was sealed with.
    pub fn open<'a>(&mut self, bytes: &'a [u8]) -> Result<Opened<'a>, Refusal> {
        let envelope = envelope::read(bytes)?;
        envelope.opened(|out| self.unwrap_envelope_to(&envelope, out))
    }

    /// The code of a packet, 0 to 2,047, and the permutations done. Checks 5 and 12.
    ///
    /// Codes belong to the session as it stands, and change with the next accepted message. Both ends give the same ones while
    /// each message that was sealed has been opened at the other end.
    ///
    /// ```
    /// use pevghazo::{Number, Plain, Session};
    ///
    /// # fn main() -> Result<(), pevghazo::Refusal> {
    /// let (mut office, _) = Session::start(&[7; 32])?;
    /// let (mut group, _) = Session::start(&[7; 32])?;
    /// assert_eq!(office.code(12).unwrap_err().number, Number::NoCode);
    ///
    /// let sealed = office.seal(7, &Plain { metadata: b"size C", message: b"12001-12100" })?;
    /// group.open(&sealed.envelope)?;
    /// let (code, count) = office.code(12)?;
    /// assert_eq!((group.code(12)?, count), ((code, 2), 2));
    ///
    /// // What a person reads off the packet.
    /// let text = code.to_string();
    /// assert_eq!(text.parse(), Ok(code));
    /// # Ok(())
    /// # }
    /// ```
    pub fn code(&self, packet: u32) -> Result<(Code, u32), Refusal> {
        Code::of(&self.record, packet)
    }

    /// The index: how many blocks the session's history has taken so far, with one more for each string. It grows with each
    /// accepted message, up to 1,048,576.
    #[must_use]
    pub fn index(&self) -> u32 {
        self.record.index
    }

    /// The toggle, which changes with each accepted message.
    #[must_use]
    pub fn toggle(&self) -> bool {
        self.record.toggle
    }

    /// Whether the session is open. A started one is.
    #[must_use]
    pub fn is_open(&self) -> bool {
        self.record.opened
    }

    /// The session's bytes, for storing it. They are as secret as the session, and set to zero when they are dropped; what
    /// they are copied to is the caller's to [`wipe`](crate::wipe).
    ///
    /// The layout stays: twelve lanes of the accumulator, twelve of the mask, and the index, 32 bits each and little-endian,
    /// then a byte for the toggle and a byte for openness.
    ///
    /// A session that is stored must not be used again until it is read back, and only the newest stored one may be read.
    ///
    /// ```
    /// use pevghazo::{Plain, Session};
    ///
    /// # fn main() -> Result<(), pevghazo::Refusal> {
    /// let (mut session, _) = Session::start(&[7; 32])?;
    /// let sealed = session.seal(7, &Plain { metadata: b"", message: b"12001-12100" })?;
    /// let bytes = session.to_bytes();
    /// drop(session);
    ///
    /// let session = Session::from_bytes(&bytes).unwrap();
    /// assert_eq!((session.index(), session.toggle(), session.is_open()), (4, true, true));
    /// # Ok(())
    /// # }
    /// ```
    #[must_use]
    pub fn to_bytes(&self) -> Secret {
        record::to_bytes(&*self.record)
    }

    /// A session from its stored bytes. Refused are another length, a flag that is neither 0 nor 1, an index above 1,048,576,
    /// and a session that is not open and not zero in all its numbers.
    pub fn from_bytes(bytes: &[u8]) -> Result<Session, BadBytes> {
        Ok(Session { record: record::from_bytes(bytes)? })
    }
}

impl fmt::Debug for Session {
    /// What is not secret.
    fn fmt(&self, f: &mut fmt::Formatter<'_>) -> fmt::Result {
        record::debug("Session", &*self.record, f)
    }
}
