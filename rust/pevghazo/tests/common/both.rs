//! Sessions that are held twice, by the library and by the reference, in every mode.

use std::marker::PhantomData;

use pevghazo::raw::{self, Answer, Record, SaeRecord, SaneRecord};
use pevghazo_reference::random::Random;
use pevghazo_reference::refusal::{Number, Refusal};
use pevghazo_reference::sae::Sae;
use pevghazo_reference::sane::Sane;
use pevghazo_reference::sanse::Sanse;
use pevghazo_reference::session::{Header, Mode, Record as Reference, SaeSession, SaneSession, Scheme, Session};

use super::{other_length, packet};

/// A kind of record of the C library, held beside one of the reference.
pub trait Held: Sized {
    /// The mode in the reference.
    type Mode: Scheme;

    /// The record with the content of one of the reference.
    fn of(reference: &Reference<Self::Mode>) -> Self;

    /// The reference's record with the content of this one. Only tests look at it.
    fn reference(&self) -> Reference<Self::Mode>;
}

/// By which of a call's two functions in the library it is made: the one that takes a block at a time, or the one by four.
#[derive(Clone, Copy, Debug, Default, PartialEq, Eq)]
pub enum By {
    #[default]
    One,
    Four,
}

impl By {
    /// Both.
    pub const EACH: [By; 2] = [By::One, By::Four];

    /// Either.
    pub fn any(random: &mut Random) -> By {
        random.pick(&By::EACH)
    }

    /// The other one.
    pub fn other(self) -> By {
        By::EACH[usize::from(self == By::One)]
    }
}

/// A record of a mode that seals, with the calls for an envelope and those by four.
pub trait Library: Held<Mode: Mode> {
    /// Wraps, for the envelope with this header or without one.
    fn wrap_for(
        &mut self,
        by: By,
        header: Header<'_>,
        metadata: &[u8],
        message: &[u8],
        out: &mut [u8],
        tag: &mut [u8],
    ) -> Answer;

    /// Unwraps, for the envelope with this header or without one.
    fn unwrap_for(
        &mut self,
        by: By,
        header: Header<'_>,
        metadata: &[u8],
        cryptogram: &[u8],
        tag: &[u8],
        out: &mut [u8],
    ) -> Answer;
}

/// The kinds of records have the same fields.
macro_rules! held {
    ($record:ident, $mode:ty) => {
        impl Held for $record {
            type Mode = $mode;

            fn of(reference: &Reference<$mode>) -> $record {
                $record {
                    acc: reference.accumulator,
                    mask: reference.mask,
                    index: reference.index,
                    toggle: reference.toggle,
                    opened: reference.open,
                }
            }

            fn reference(&self) -> Reference<$mode> {
                Reference {
                    accumulator: self.acc,
                    mask: self.mask,
                    index: self.index,
                    toggle: self.toggle,
                    open: self.opened,
                    mode: PhantomData,
                }
            }
        }
    };
}

held!(Record, Sanse);
held!(SaneRecord, Sane);
held!(SaeRecord, Sae);

/// The calls for an envelope, and those without one, each with the one by four.
macro_rules! library {
    ($record:ident, [$wrap:ident, $wrap_four:ident], [$unwrap:ident, $unwrap_four:ident],
     [$wrap_envelope:ident, $wrap_envelope_four:ident], [$unwrap_envelope:ident, $unwrap_envelope_four:ident]) => {
        impl Library for $record {
            fn wrap_for(
                &mut self,
                by: By,
                header: Header<'_>,
                a: &[u8],
                m: &[u8],
                out: &mut [u8],
                tag: &mut [u8],
            ) -> Answer {
                match (by, header) {
                    (By::One, Some(header)) => raw::$wrap_envelope(self, header, a, m, out, tag),
                    (By::One, None) => raw::$wrap(self, a, m, out, tag),
                    (By::Four, Some(header)) => raw::$wrap_envelope_four(self, header, a, m, out, tag),
                    (By::Four, None) => raw::$wrap_four(self, a, m, out, tag),
                }
            }

            fn unwrap_for(
                &mut self,
                by: By,
                header: Header<'_>,
                a: &[u8],
                c: &[u8],
                tag: &[u8],
                out: &mut [u8],
            ) -> Answer {
                match (by, header) {
                    (By::One, Some(header)) => raw::$unwrap_envelope(self, header, a, c, tag, out),
                    (By::One, None) => raw::$unwrap(self, a, c, tag, out),
                    (By::Four, Some(header)) => raw::$unwrap_envelope_four(self, header, a, c, tag, out),
                    (By::Four, None) => raw::$unwrap_four(self, a, c, tag, out),
                }
            }
        }
    };
}

library!(
    Record,
    [wrap, wrap_four],
    [unwrap, unwrap_four],
    [wrap_envelope, wrap_envelope_four],
    [unwrap_envelope, unwrap_envelope_four]
);
library!(
    SaneRecord,
    [sane_wrap, sane_wrap_four],
    [sane_unwrap, sane_unwrap_four],
    [sane_wrap_envelope, sane_wrap_envelope_four],
    [sane_unwrap_envelope, sane_unwrap_envelope_four]
);

/// A second record with the same content. Only tests do this.
pub fn copy<R: Held>(record: &R) -> R {
    R::of(&record.reference())
}

/// Whether two records have the same content. Only tests compare them.
pub fn same<R: Held>(a: &R, b: &R) -> bool {
    a.reference() == b.reference()
}

/// The library's record for one of the reference.
pub fn record_of<R: Held>(session: &Reference<R::Mode>) -> R {
    R::of(session)
}

/// A reference's answer as the library gives it.
pub fn answer_of(answer: Result<u32, Refusal>) -> Answer {
    match answer {
        Ok(count) => Answer { number: 0, count },
        Err(refusal) => Answer { number: refusal.number.number().into(), count: refusal.count },
    }
}

/// A record with any numbers, also ones that no calls leave behind.
pub fn any_session<M>(random: &mut Random) -> Reference<M> {
    let index = match random.below(4) {
        0 => random.bits() as u32,
        1 => 1_048_576 - random.below(800) as u32,
        2 => 1_048_577 + random.below(3) as u32,
        _ => random.below(1_048_577) as u32,
    };
    Reference {
        accumulator: random.state(),
        mask: random.state(),
        index,
        toggle: random.once_in(2),
        open: !random.once_in(6),
        mode: PhantomData,
    }
}

/// A session held twice: by the library, and by the reference. Each call is made on both with buffers of the same content,
/// and answers, whole buffers and records must be the same. The calls that the library has twice are made by each of the two
/// functions, from the same record and into the same buffers; what goes on and what travels is what the end's own choice gave.
pub struct BothOf<R: Held> {
    pub library: R,
    pub reference: Reference<R::Mode>,
    pub by: By,
}

/// A session of SANSE, held twice.
pub type Both = BothOf<Record>;

/// A session of SANE, held twice.
pub type SaneBoth = BothOf<SaneRecord>;

/// A session of old letters, held twice.
pub type SaeBoth = BothOf<SaeRecord>;

impl<R: Held> BothOf<R> {
    /// The same record on both sides.
    pub fn of(reference: Reference<R::Mode>) -> BothOf<R> {
        BothOf { library: R::of(&reference), reference, by: By::One }
    }

    /// Both sides have one record.
    pub fn check(&self) {
        let (library, reference) = (self.library.reference(), &self.reference);
        assert_eq!(library.accumulator, reference.accumulator, "accumulator");
        assert_eq!(library.mask, reference.mask, "mask");
        assert_eq!(library, *reference, "index, toggle, open");
    }

    /// The library has given the reference's answer to a call that writes to these buffers, and both sides have one record.
    fn checked(&self, call: &str, given: Answer, answer: Answer, [out, tag]: [(&[u8], &[u8]); 2]) {
        assert_eq!(given, answer, "{call}");
        assert!(out.0 == out.1, "{call}: the output buffers differ");
        assert!(tag.0 == tag.1, "{call}: the tag buffers differ");
        self.check();
    }
}

impl SaeBoth {
    /// Wraps into these buffers.
    pub fn wrap(&mut self, metadata: &[u8], message: &[u8], out: &mut [u8], tag: &mut [u8]) -> Answer {
        let (mut out_too, mut tag_too) = (out.to_vec(), tag.to_vec());
        let given = raw::sae_wrap(&mut self.library, metadata, message, out, tag);
        let answer = self.reference.wrap(metadata, message, &mut out_too, &mut tag_too);
        self.checked("wrap", given, answer_of(answer), [(out, &out_too), (tag, &tag_too)]);
        given
    }

    /// Unwraps into this buffer.
    pub fn unwrap(&mut self, metadata: &[u8], cryptogram: &[u8], tag: &[u8], out: &mut [u8]) -> Answer {
        let mut out_too = out.to_vec();
        let given = raw::sae_unwrap(&mut self.library, metadata, cryptogram, tag, out);
        let answer = self.reference.unwrap(metadata, cryptogram, tag, &mut out_too);
        self.checked("unwrap", given, answer_of(answer), [(out, &out_too), (&[], &[])]);
        given
    }
}

impl<R: Library> BothOf<R> {
    /// The end with a choice for its next calls.
    pub fn by(&mut self, by: By) -> &mut BothOf<R> {
        self.by = by;
        self
    }

    /// Wraps into these buffers, for the envelope with this header or without one.
    pub fn wrap_for(
        &mut self,
        header: Header<'_>,
        metadata: &[u8],
        message: &[u8],
        out: &mut [u8],
        tag: &mut [u8],
    ) -> Answer {
        let (before, kept) = (self.library.reference(), (out.to_vec(), tag.to_vec()));
        let (mut out_too, mut tag_too) = kept.clone();
        let answer = answer_of(self.reference.wrap_for(header, metadata, message, &mut out_too, &mut tag_too));
        for by in [self.by.other(), self.by] {
            self.library = R::of(&before);
            out.copy_from_slice(&kept.0);
            tag.copy_from_slice(&kept.1);
            let given = self.library.wrap_for(by, header, metadata, message, out, tag);
            self.checked(&format!("wrap by {by:?}"), given, answer, [(out, &out_too), (tag, &tag_too)]);
        }
        answer
    }

    /// Unwraps into this buffer, for the envelope with this header or without one.
    pub fn unwrap_for(
        &mut self,
        header: Header<'_>,
        metadata: &[u8],
        cryptogram: &[u8],
        tag: &[u8],
        out: &mut [u8],
    ) -> Answer {
        let (before, kept) = (self.library.reference(), out.to_vec());
        let mut out_too = kept.clone();
        let answer = answer_of(self.reference.unwrap_for(header, metadata, cryptogram, tag, &mut out_too));
        for by in [self.by.other(), self.by] {
            self.library = R::of(&before);
            out.copy_from_slice(&kept);
            let given = self.library.unwrap_for(by, header, metadata, cryptogram, tag, out);
            self.checked(&format!("unwrap by {by:?}"), given, answer, [(out, &out_too), (&[], &[])]);
        }
        answer
    }
}

impl Both {
    /// Starts, over a record with any numbers.
    pub fn start(random: &mut Random, key: &[u8]) -> (Both, Answer) {
        let mut library = record_of(&any_session(random));
        let given = raw::start(&mut library, key);
        let (reference, answer) = match Session::start(key) {
            Ok(session) => (session, Ok(Session::START_COUNT)),
            Err(number) => (Session::CLOSED, Err(number.into())),
        };
        assert_eq!(given, answer_of(answer));
        let both = Both { library, reference, by: By::One };
        both.check();
        (both, given)
    }

    /// Asks for a packet's code, into this buffer.
    pub fn code(&self, packet: u32, out: &mut [u8]) -> Answer {
        let mut out_too = out.to_vec();
        let given = raw::code(&self.library, packet, out);
        let answer = self.reference.code(packet, &mut out_too);
        assert_eq!(given, answer_of(answer), "code");
        assert!(out == out_too, "code: the buffers differ");
        self.check();
        given
    }

    /// Asks for the code of some packet, now and then into a buffer that is too short.
    pub fn any_code(&self, random: &mut Random) -> Answer {
        let (packet, room) = (packet(random), other_length(random, 8, 4));
        self.code(packet, &mut random.bytes(room))
    }
}

/// A kind of record whose sessions start with a nonce.
pub trait WithNonce: Held {
    /// The library's start.
    fn raw_start(record: &mut Self, key: &[u8], nonce: &[u8], tag: &mut [u8]) -> Answer;

    /// The reference's start.
    fn reference_start(key: &[u8], nonce: &[u8], tag: &mut [u8]) -> Result<(Reference<Self::Mode>, u32), Number>;
}

/// The starts of a kind.
macro_rules! with_nonce {
    ($record:ident, $start:path, $reference:ident) => {
        impl WithNonce for $record {
            fn raw_start(record: &mut $record, key: &[u8], nonce: &[u8], tag: &mut [u8]) -> Answer {
                $start(record, key, nonce, tag)
            }

            fn reference_start(key: &[u8], nonce: &[u8], tag: &mut [u8]) -> Result<($reference, u32), Number> {
                $reference::start(key, nonce, tag)
            }
        }
    };
}

with_nonce!(SaneRecord, raw::sane_start, SaneSession);
with_nonce!(SaeRecord, raw::sae_start, SaeSession);

impl<R: WithNonce> BothOf<R> {
    /// Starts, over a record with any numbers, with the tag into this buffer.
    pub fn start(random: &mut Random, key: &[u8], nonce: &[u8], tag: &mut [u8]) -> (BothOf<R>, Answer) {
        let mut tag_too = tag.to_vec();
        let mut library = record_of(&any_session(random));
        let given = R::raw_start(&mut library, key, nonce, tag);
        let (reference, answer) = match R::reference_start(key, nonce, &mut tag_too) {
            Ok((session, count)) => (session, Ok(count)),
            Err(number) => (Reference::CLOSED, Err(number.into())),
        };
        let both = BothOf { library, reference, by: By::One };
        both.checked("start", given, answer_of(answer), [(&[], &[]), (tag, &tag_too)]);
        (both, given)
    }

    /// Starts with good lengths.
    pub fn started(random: &mut Random, key: &[u8], nonce: &[u8]) -> BothOf<R> {
        let (both, answer) = BothOf::<R>::start(random, key, nonce, &mut vec![0; R::Mode::TAG]);
        assert_eq!(answer.number, 0);
        both
    }
}
