//! One end of a session kept twice, as a record and as a ledger, in any mode; and random sessions between two such ends.
#![allow(dead_code)]

use pevghazo_reference::bits;
use pevghazo_reference::codes::CODE;
use pevghazo_reference::deck::{Text, xoofff};
use pevghazo_reference::envelope::header_bytes;
use pevghazo_reference::ledger::{Algorithm, DeckFunction, Ledger, LedgerOf, SaeLedger, SaneLedger};
use pevghazo_reference::limits::{INDEX_MAX, LENGTH_MAX};
use pevghazo_reference::random::Random;
use pevghazo_reference::refusal::{Number, Refusal};
use pevghazo_reference::sae::Sae;
use pevghazo_reference::sane::Sane;
use pevghazo_reference::sanse::Sanse;
use pevghazo_reference::session::{Header, Mode, Record, SaeSession, SaneSession, Session, metadata_string};

/// The lengths at which something changes.
pub const EDGES: [usize; 12] = [0, 1, 2, 31, 32, 33, 47, 48, 49, 95, 96, 97];

/// One end kept as a record and as a ledger; each call is made on both, and the answers must be the same.
pub struct End<M> {
    pub session: Record<M>,
    pub ledger: LedgerOf<M>,
}

impl End<Sanse> {
    /// Starts both under this key.
    pub fn start(key: &[u8], deck: DeckFunction) -> End<Sanse> {
        End { session: Session::start(key).unwrap(), ledger: Ledger::start(key, deck).unwrap() }
    }

    /// A packet's code.
    pub fn code(&self, packet: u32, out: &mut [u8]) -> Result<u32, Refusal> {
        let (before, mut again) = (out.to_vec(), out.to_vec());
        let answer = self.session.code(packet, out);
        assert_eq!(self.ledger.code(packet, &mut again), answer);
        assert_eq!(&*out, &*again);
        let written = if answer.is_ok() { CODE } else { 0 };
        assert_eq!(out[written..], before[written..]);
        answer
    }
}

/// What a start with a nonce gives, with its count.
type Started<T> = Result<(T, u32), Number>;

/// Both starts have answered the same, with the tag in its buffer or the buffer as it was.
fn both_started<M: Algorithm>(
    session: Started<Record<M>>,
    ledger: Started<LedgerOf<M>>,
    [before, tag, again]: [&[u8]; 3],
) -> Started<End<M>> {
    assert_eq!(tag, again);
    match (session, ledger) {
        (Ok((session, count)), Ok((ledger, counted))) => {
            assert_eq!((counted, ledger.record()), (count, session.clone()));
            Ok((End { session, ledger }, count))
        }
        (Err(number), Err(other)) => {
            assert_eq!((other, tag), (number, before));
            Err(number)
        }
        _ => panic!("one of the two starts is refused"),
    }
}

/// Both ends of a session, each started with a tag's buffer of its own: the starts give one tag.
pub fn both_ends<M: Algorithm>(start: impl Fn(&mut [u8]) -> Started<End<M>>) -> [End<M>; 2] {
    let mut tags = [[0; 16], [1; 16]];
    let ends = tags.each_mut().map(|tag| start(tag).unwrap().0);
    assert_eq!(tags[0], tags[1]);
    assert_eq!(ends[0].session, ends[1].session);
    ends
}

/// Plays random sessions of so many messages, with texts up to a length: short ones and some with the longest texts.
pub fn random_sessions(seed: u64, play: impl Fn(&mut Random, usize, usize, DeckFunction)) {
    let mut random = Random::new(seed);
    for _ in 0..150 {
        play(&mut random, 6, 400, xoofff);
    }
    for _ in 0..8 {
        play(&mut random, 4, LENGTH_MAX, xoofff);
    }
}

/// The same, few and short, over the deck function that works on bits.
pub fn random_sessions_on_bits(seed: u64, play: impl Fn(&mut Random, usize, usize, DeckFunction)) {
    let mut random = Random::new(seed);
    for _ in 0..4 {
        play(&mut random, 3, 120, bits::xoofff);
    }
}

impl End<Sane> {
    /// Starts both under this key with this nonce, and gives the count.
    pub fn start(key: &[u8], nonce: &[u8], tag: &mut [u8], deck: DeckFunction) -> Started<End<Sane>> {
        let (before, mut again) = (tag.to_vec(), tag.to_vec());
        let session = SaneSession::start(key, nonce, tag);
        let ledger = SaneLedger::start(key, nonce, &mut again, deck);
        both_started(session, ledger, [&before, tag, &again])
    }
}

impl End<Sae> {
    /// Starts both under this key with this nonce, and gives the count.
    pub fn start(key: &[u8], nonce: &[u8], tag: &mut [u8], deck: DeckFunction) -> Started<End<Sae>> {
        let (before, mut again) = (tag.to_vec(), tag.to_vec());
        let session = SaeSession::start(key, nonce, tag);
        let ledger = SaeLedger::start(key, nonce, &mut again, deck);
        both_started(session, ledger, [&before, tag, &again])
    }

    /// Wraps as the first version did.
    pub fn trial_wrap(&mut self, a: &[u8], m: &[u8], out: &mut [u8], tag: &mut [u8]) -> Result<u32, Refusal> {
        let session = |session: &mut SaeSession, out: &mut [u8], tag: &mut [u8]| session.trial_wrap(a, m, out, tag);
        self.wrapped(m.len(), out, tag, session, |ledger, out, tag| ledger.trial_wrap(a, m, out, tag))
    }

    /// Wraps as the product does, which is refused.
    pub fn refused_wrap(&mut self, a: &[u8], m: &[u8], out: &mut [u8], tag: &mut [u8]) -> Result<u32, Refusal> {
        let session = |session: &mut SaeSession, out: &mut [u8], tag: &mut [u8]| session.wrap(a, m, out, tag);
        self.wrapped(m.len(), out, tag, session, |ledger, out, tag| ledger.wrap(a, m, out, tag))
    }
}

impl<M: Algorithm> End<M> {
    /// Makes a wrap of a message of this length on both, and compares what they give.
    fn wrapped(
        &mut self,
        message: usize,
        out: &mut [u8],
        tag: &mut [u8],
        by_session: impl FnOnce(&mut Record<M>, &mut [u8], &mut [u8]) -> Result<u32, Refusal>,
        by_ledger: impl FnOnce(&mut LedgerOf<M>, &mut [u8], &mut [u8]) -> Result<u32, Refusal>,
    ) -> Result<u32, Refusal> {
        let (mut out_again, mut tag_again) = (out.to_vec(), tag.to_vec());
        let before = self.session.clone();
        let (out_before, tag_before) = (out.to_vec(), tag.to_vec());
        let answer = by_session(&mut self.session, out, tag);
        assert_eq!(by_ledger(&mut self.ledger, &mut out_again, &mut tag_again), answer);
        assert_eq!((&*out, &*tag), (&*out_again, &*tag_again));
        assert_eq!(self.ledger.record(), self.session);
        if answer.is_err() {
            assert_eq!((&*out, &*tag, &self.session), (&*out_before, &*tag_before, &before));
        } else {
            assert_eq!(out[message..], out_before[message..]);
        }
        answer
    }

    /// Makes an unwrap of a cryptogram of this length on both, and compares what they give.
    fn unwrapped(
        &mut self,
        cryptogram: usize,
        out: &mut [u8],
        by_session: impl FnOnce(&mut Record<M>, &mut [u8]) -> Result<u32, Refusal>,
        by_ledger: impl FnOnce(&mut LedgerOf<M>, &mut [u8]) -> Result<u32, Refusal>,
    ) -> Result<u32, Refusal> {
        let mut again = out.to_vec();
        let (before, out_before) = (self.session.clone(), out.to_vec());
        let answer = by_session(&mut self.session, out);
        assert_eq!(by_ledger(&mut self.ledger, &mut again), answer);
        assert_eq!(&*out, &*again);
        assert_eq!(self.ledger.record(), self.session);
        match answer {
            Ok(_) => assert_eq!(out[cryptogram..], out_before[cryptogram..]),
            Err(Refusal { number: Number::Tag, .. }) => {
                assert!(out[..cryptogram].iter().all(|byte| *byte == 0));
                assert_eq!(out[cryptogram..], out_before[cryptogram..]);
                assert_eq!(self.session, before);
            }
            Err(_) => assert_eq!((&*out, &self.session), (&*out_before, &before)),
        }
        answer
    }

    /// Unwraps into this buffer, without an envelope.
    pub fn unwrap(&mut self, a: &[u8], c: &[u8], tag: &[u8], out: &mut [u8]) -> Result<u32, Refusal> {
        let session = |session: &mut Record<M>, out: &mut [u8]| session.unwrap(a, c, tag, out);
        self.unwrapped(c.len(), out, session, |ledger, out| ledger.unwrap(a, c, tag, out))
    }
}

impl<M: Algorithm + Mode> End<M> {
    /// Wraps into these buffers, without an envelope.
    pub fn wrap(&mut self, a: &[u8], m: &[u8], out: &mut [u8], tag: &mut [u8]) -> Result<u32, Refusal> {
        self.wrap_for(None, a, m, out, tag)
    }

    /// Wraps into these buffers, for the envelope with this header, or without one.
    pub fn wrap_for(
        &mut self,
        header: Header<'_>,
        a: &[u8],
        m: &[u8],
        out: &mut [u8],
        tag: &mut [u8],
    ) -> Result<u32, Refusal> {
        let session =
            |session: &mut Record<M>, out: &mut [u8], tag: &mut [u8]| session.wrap_for(header, a, m, out, tag);
        self.wrapped(m.len(), out, tag, session, |ledger, out, tag| ledger.wrap_for(header, a, m, out, tag))
    }

    /// Unwraps into this buffer what arrived in the envelope with this header, or without one.
    pub fn unwrap_for(
        &mut self,
        header: Header<'_>,
        a: &[u8],
        c: &[u8],
        tag: &[u8],
        out: &mut [u8],
    ) -> Result<u32, Refusal> {
        let session = |session: &mut Record<M>, out: &mut [u8]| session.unwrap_for(header, a, c, tag, out);
        self.unwrapped(c.len(), out, session, |ledger, out| ledger.unwrap_for(header, a, c, tag, out))
    }
}

/// A key within the limits.
pub fn key(random: &mut Random) -> Vec<u8> {
    let length = 16 + random.below(32);
    random.bytes(length)
}

/// A text of at most so many bytes, often of a length at which something changes.
pub fn text(random: &mut Random, longest: usize) -> Vec<u8> {
    let length = match random.below(3) {
        0 => random.pick(&EDGES),
        1 => random.below(longest + 1),
        _ => random.below(60),
    };
    random.bytes(length)
}

/// The bytes with one bit flipped.
pub fn flipped(random: &mut Random, bytes: &[u8]) -> Vec<u8> {
    let mut bad = bytes.to_vec();
    bad[random.below(bytes.len())] ^= 1 << random.below(8);
    bad
}

/// One message of a random session between two ends, for an envelope or without one, with damaged and repeated arrivals.
pub fn message<M: Algorithm + Mode>(random: &mut Random, ends: &mut [End<M>; 2], longest: usize) {
    let from = random.below(2);
    let (a, m) = (text(random, longest), text(random, longest));
    let group = random.below(32) as u32;
    let header = random.once_in(2).then(|| header_bytes(M::LETTER, group, a.len(), m.len()));
    let header = header.as_deref();
    let count = M::count(metadata_string(header, &a).len(), m.len());
    let mut c = random.bytes(m.len() + random.clone().below(3));
    let mut tag = random.bytes(M::TAG);
    assert_eq!(ends[from].wrap_for(header, &a, &m, &mut c, &mut tag), Ok(count));
    let c = &c[..m.len()];
    let mut out = random.bytes(m.len() + random.clone().below(3));
    let wrong = Err(Refusal { number: Number::Tag, count });

    let bad = flipped(random, &tag);
    assert_eq!(ends[1 - from].unwrap_for(header, &a, c, &bad, &mut out), wrong);
    if !m.is_empty() {
        let bad = flipped(random, c);
        assert_eq!(ends[1 - from].unwrap_for(header, &a, &bad, &tag, &mut out), wrong);
    }
    if !a.is_empty() {
        let bad = flipped(random, &a);
        assert_eq!(ends[1 - from].unwrap_for(header, &bad, c, &tag, &mut out), wrong);
    }
    other_headers(&mut ends[1 - from], (header, group), [&a, c, &tag], &mut out);
    // Handed back to the end that wrapped it.
    assert_eq!(ends[from].unwrap_for(header, &a, c, &tag, &mut out), wrong);

    assert_eq!(ends[1 - from].unwrap_for(header, &a, c, &tag, &mut out), Ok(count));
    assert_eq!(out[..m.len()], m);
    assert_eq!(ends[0].session, ends[1].session);
    // Handed over a second time.
    assert_eq!(ends[1 - from].unwrap_for(header, &a, c, &tag, &mut out), wrong);
}

/// An arrival with the header of another group, without one, or with one that it was not wrapped with, is refused by 11; one with
/// a header that does not fit by 1.
fn other_headers<M: Algorithm + Mode>(
    end: &mut End<M>,
    (header, group): (Header<'_>, u32),
    [a, c, tag]: [&[u8]; 3],
    out: &mut [u8],
) {
    let of = |letter, group, a, c| header_bytes(letter, group, a, c);
    let other = of(M::LETTER, (group + 1) % 32, a.len(), c.len());
    let fits = [Some(&other[..]), None];
    for instead in fits.into_iter().filter(|instead| *instead != header) {
        let count = M::count(metadata_string(instead, a).len(), c.len());
        assert_eq!(end.unwrap_for(instead, a, c, tag, out), Err(Refusal { number: Number::Tag, count }));
    }
    let whole = of(M::LETTER, group, a.len(), c.len());
    let misfits = [
        of(if M::LETTER == b'S' { b'N' } else { b'S' }, group, a.len(), c.len()),
        of(b'F', group, a.len(), c.len()),
        of(M::LETTER, group, a.len() + 1, c.len()),
        of(M::LETTER, group, a.len(), c.len() + 1),
        of(M::LETTER, 32 + group, a.len(), c.len()),
        [&whole[..], b"0"].concat(),
        whole[..whole.len() - 1].to_vec(),
        whole[1..].to_vec(),
        Vec::new(),
    ];
    for misfit in misfits {
        assert_eq!(number(end.unwrap_for(Some(&misfit), a, c, tag, out)), Number::Header);
    }
}

/// The number of a refusal before any permutation.
pub fn number(answer: Result<u32, Refusal>) -> Number {
    let refusal = answer.unwrap_err();
    assert_eq!(refusal.count, 0);
    refusal.number
}

/// Number 1 of this end before every other, of its record closed too; and a length that no header has gets 1 and not 6.
pub fn check_headers_first<M: Algorithm + Mode>(end: &mut End<M>) {
    let long = &vec![0; LENGTH_MAX + 1];
    let (mut out, mut short) = (vec![1; 10], vec![2; M::TAG - 1]);
    let mut closed = Record { open: false, ..end.session.clone() };
    let headers = [b"".to_vec(), b"X,0,16385,11,".to_vec(), header_bytes(M::LETTER, 0, long.len(), 11)];
    for header in headers.each_ref().map(|header| Some(&header[..])) {
        assert_eq!(number(end.wrap_for(header, long, &[0; 11], &mut out, &mut short)), Number::Header);
        assert_eq!(number(end.unwrap_for(header, long, &[0; 11], &short, &mut out)), Number::Header);
        assert_eq!(number(closed.wrap_for(header, long, &[0; 11], &mut out, &mut short)), Number::Header);
        assert_eq!(number(closed.unwrap_for(header, long, &[0; 11], &short, &mut out)), Number::Header);
    }
    let fits = header_bytes(M::LETTER, 31, LENGTH_MAX, 11);
    let fits = Some(&fits[..]);
    assert_eq!(number(closed.wrap_for(fits, &long[1..], &[0; 11], &mut out, &mut short)), Number::Closed);
    assert_eq!(number(end.wrap_for(fits, &long[1..], &[0; 11], &mut out, &mut short)), Number::TagLength);
    assert_eq!(number(end.wrap_for(fits, &long[1..], &[0; 11], &mut out, &mut vec![2; M::TAG])), Number::Buffer);
}

/// Numbers 6, 7 and 8 of this end, and 5 of its record closed, in their order.
pub fn check_refusals<M: Algorithm + Mode>(end: &mut End<M>) {
    let long = &vec![0; LENGTH_MAX + 1];
    let (mut out, mut tag) = (vec![1; 10], vec![2; M::TAG]);
    let [mut short, mut wide] = [vec![2; M::TAG - 1], vec![2; M::TAG + 1]];
    assert_eq!(number(end.wrap(long, &[0; 11], &mut out, &mut short)), Number::TooLong);
    assert_eq!(number(end.wrap(&[], long, &mut out, &mut tag)), Number::TooLong);
    assert_eq!(number(end.wrap(&[], &[0; 11], &mut out, &mut short)), Number::TagLength);
    assert_eq!(number(end.wrap(&[], &[0; 11], &mut out, &mut wide)), Number::TagLength);
    assert_eq!(number(end.wrap(&[], &[0; 11], &mut out, &mut tag)), Number::Buffer);
    assert_eq!(number(end.unwrap(long, &[0; 11], &short, &mut out)), Number::TooLong);
    assert_eq!(number(end.unwrap(&[], &[0; 11], &short, &mut out)), Number::TagLength);
    assert_eq!(number(end.unwrap(&[], &[0; 11], &wide, &mut out)), Number::TagLength);
    assert_eq!(number(end.unwrap(&[], &[0; 11], &tag, &mut out)), Number::Buffer);

    let mut closed = Record { open: false, ..end.session.clone() };
    let before = closed.clone();
    assert_eq!(number(closed.wrap(long, &[0; 11], &mut out, &mut short)), Number::Closed);
    assert_eq!(number(closed.unwrap(long, &[0; 11], &short, &mut out)), Number::Closed);
    assert_eq!((closed, out, tag), (before, vec![1; 10], vec![2; M::TAG]));
}

/// Calls close to the limit of the index: the index before, whether for an envelope, the lengths of metadata and message, and whether
/// the index after it is just the limit; otherwise it is above. A header of 10 bytes takes metadata of 38 into a second block.
const CLOSE_TO_THE_LIMIT: [(u32, bool, usize, usize, bool); 15] = [
    (INDEX_MAX - 2, false, 0, 0, true),
    (INDEX_MAX - 1, false, 0, 0, false),
    (INDEX_MAX - 5, false, 20, 48, true),
    (INDEX_MAX - 4, false, 20, 48, false),
    (INDEX_MAX, false, 0, 1, false),
    (u32::MAX, false, 0, 0, false),
    (u32::MAX, false, LENGTH_MAX, LENGTH_MAX, false),
    (INDEX_MAX - 5, false, 38, 48, true),
    (INDEX_MAX - 5, true, 38, 48, false),
    (INDEX_MAX - 6, true, 38, 48, true),
    (INDEX_MAX - 4, true, 0, 1, true),
    (INDEX_MAX - 3, true, 0, 1, false),
    (INDEX_MAX - 2, true, 0, 0, true),
    (INDEX_MAX - 1, true, 0, 0, false),
    (u32::MAX, true, LENGTH_MAX, LENGTH_MAX, false),
];

/// Number 9: such a call, in the mode of this session.
pub fn check_index_limit<M: Algorithm + Mode>(started: &Record<M>) {
    for (index, for_envelope, a, m, fits) in CLOSE_TO_THE_LIMIT {
        let session = Record { index, ..started.clone() };
        let (metadata, message) = (vec![3; a], vec![4; m]);
        let header = for_envelope.then(|| header_bytes(M::LETTER, 7, a, m));
        let header = header.as_deref();
        let (mut c, mut tag) = (vec![0; m], vec![0; M::TAG]);
        let (mut here, mut there) = (session.clone(), session.clone());
        let answer = here.wrap_for(header, &metadata, &message, &mut c, &mut tag);
        assert_eq!(there.unwrap_for(header, &metadata, &c, &tag, &mut vec![0; m]), answer);
        assert_eq!(here, there);
        if fits {
            let count = M::count(metadata_string(header, &metadata).len(), m);
            assert_eq!((answer, here.index), (Ok(count), INDEX_MAX));
        } else {
            assert_eq!((answer, here), (Err(Number::Full.into()), session));
        }
    }
}

/// The same of a ledger, whose history is one string that leads to the index.
pub fn check_ledger_limit<M: Algorithm + Mode>(started: &LedgerOf<M>) {
    for (index, for_envelope, a, m, fits) in CLOSE_TO_THE_LIMIT.into_iter().filter(|(index, ..)| *index <= INDEX_MAX) {
        let mut ledger = started.clone();
        ledger.history = vec![Text::new(&vec![0; (index as usize - 2) * 48], &[])];
        let header = for_envelope.then(|| header_bytes(M::LETTER, 7, a, m));
        let answer =
            ledger.wrap_for(header.as_deref(), &vec![3; a], &vec![4; m], &mut vec![0; m], &mut vec![0; M::TAG]);
        let count = M::count(header.map_or(0, |header| header.len()) + a, m);
        assert_eq!(answer, if fits { Ok(count) } else { Err(Number::Full.into()) }, "{index}, {a} and {m} bytes");
    }
}

/// Any output for a deck function, where the checks alone are looked at.
pub fn no_deck(_: &[u8], _: &[Text], _: usize, length: usize) -> Vec<u8> {
    vec![0; length]
}
