//! The safe type of a session in SANE: its start, refusals, stored bytes, envelopes, and what is shown.

mod common;

use common::stored;
use pevghazo::{
    Arrival, INDEX_MAX, KEY_MAX, KEY_MIN, Letter, NONCE_MAX, Number, Plain, Refusal, SANE_TAG_LENGTH, SaneSession,
    Session, TEXT_MAX, Table, Wrapped, envelope, raw,
};

const KEY: &[u8] = b"a key for the tests here";
const NONCE: &[u8] = b"41";

/// A session under the key and the nonce.
fn start() -> SaneSession {
    SaneSession::start(KEY, NONCE).unwrap().0
}

/// A message without metadata.
fn plain(message: &[u8]) -> Plain<'_> {
    Plain { metadata: b"", message }
}

/// The arrival of a message without metadata.
fn arrival(wrapped: &Wrapped<SANE_TAG_LENGTH>) -> Arrival<'_, SANE_TAG_LENGTH> {
    Arrival { metadata: b"", cryptogram: &wrapped.cryptogram, tag: &wrapped.tag }
}

/// A refusal with no permutation done.
fn refused(number: Number) -> Refusal {
    Refusal { number, count: 0 }
}

#[test]
fn starts_and_their_counts() {
    for (length, blocks) in [(0, 1), (1, 1), (47, 1), (48, 2), (49, 2), (96, 3), (NONCE_MAX, 342)] {
        let nonce = vec![3; length];
        let (session, tag, count) = SaneSession::start(KEY, &nonce).unwrap();
        assert_eq!((count, session.index()), (blocks + 3, blocks + 1), "a nonce of {length} bytes");
        assert_eq!((session.toggle(), session.is_open()), (false, true));
        let (again, same_tag, _) = SaneSession::start(KEY, &nonce).unwrap();
        assert_eq!((&*again.to_bytes(), same_tag), (&*session.to_bytes(), tag));
    }
    let long = [0; NONCE_MAX + 1];
    let number = |key: &[u8], nonce: &[u8]| SaneSession::start(key, nonce).unwrap_err();
    for length in [0, KEY_MIN - 1, KEY_MAX + 1] {
        assert_eq!(number(&vec![0; length], &long), refused(Number::BadKey), "a key of {length} bytes");
    }
    assert_eq!(number(KEY, &long), refused(Number::TooLong));
}

/// The first session of the vectors (`vectors/sane.txt`), whose nonce and first message have no bytes.
#[test]
fn the_first_vector() {
    let bytes = |digits: &str| -> Vec<u8> {
        let digit = |i: usize| u8::from_str_radix(&digits[i..i + 2], 16).unwrap();
        (0..digits.len()).step_by(2).map(digit).collect()
    };
    let (mut session, tag, count) = SaneSession::start(&bytes("92c238c25ba722df597a53705c5bcc7d"), b"").unwrap();
    assert_eq!((&tag[..], count), (&bytes("bb5236113bbc52ee69c593879cf285dd")[..], 4));
    assert_eq!((session.index(), session.toggle()), (2, false));
    let wrapped = session.wrap(&plain(b"")).unwrap();
    assert_eq!((&wrapped.tag[..], wrapped.count), (&bytes("7fa425a3872b2903831b2c01e7a7cb29")[..], 3));
    assert_eq!((session.index(), session.toggle()), (4, true));
}

/// The checks of a start in their order; a refused one closes the record and leaves the tag's buffer.
#[test]
fn a_refused_start_closes_the_record() {
    let long = [0; NONCE_MAX + 1];
    let refusals: [(u32, &[u8], &[u8], usize); 8] = [
        (4, &KEY[..15], &long, 15),
        (4, &[0; 48], NONCE, 16),
        (6, KEY, &long, 15),
        (6, KEY, &long, 16),
        (7, KEY, NONCE, 0),
        (7, KEY, NONCE, 15),
        (7, KEY, NONCE, 17),
        (7, KEY, NONCE, 32),
    ];
    for (number, key, nonce, length) in refusals {
        let mut record = raw::SaneRecord::closed();
        assert_eq!(raw::sane_start(&mut record, KEY, NONCE, &mut [0; 16]), raw::Answer { number: 0, count: 4 });
        assert!(record.opened);
        let mut tag = vec![0xA5; length];
        assert_eq!(raw::sane_start(&mut record, key, nonce, &mut tag), raw::Answer { number, count: 0 });
        assert_eq!(tag, vec![0xA5; length], "the tag's buffer");
        assert_eq!((record.acc, record.mask), ([0; 12], [0; 12]), "the old session is lost");
        assert_eq!((record.index, record.toggle, record.opened), (0, false, false));
    }
}

#[test]
fn refusals_of_a_session() {
    let mut session = start();
    let before = session.to_bytes();
    let (mut out, mut tag) = ([0xAA; 4], [0xBB; SANE_TAG_LENGTH]);
    let long = Plain { metadata: &[0; TEXT_MAX + 1], message: b"" };
    assert_eq!(session.wrap_to(&long, &mut out, &mut tag), Err(refused(Number::TooLong)));
    assert_eq!(session.wrap_to(&plain(b"12345"), &mut out, &mut tag), Err(refused(Number::NoRoom)));
    assert_eq!((out, tag), ([0xAA; 4], [0xBB; SANE_TAG_LENGTH]));
    let forged = Arrival { metadata: b"", cryptogram: b"123", tag: &tag };
    assert_eq!(session.unwrap_to(&forged, &mut out[..2]), Err(refused(Number::NoRoom)));
    // Without metadata, 3 bytes in 1 block: 1 + 3 + 1.
    assert_eq!(session.unwrap_to(&forged, &mut out), Err(Refusal { number: Number::WrongTag, count: 5 }));
    assert_eq!(out, [0, 0, 0, 0xAA]);
    assert_eq!(*session.to_bytes(), *before, "refusals leave the session");

    let mut bytes = session.to_bytes().to_vec();
    bytes[96..100].copy_from_slice(&(INDEX_MAX - 1).to_le_bytes());
    let mut full = SaneSession::from_bytes(&bytes).unwrap();
    assert_eq!(full.wrap(&plain(b"")).unwrap_err(), refused(Number::IndexFull));
    let mut closed = SaneSession::from_bytes(&[0; SaneSession::BYTES]).unwrap();
    assert!(!closed.is_open());
    assert_eq!(closed.wrap(&long).unwrap_err(), refused(Number::NotOpen));
    assert_eq!(closed.unwrap(&forged).unwrap_err(), refused(Number::NotOpen));
}

/// A call with empty M counts b(A) + 2, any other a + b(M) + 3 + ceiling((M + 16) / 48), where a is b(A), or 0 for empty A.
#[test]
fn counts_of_messages() {
    let counts = [(0, 0, 3), (48, 0, 4), (0, 1, 5), (0, 32, 5), (0, 33, 6), (20, 48, 8), (TEXT_MAX, TEXT_MAX, 1_029)];
    let (mut here, mut there) = (start(), start());
    for (a, m, count) in counts {
        let (metadata, message) = (vec![1; a], vec![2; m]);
        let wrapped = here.wrap(&Plain { metadata: &metadata, message: &message }).unwrap();
        let arrival = Arrival { metadata: &metadata, cryptogram: &wrapped.cryptogram, tag: &wrapped.tag };
        let mut out = vec![0xAA; m + 1];
        assert_eq!((wrapped.count, there.unwrap_to(&arrival, &mut out)), (count, Ok(count)), "{a} and {m} bytes");
        assert!(out[..m] == message && out[m] == 0xAA);
    }
}

#[test]
fn stored_sessions_go_on() {
    let (mut here, mut there) = (start(), start());
    for i in 0..20_u8 {
        let message = vec![i; usize::from(i) * 7];
        let wrapped = here.wrap(&plain(&message)).unwrap();
        there = SaneSession::from_bytes(&there.to_bytes()).unwrap();
        assert_eq!(there.unwrap(&arrival(&wrapped)).unwrap().message, message);
        assert_eq!(*here.to_bytes(), *there.to_bytes());
        std::mem::swap(&mut here, &mut there);
    }
}

/// Whether two cryptograms of the same length were made with one keystream, so that their sum is that of the messages.
fn keystream_is_shared(messages: [&[u8]; 2], wrapped: [&Wrapped<SANE_TAG_LENGTH>; 2]) -> bool {
    let sum = |texts: [&[u8]; 2]| -> Vec<u8> { texts[0].iter().zip(texts[1]).map(|(a, b)| a ^ b).collect() };
    sum(messages) == sum([&wrapped[0].cryptogram, &wrapped[1].cryptogram])
}

/// Why a nonce must not repeat, why the ends do not seal at once, and why an old copy is not used again.
#[test]
fn a_state_that_is_used_twice() {
    let (one, two) = (&b"12001 to 12100 for the north"[..], &b"34501 to 34600 for the south"[..]);
    let sealed = |session: &mut SaneSession, message| session.wrap(&plain(message)).unwrap();
    let first = sealed(&mut start(), one);
    assert!(keystream_is_shared([one, two], [&first, &sealed(&mut start(), two)]), "one nonce");
    let mut other = SaneSession::start(KEY, b"42").unwrap().0;
    assert!(!keystream_is_shared([one, two], [&first, &sealed(&mut other, two)]), "another nonce");

    let (mut here, mut there) = (start(), start());
    let _ = there.unwrap(&arrival(&sealed(&mut here, one))).unwrap();
    let old = here.to_bytes();
    let (out, back) = (sealed(&mut here, one), sealed(&mut there, two));
    assert!(keystream_is_shared([one, two], [&out, &back]), "both ends at once");
    let again = sealed(&mut SaneSession::from_bytes(&old).unwrap(), two);
    assert!(keystream_is_shared([one, two], [&out, &again]), "an old copy");
    assert!(!keystream_is_shared([one, two], [&out, &sealed(&mut here, two)]), "the next message");
}

#[test]
fn stored_bytes_are_checked() {
    let bytes = start().to_bytes();
    assert_eq!(bytes.len(), SaneSession::BYTES);
    stored::are_checked(&bytes, SaneSession::from_bytes, |session| {
        (session.to_bytes().to_vec(), session.index(), session.toggle(), session.is_open())
    });
}

/// Sealing is writing the header, wrapping for it and writing the envelope; opening is reading and unwrapping; and the first check
/// that is met is the one that is named.
#[test]
fn envelopes_of_a_session() {
    let (mut here, mut there, mut by_hand) = (start(), start(), start());
    for (group, length) in [(7, 0), (0, 1), (16, 48), (31, TEXT_MAX)] {
        let message = vec![length as u8 ^ 0x55; length];
        let plain = Plain { metadata: b"size C", message: &message };
        let sealed = here.seal(group, &plain).unwrap();
        let header = format!("N,{group},6,{length},").into_bytes();
        let wrapped = by_hand.wrap_envelope(&header, &plain).unwrap();
        assert_eq!(sealed.envelope, [&header, &b"size C"[..], &wrapped.cryptogram, &wrapped.tag].concat());
        let followed = [&sealed.envelope[..], b"more"].concat();
        let opened = there.open(&followed).unwrap();
        assert_eq!((opened.group, opened.metadata, opened.count), (group, &b"size C"[..], wrapped.count));
        assert!(opened.message == message && opened.rest == b"more");
        let repeated = there.open(&followed).unwrap_err();
        assert_eq!(repeated, Refusal { number: Number::WrongTag, count: sealed.count });
    }
    let before = here.to_bytes();
    let mut closed = SaneSession::from_bytes(&[0; SaneSession::BYTES]).unwrap();
    let long = plain(&[0; TEXT_MAX + 1]);
    assert_eq!(closed.seal(32, &long).unwrap_err(), refused(Number::BadGroup));
    assert_eq!(closed.seal(31, &long).unwrap_err(), refused(Number::NotOpen));
    assert_eq!(here.seal(32, &long).unwrap_err(), refused(Number::BadGroup));
    assert_eq!(here.seal(0, &long).unwrap_err(), refused(Number::TooLong));
    assert_eq!(here.open(b"N,32,0,0,").unwrap_err(), refused(Number::BadHeader));
    assert_eq!(here.open(&[b"N,31,0,0,", &[0; 15][..]].concat()).unwrap_err(), refused(Number::TooFewBytes));
    assert_eq!(here.open(&[b"N,31,0,0,", &[0; 16][..]].concat()).unwrap_err().number, Number::WrongTag);
    assert_eq!(*here.to_bytes(), *before, "refusals leave the session");
}

/// An envelope of the other mode gets 1, also at a session with the same key, and alters nothing.
#[test]
fn envelopes_of_the_other_mode() {
    let (mut sane, mut sanse) = (start(), Session::start(KEY).unwrap().0);
    let mut office = Table::new();
    office.start_day(1_000);
    office.open_group(7, KEY).unwrap();
    let block = Plain { metadata: b"size C", message: b"12001-12100" };
    let (n, s) = (sane.seal(7, &block).unwrap().envelope, sanse.seal(7, &block).unwrap().envelope);
    let before = (sane.to_bytes(), sanse.to_bytes(), office.to_bytes());
    assert_eq!(sane.open(&s).unwrap_err(), refused(Number::BadHeader));
    assert_eq!(sanse.open(&n).unwrap_err(), refused(Number::BadHeader));
    assert_eq!(office.open(&n).unwrap_err(), refused(Number::BadHeader));
    assert_eq!((&*sane.to_bytes(), &*sanse.to_bytes()), (&*before.0, &*before.1));
    assert_eq!(*office.to_bytes(), *before.2, "neither a session nor a count");
    // Also at one that is not open: the header is looked at first.
    assert_eq!(SaneSession::from_bytes(&[0; 102]).unwrap().open(&s).unwrap_err(), refused(Number::BadHeader));
    assert_eq!(Session::from_bytes(&[0; 102]).unwrap().open(&n).unwrap_err(), refused(Number::BadHeader));
    let other = sane.seal(8, &block).unwrap().envelope;
    assert_eq!(office.open(&other).unwrap_err(), refused(Number::BadHeader));
    // The letters swapped, with a tag of the length that goes with each: taken for what it is, and refused.
    let as_s = [b"S", &n[1..], &[0; 16]].concat();
    assert_eq!(sanse.open(&as_s).unwrap_err().number, Number::WrongTag);
    let as_n = [b"N", &s[1..s.len() - 16]].concat();
    assert_eq!(sane.open(&as_n).unwrap_err().number, Number::WrongTag);
}

/// Two groups with one key and one nonce, and an envelope whose group digit was altered on the way; and one that was sealed as
/// versions before 0.8 did, without the header under the tag.
#[test]
fn envelopes_with_another_header() {
    let (mut here, mut there) = (start(), start());
    let block = Plain { metadata: b"size C", message: b"12001-12100" };
    let sealed = here.seal(8, &block).unwrap();
    let mut readdressed = sealed.envelope.clone();
    readdressed[2] = b'9';
    let wrong = Refusal { number: Number::WrongTag, count: sealed.count };
    assert_eq!(there.open(&readdressed).unwrap_err(), wrong);
    assert_eq!(there.unwrap_envelope(&envelope::read(&readdressed).unwrap()).unwrap_err(), wrong);
    assert_eq!(there.open(&sealed.envelope).unwrap().message, block.message);

    for header in [&b""[..], b"N,7,6,12,", b"S,7,6,11,", b"N,7,6,11,,"] {
        assert_eq!(here.wrap_envelope(header, &block).unwrap_err(), refused(Number::BadHeader));
    }
    let (mut out, mut tag) = ([0xAA; 12], [0xBB; SANE_TAG_LENGTH]);
    let answer = here.wrap_envelope_to(b"N,7,6,11,", &block, &mut out[..10], &mut tag);
    assert_eq!((answer, out, tag), (Err(refused(Number::NoRoom)), [0xAA; 12], [0xBB; SANE_TAG_LENGTH]));
    let old = here.wrap(&block).unwrap();
    let bytes = envelope::write(Letter::N, 7, b"size C", &old.cryptogram, &old.tag).unwrap();
    let arrived = envelope::read(&bytes).unwrap();
    assert_eq!(there.unwrap_envelope_to(&arrived, &mut out).unwrap_err().number, Number::WrongTag);
    assert_eq!(there.unwrap(&arrived.arrival().unwrap()).unwrap().message, block.message);
}

#[test]
fn secrets_are_not_shown() {
    let (session, _, _) = SaneSession::start(KEY, NONCE).unwrap();
    assert_eq!(format!("{session:?}"), "SaneSession { open: true, index: 2, toggle: false, .. }");
    assert_eq!(format!("{:?}", session.to_bytes()), "Secret(102 bytes)");
}

/// The library has no globals, so sessions go from thread to thread; one call at a time is what `&mut` says.
#[test]
fn sessions_go_to_other_threads() {
    fn checked<T: Send + Sync>() {}
    checked::<SaneSession>();
}
