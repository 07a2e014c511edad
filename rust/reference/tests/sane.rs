//! Sessions of SANE: the record against the ledger, on random inputs and at the edges of nonces, counts and messages.

mod ends;

use ends::{
    End, both_ends, check_headers_first, check_index_limit, check_ledger_limit, check_refusals, key, message, no_deck,
    random_sessions, random_sessions_on_bits, text,
};
use pevghazo_reference::deck::{pad, xoofff};
use pevghazo_reference::ledger::{DeckFunction, SaneLedger};
use pevghazo_reference::limits::LENGTH_MAX;
use pevghazo_reference::random::Random;
use pevghazo_reference::refusal::{Number, Refusal};
use pevghazo_reference::sane::{NONCE_FRAME, Sane, count, cryptogram_frame, start_count};
use pevghazo_reference::session::{SaneSession, growth, metadata_frame};

/// Both ends of a session under one key and nonce, whose starts give one tag.
fn started(key: &[u8], nonce: &[u8], deck: DeckFunction) -> [End<Sane>; 2] {
    both_ends(|tag| End::<Sane>::start(key, nonce, tag, deck))
}

/// Plays one random session between two ends.
fn play(random: &mut Random, messages: usize, longest: usize, deck: DeckFunction) {
    let (key, nonce) = (key(random), text(random, longest));
    let mut ends = started(&key, &nonce, deck);
    for _ in 0..messages {
        message(random, &mut ends, longest);
    }
}

#[test]
fn random_sessions_against_the_ledger() {
    random_sessions(7, play);
}

#[test]
fn random_sessions_against_the_ledger_on_bits() {
    random_sessions_on_bits(8, play);
}

/// Counts and closing bytes, by hand from document 02 and the cookbook's frame bits.
#[test]
fn table_of_edges() {
    assert_eq!([count(0, 0), count(0, 1), count(20, 48), count(16_384, 16_384)], [3, 5, 8, 1_029]);
    assert_eq!([count(0, 32), count(0, 33), count(0, 80), count(0, 81)], [5, 6, 7, 8]);
    assert_eq!([growth(0, 0), growth(0, 1), growth(20, 48), growth(16_384, 16_384)], [2, 2, 5, 686]);
    assert_eq!([0, 47, 48, 16_384].map(start_count), [4, 4, 5, 345]);
    for length in [0, 1, 46, 47, 48, 100] {
        let after = |frame: &[bool]| pad(&vec![0xFF; length], frame)[length];
        assert_eq!(after(&NONCE_FRAME), 1);
        assert_eq!([after(&metadata_frame(false)), after(&metadata_frame(true))], [4, 6]);
        assert_eq!([after(&cryptogram_frame(false)), after(&cryptogram_frame(true))], [5, 7]);
    }
}

#[test]
fn messages_and_nonces_at_the_edges() {
    let mut random = Random::new(9);
    for (nonce, index) in [(0, 2), (47, 2), (48, 3), (16_384, 343)] {
        let nonce = random.bytes(nonce);
        let mut ends = started(&[5; 47], &nonce, xoofff);
        assert_eq!((ends[0].session.index, ends[0].session.toggle, ends[0].session.open), (index, false, true));
        for a in [0, 20, 16_384] {
            for m in [0, 1, 31, 32, 33, 47, 48, 49, 16_384] {
                let (metadata, message) = (random.bytes(a), random.bytes(m));
                let (mut cryptogram, mut tag, mut back) = (random.bytes(m), [0; 16], random.bytes(m));
                assert_eq!(ends[0].wrap(&metadata, &message, &mut cryptogram, &mut tag), Ok(count(a, m)));
                assert_eq!(ends[1].unwrap(&metadata, &cryptogram, &tag, &mut back), Ok(count(a, m)));
                assert_eq!(back, message);
            }
        }
        assert_eq!(ends[0].session, ends[1].session);
    }
}

#[test]
fn starts_are_refused_in_their_order() {
    let long = vec![0; LENGTH_MAX + 1];
    let number = |key: &[u8], nonce: &[u8], tag: &mut [u8]| End::<Sane>::start(key, nonce, tag, xoofff).err();
    for length in [0, 15, 48] {
        assert_eq!(number(&vec![1; length], &long, &mut [7; 15]), Some(Number::Key));
        assert_eq!(number(&vec![1; length], &[], &mut [7; 16]), Some(Number::Key));
    }
    for length in [16, 47] {
        assert_eq!(number(&vec![1; length], &long, &mut [7; 15]), Some(Number::TooLong));
        assert_eq!(number(&vec![1; length], &long, &mut [7; 16]), Some(Number::TooLong));
        for tag in [0, 15, 17, 32] {
            assert_eq!(number(&vec![1; length], &long[1..], &mut vec![7; tag]), Some(Number::TagLength));
        }
        assert_eq!(number(&vec![1; length], &long[1..], &mut [7; 16]), None);
        assert_eq!(number(&vec![1; length], &[], &mut [7; 16]), None);
    }
}

#[test]
fn refusals_come_in_their_order() {
    let start = || End::<Sane>::start(&[9; 16], b"nonce", &mut [0; 16], xoofff).unwrap().0;
    check_refusals(&mut start());
    check_headers_first(&mut start());
}

#[test]
fn index_stops_at_its_limit() {
    check_index_limit(&SaneSession::start(&[1; 47], &[], &mut [0; 16]).unwrap().0);
    check_ledger_limit(&SaneLedger::start(&[1; 47], &[], &mut [0; 16], no_deck).unwrap().0);
}

/// What the toggle is for (cookbook, section 4.1): metadata in one message and text in the next do not pass for one message.
#[test]
fn two_messages_are_not_one() {
    let [mut from, mut to] = started(&[9; 16], b"1", xoofff);
    let (mut cryptogram, mut tag) = ([0; 11], [0; 16]);
    from.wrap(b"size C", b"", &mut [], &mut tag).unwrap();
    from.wrap(b"", b"12001-12100", &mut cryptogram, &mut tag).unwrap();
    let wrong = Err(Refusal { number: Number::Tag, count: count(6, 11) });
    assert_eq!(to.unwrap(b"size C", &cryptogram, &tag, &mut [0; 11]), wrong);
}
