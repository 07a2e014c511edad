//! Starts, counts and refusals of old letters at their edges, through the C library and beside the independent implementation; wraps,
//! which are refused whatever they are handed; what the scheme does not tell apart; and that letters are no messages of SANE.

mod common;

use common::edges::{self, Lengths};
use common::letters::{answered, next, next_in_sane, refuse};
use common::{Arrival, Held, SaeBoth, SaneBoth, any_session, copy, key, record_of, same};
use pevghazo::raw::{self, Answer, SaeRecord};
use pevghazo_reference::random::Random;
use pevghazo_reference::session::{SaeSession, growth};

#[test]
fn starts_at_the_edges() {
    edges::starts::<SaeRecord>();
}

/// A letter is accepted, and its message comes back.
fn opens(end: &mut SaeBoth, letter: &Arrival) {
    let mut out = vec![0; letter.message.len()];
    let answer = end.unwrap(&letter.metadata, &letter.cryptogram, &letter.tag, &mut out);
    assert_eq!((answer, out), (answered(0, letter), letter.message.clone()));
}

/// Letters of these lengths, after nonces of these lengths, with the counts of document 02.
#[test]
fn counts_at_the_edges() {
    let mut random = Random::new(1);
    for nonce in [0, 47, 48, 16_384] {
        let (key, nonce) = (key(&mut random), random.bytes(nonce));
        let mut end = SaeBoth::started(&mut random, &key, &nonce);
        let mut sender = end.reference.clone();
        for (a, m, count) in edges::COUNTS {
            let (letter, index) = (next(&mut sender, &random.bytes(a), &random.bytes(m)), end.library.index);
            let mut out = vec![0; m];
            let answer = end.unwrap(&letter.metadata, &letter.cryptogram, &letter.tag, &mut out);
            assert_eq!((answer, out), (Answer { number: 0, count }, letter.message), "{a} {m}");
            assert_eq!((end.library.index, end.library.toggle), (index + growth(a, m), false), "{a} {m}");
        }
    }
}

/// An unwrap with these lengths that meets this number: count 0, and nothing is altered.
fn refused(random: &mut Random, session: &SaeSession, (a, m, tag, room): Lengths, number: u32) {
    let mut both = SaeBoth::of(session.clone());
    let (metadata, text, tag, before) = (random.bytes(a), random.bytes(m), random.bytes(tag), random.bytes(room));
    let mut out = before.clone();
    assert_eq!(both.unwrap(&metadata, &text, &tag, &mut out), Answer { number, count: 0 });
    assert!(out == before, "number {number} has altered the buffer");
    assert!(both.library.reference() == *session, "number {number} has altered the record");
}

/// An unwrap with these lengths that is accepted, with each byte of the tag wrong in turn before it: 11 with the count of an accepted
/// call, zeros for the message, and the record and the buffer's other bytes kept.
fn accepted(random: &mut Random, session: &SaeSession, (a, m, _, room): Lengths, count: u32) {
    let (mut sender, mut both) = (session.clone(), SaeBoth::of(session.clone()));
    let letter = next(&mut sender, &random.bytes(a), &random.bytes(m));
    let before = random.bytes(room);
    for place in 0..16 {
        let (mut back, mut wrong) = (before.clone(), letter.tag.clone());
        wrong[place] ^= 1 << random.below(8);
        let answer = both.unwrap(&letter.metadata, &letter.cryptogram, &wrong, &mut back);
        assert_eq!(answer, Answer { number: 11, count });
        assert!(back == [&vec![0; m][..], &before[m..]].concat() && both.library.reference() == *session);
    }
    let mut back = before.clone();
    let answer = both.unwrap(&letter.metadata, &letter.cryptogram, &letter.tag, &mut back);
    assert_eq!(answer, Answer { number: 0, count });
    assert!(back == [&letter.message[..], &before[m..]].concat() && both.library.reference() == sender);
}

#[test]
fn every_refusal() {
    edges::every_refusal::<SaeRecord>(|random, session, lengths, number| match number {
        0 => accepted(random, session, lengths, 8),
        _ => refused(random, session, lengths, number),
    });
}

/// A wrap gets 18 wherever an unwrap would meet 5 to 9, or none: of open and closed records, and with all these lengths.
#[test]
fn wraps_before_every_other_check() {
    edges::every_refusal::<SaeRecord>(|random, session, (a, m, tag, room), _| {
        let (metadata, message) = (random.bytes(a), random.bytes(m));
        let before = (random.bytes(room), random.bytes(tag));
        let (mut out, mut tag) = before.clone();
        let mut both = SaeBoth::of(session.clone());
        assert_eq!(both.wrap(&metadata, &message, &mut out, &mut tag), Answer { number: 18, count: 0 });
        assert!((out, tag) == before && both.library.reference() == *session);
    });
}

/// The same of a started session, of zeros, of a record of any numbers, and of any bytes where both flags are set; with nothing, and with
/// texts far beyond the limits.
#[test]
fn wraps_of_any_record() {
    let mut random = Random::new(2);
    let started = SaeBoth::started(&mut random, &[9; 47], b"1").reference;
    let any = SaeSession { toggle: true, open: true, index: u32::MAX, ..any_session(&mut random) };
    let text = random.bytes(1 << 20);
    for session in [started, SaeSession::CLOSED, SaeSession { open: false, ..any.clone() }, any] {
        for (a, m, room, tag) in [
            (0, 0, 0, 0),
            (0, 0, 0, 16),
            (6, 11, 11, 16),
            (1 << 20, 1 << 20, 1 << 20, 16),
            (16_384, 16_384, 16_383, 32),
            (1 << 20, 0, 0, 1 << 16),
        ] {
            let (mut record, mut out, mut tag) = (record_of::<SaeRecord>(&session), vec![0xA5; room], vec![0x5A; tag]);
            let answer = raw::sae_wrap(&mut record, &text[..a], &text[..m], &mut out, &mut tag);
            assert_eq!(answer, Answer { number: 18, count: 0 }, "{a} {m} {room}");
            assert!(record.reference() == session && out.iter().all(|byte| *byte == 0xA5));
            assert!(tag.iter().all(|byte| *byte == 0x5A));
        }
    }
}

/// A record that was closed stays as it is, whatever it holds.
#[test]
fn closed_records() {
    let mut random = Random::new(1);
    for session in [SaeSession::CLOSED, SaeSession { open: false, ..any_session(&mut random) }] {
        let mut both = SaeBoth::of(session);
        let before = copy(&both.library);
        assert_eq!(both.unwrap(&[], &[], &[], &mut []), Answer { number: 5, count: 0 });
        assert_eq!(both.unwrap(&[1; 16_385], &[2; 20], &[3; 15], &mut [0; 19]), Answer { number: 5, count: 0 });
        assert!(same(&both.library, &before));
    }
}

/// What the scheme does not tell apart, and is kept: a letter (A, C), and the letters (A, empty) and (empty, C), leave one session.
#[test]
fn one_letter_and_two_leave_one_session() {
    let mut random = Random::new(3);
    for (a, m) in [(1, 1), (6, 11), (47, 48), (48, 47), (16_384, 16_384)] {
        let end = SaeBoth::started(&mut random, &[9; 47], b"1");
        let (mut sender, metadata) = (end.reference.clone(), random.bytes(a));
        let [one, first, second] = {
            let one = next(&mut end.reference.clone(), &metadata, &random.bytes(m));
            let first = next(&mut sender, &metadata, &[]);
            // The same cryptogram: its message is the sum of the two keystreams and the first one's.
            let mut keystream = vec![0; m];
            sender.clone().trial_wrap(&[], &vec![0; m], &mut keystream, &mut [0; 16]).unwrap();
            let message: Vec<u8> = keystream.iter().zip(&one.cryptogram).map(|(a, b)| a ^ b).collect();
            [one, first, next(&mut sender, &[], &message)]
        };
        assert_eq!((&one.cryptogram, &one.tag), (&second.cryptogram, &second.tag));
        let [mut by_one, mut by_two] = [(); 2].map(|()| SaeBoth::of(end.reference.clone()));
        opens(&mut by_one, &one);
        opens(&mut by_two, &first);
        opens(&mut by_two, &second);
        assert!(same(&by_one.library, &by_two.library), "{a} and {m} bytes");
        // Both go on with one and the same letter.
        let third = next(&mut sender, b"size C", b"12001");
        opens(&mut by_one, &third);
        opens(&mut by_two, &third);
        assert_ne!(one.message, second.message, "put together to one letter, the two give another message");
    }
}

/// In SANE that is not so: there the toggle tells one message from two.
#[test]
fn one_message_of_sane_is_not_two() {
    let mut random = Random::new(3);
    let mut end = SaneBoth::started(&mut random, &[9; 47], b"1");
    let mut sender = end.reference.clone();
    next_in_sane(&mut sender, b"size C", b"");
    let second = next_in_sane(&mut sender, b"", b"12001");
    let answer = end.unwrap_for(None, b"size C", &second.cryptogram, &second.tag, &mut [0; 5]);
    assert_eq!(answer.number, 11);
}

/// Under one key and one nonce the two starts leave the same lanes and tags. No letter opens as a message of SANE, and no message of
/// SANE as a letter, whichever texts are empty; the sessions stay as they were, and each then opens its own.
#[test]
fn letters_are_no_messages_of_sane() {
    let mut random = Random::new(4);
    for (a, m) in [(0, 0), (6, 0), (0, 11), (6, 11), (48, 48), (16_384, 16_384)] {
        let (key, nonce) = (key(&mut random), random.bytes(9));
        let mut tags = [[0; 16], [1; 16]];
        let (mut old, started) = SaeBoth::start(&mut random, &key, &nonce, &mut tags[0]);
        let (mut sane, started_too) = SaneBoth::start(&mut random, &key, &nonce, &mut tags[1]);
        assert_eq!((started, tags[0]), (started_too, tags[1]), "the starts are those of one algorithm");
        assert_eq!((old.library.acc, old.library.mask), (sane.library.acc, sane.library.mask));
        let (mut old_sender, mut sane_sender) = (old.reference.clone(), sane.reference.clone());
        for _ in 0..3 {
            let (metadata, message) = (random.bytes(a), random.bytes(m));
            let letter = next(&mut old_sender, &metadata, &message);
            let of_sane = next_in_sane(&mut sane_sender, &metadata, &message);
            refuse(&mut random, &mut old, &of_sane);
            let (before, mut out) = (copy(&sane.library), vec![0xA5; m]);
            let answer = sane.unwrap_for(None, &letter.metadata, &letter.cryptogram, &letter.tag, &mut out);
            assert_eq!((answer, out), (answered(11, &letter), vec![0; m]), "a letter opens in SANE");
            assert!(same(&sane.library, &before));
            opens(&mut old, &letter);
            let answer = sane.unwrap_for(None, &of_sane.metadata, &of_sane.cryptogram, &of_sane.tag, &mut vec![0; m]);
            assert_eq!(answer, answered(0, &of_sane));
        }
    }
}
