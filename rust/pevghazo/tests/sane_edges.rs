//! Starts, counts and refusals of SANE at their edges, through the C library and beside the independent implementation.

mod common;

use common::edges::{self, Lengths};
use common::{Held, SaneBoth, any_session, copy, key, same};
use pevghazo::raw::{Answer, SaneRecord};
use pevghazo_reference::random::Random;
use pevghazo_reference::session::{SaneSession, growth};

#[test]
fn starts_at_the_edges() {
    edges::starts::<SaneRecord>();
}

/// Messages of these lengths at both ends, after nonces of these lengths, with the counts of document 02.
#[test]
fn counts_at_the_edges() {
    let mut random = Random::new(1);
    for nonce in [0, 47, 48, 16_384] {
        let (key, nonce) = (key(&mut random), random.bytes(nonce));
        let [mut here, mut there] = [(); 2].map(|()| SaneBoth::started(&mut random, &key, &nonce));
        for (a, m, count) in edges::COUNTS {
            let (metadata, message, index) = (random.bytes(a), random.bytes(m), here.library.index);
            let (mut out, mut tag, mut back) = (random.bytes(m), [0; 16], random.bytes(m));
            assert_eq!(
                here.wrap_for(None, &metadata, &message, &mut out, &mut tag),
                Answer { number: 0, count },
                "{a} {m}"
            );
            assert_eq!(
                there.unwrap_for(None, &metadata, &out, &tag, &mut back),
                Answer { number: 0, count },
                "{a} {m}"
            );
            assert!(back == message && same(&here.library, &there.library), "{a} {m}");
            assert_eq!(here.library.index, index + growth(a, m), "{a} {m}");
        }
    }
}

/// A wrap and an unwrap with these lengths that meet this number: count 0, and nothing is altered.
fn refused(random: &mut Random, session: &SaneSession, (a, m, tag, room): Lengths, number: u32) {
    let mut both = SaneBoth::of(session.clone());
    let (metadata, text) = (random.bytes(a), random.bytes(m));
    let before = (random.bytes(room), random.bytes(tag));
    let (mut out, mut tag) = before.clone();
    let expected = Answer { number, count: 0 };
    assert_eq!(both.wrap_for(None, &metadata, &text, &mut out, &mut tag), expected);
    assert_eq!(both.unwrap_for(None, &metadata, &text, &tag, &mut out), expected);
    assert!((out, tag) == before, "number {number} has altered a buffer");
    assert!(both.library.reference() == *session, "number {number} has altered the record");
}

/// A wrap and an unwrap with these lengths that are accepted, and with a wrong tag in between: 11 with the count of an accepted
/// call, zeros for the message, and the record and the buffer's other bytes kept.
fn accepted(random: &mut Random, session: &SaneSession, (a, m, tag, room): Lengths, count: u32) {
    let (mut here, mut there) = (SaneBoth::of(session.clone()), SaneBoth::of(session.clone()));
    let (metadata, message) = (random.bytes(a), random.bytes(m));
    let (mut out, mut tag, before) = (random.bytes(room), random.bytes(tag), random.bytes(room));
    assert_eq!(here.wrap_for(None, &metadata, &message, &mut out, &mut tag), Answer { number: 0, count });
    for place in 0..tag.len() {
        let mut back = before.clone();
        let mut wrong = tag.clone();
        wrong[place] ^= 1 << random.below(8);
        assert_eq!(there.unwrap_for(None, &metadata, &out[..m], &wrong, &mut back), Answer { number: 11, count });
        assert!(back == [&vec![0; m][..], &before[m..]].concat() && there.library.reference() == *session);
    }
    let mut back = before.clone();
    assert_eq!(there.unwrap_for(None, &metadata, &out[..m], &tag, &mut back), Answer { number: 0, count });
    assert!(back == [&message[..], &before[m..]].concat() && same(&here.library, &there.library));
}

#[test]
fn every_refusal() {
    edges::every_refusal::<SaneRecord>(|random, session, lengths, number| match number {
        0 => accepted(random, session, lengths, 8),
        _ => refused(random, session, lengths, number),
    });
}

/// A record that was closed stays as it is, whatever it holds.
#[test]
fn closed_records() {
    let mut random = Random::new(1);
    for session in [SaneSession::CLOSED, SaneSession { open: false, ..any_session(&mut random) }] {
        let mut both = SaneBoth::of(session);
        let before = copy(&both.library);
        assert_eq!(both.wrap_for(None, &[], &[], &mut [], &mut []), Answer { number: 5, count: 0 });
        assert_eq!(both.unwrap_for(None, &[], &[], &[], &mut []), Answer { number: 5, count: 0 });
        assert!(same(&both.library, &before));
    }
}
