//! Sessions of SANSE: the record against the ledger, on random inputs and at the edges; and the codes for packets.

mod ends;

use ends::{
    End, check_headers_first, check_index_limit, check_ledger_limit, check_refusals, key, message, no_deck,
    random_sessions, random_sessions_on_bits,
};
use pevghazo_reference::codes::{CODE, PACKET_MAX};
use pevghazo_reference::deck::xoofff;
use pevghazo_reference::ledger::{DeckFunction, Ledger};
use pevghazo_reference::random::Random;
use pevghazo_reference::refusal::{Number, Refusal};
use pevghazo_reference::sanse::Sanse;
use pevghazo_reference::session::Session;

/// A packet's code at both ends, which must be the same.
fn code_at_both(random: &mut Random, ends: &[End<Sanse>; 2], highest: u32) {
    let packet = random.below(highest as usize + 1) as u32;
    let codes = ends.each_ref().map(|end| {
        let mut out = [0xA5; CODE + 3];
        assert_eq!(end.code(packet, &mut out), Ok(2));
        out
    });
    assert_eq!(codes[0], codes[1]);
}

/// Plays one random session between two ends, with codes of packets in between.
fn play(random: &mut Random, messages: usize, longest: usize, highest: u32, deck: DeckFunction) {
    let key = key(random);
    let mut ends = [End::<Sanse>::start(&key, deck), End::<Sanse>::start(&key, deck)];
    for _ in 0..messages {
        message(random, &mut ends, longest);
        code_at_both(random, &ends, highest);
    }
}

#[test]
fn random_sessions_against_the_ledger() {
    random_sessions(5, |random, messages, longest, deck| play(random, messages, longest, PACKET_MAX, deck));
}

#[test]
fn random_sessions_against_the_ledger_on_bits() {
    random_sessions_on_bits(6, |random, messages, longest, deck| play(random, messages, longest, 20, deck));
}

#[test]
fn refusals_come_in_their_order() {
    check_refusals(&mut End::<Sanse>::start(&[9; 16], xoofff));
    check_headers_first(&mut End::<Sanse>::start(&[9; 16], xoofff));
    for length in [0, 1, 15, 48, 100] {
        assert_eq!(Session::start(&vec![0; length]), Err(Number::Key));
        assert_eq!(Ledger::start(&vec![0; length], xoofff).unwrap_err(), Number::Key);
    }
    for length in 16..=47 {
        assert!(Session::start(&vec![0; length]).is_ok());
    }
}

#[test]
fn refusals_of_codes_come_in_their_order() {
    let mut end = End::<Sanse>::start(&[9; 16], xoofff);
    let refused = |number: Number| Err(Refusal { number, count: 0 });
    assert_eq!(end.code(0, &mut [0; 7]), refused(Number::NoCode));
    end.wrap(&[], &[], &mut [], &mut [0; 32]).unwrap();
    assert_eq!(end.code(PACKET_MAX + 1, &mut [0; 7]), refused(Number::NoCode));
    assert_eq!(end.code(u32::MAX, &mut [0; 8]), refused(Number::NoCode));
    assert_eq!(end.code(PACKET_MAX, &mut [0; 7]), refused(Number::Buffer));
    assert_eq!(end.code(PACKET_MAX, &mut [0; 8]), Ok(2));
    let closed = Session { open: false, ..end.session };
    assert_eq!(closed.code(5_000, &mut [0; 7]), refused(Number::Closed));
}

/// The output of a history is the newest message's tag and then all codes.
#[test]
fn codes_follow_the_tag() {
    let mut end = End::<Sanse>::start(&[9; 16], xoofff);
    for message in [&b""[..], b"12001-12100"] {
        let (mut cryptogram, mut tag) = (vec![0; message.len()], [0; 32]);
        end.wrap(b"size C", message, &mut cryptogram, &mut tag).unwrap();
        let mut stream = tag.to_vec();
        for packet in 0..=PACKET_MAX {
            let mut code = [0; CODE];
            assert_eq!(end.code(packet, &mut code), Ok(2));
            stream.extend(code);
        }
        assert_eq!(stream, xoofff(&end.ledger.key, &end.ledger.history, 0, 32 + 8 * 2_048));
    }
}

#[test]
fn index_stops_at_its_limit() {
    check_index_limit(&Session::start(&[1; 47]).unwrap());
    check_ledger_limit(&Ledger::start(&[1; 47], no_deck).unwrap());
}
