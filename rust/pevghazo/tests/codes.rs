//! Codes for packets through the C library, beside the independent implementation: in lists of calls at both ends, where they
//! equal the output of the full history and change nothing that a later call gives; of any record; and at the edges. The calls
//! between are without an envelope and for one.

mod common;

use common::headers::all_were_there;
use common::play::{self, Tally};
use common::{
    Arrival, Both, By, Library, PACKETS, answer_of, any_session, cases, copy, is_whole_run, key, least_times,
    maybe_long, other_length, packet, record_of, same, text,
};
use pevghazo::raw::{self, Answer, Record};
use pevghazo_reference::deck::xoofff;
use pevghazo_reference::ledger::Ledger;
use pevghazo_reference::random::Random;
use pevghazo_reference::session::{Header, Session};

/// One end of a session, to which each call is made four times: by the library and the reference, with codes asked for in
/// between; by the library on a record of which no code is asked, which goes on by the other one of the call's two functions; and
/// on the key and the full history.
struct End {
    asked: Both,
    unasked: Record,
    ledger: Ledger,
}

impl End {
    fn start(random: &mut Random, key: &[u8]) -> End {
        let asked = Both::start(random, key).0;
        let unasked = copy(&asked.library);
        End { asked, unasked, ledger: Ledger::start(key, xoofff).unwrap() }
    }

    fn wrap(&mut self, header: Header<'_>, metadata: &[u8], message: &[u8], out: &mut [u8], tag: &mut [u8]) -> Answer {
        let mut outs = [out.to_vec(), out.to_vec()];
        let mut tags = [tag.to_vec(), tag.to_vec()];
        let by = self.asked.by.other();
        let answer = self.asked.wrap_for(header, metadata, message, out, tag);
        assert_eq!(self.unasked.wrap_for(by, header, metadata, message, &mut outs[0], &mut tags[0]), answer);
        assert_eq!(answer_of(self.ledger.wrap_for(header, metadata, message, &mut outs[1], &mut tags[1])), answer);
        assert!(outs.iter().all(|other| other == out) && tags.iter().all(|other| other == tag), "the buffers differ");
        self.check();
        answer
    }

    fn unwrap(&mut self, arrival: &Arrival, out: &mut [u8]) -> Answer {
        let Arrival { header, metadata, cryptogram, tag, .. } = arrival;
        let header = header.as_deref();
        let mut outs = [out.to_vec(), out.to_vec()];
        let by = self.asked.by.other();
        let answer = self.asked.unwrap_for(header, metadata, cryptogram, tag, out);
        assert_eq!(self.unasked.unwrap_for(by, header, metadata, cryptogram, tag, &mut outs[0]), answer);
        assert_eq!(answer_of(self.ledger.unwrap_for(header, metadata, cryptogram, tag, &mut outs[1])), answer);
        assert!(outs.iter().all(|other| other == out), "the buffers differ");
        self.check();
        answer
    }

    /// The record of which codes were asked is the one of which none were, and the one that the history gives.
    fn check(&self) {
        assert!(same(&self.asked.library, &self.unasked), "codes have altered the session");
        assert!(same(&self.asked.library, &record_of(&self.ledger.record())), "the history gives another record");
    }

    /// A packet's code, which is the one of the full history.
    fn code(&self, packet: u32, out: &mut [u8]) -> Answer {
        let mut by_history = out.to_vec();
        let answer = self.asked.code(packet, out);
        assert_eq!(answer_of(self.ledger.code(packet, &mut by_history)), answer);
        assert!(out == by_history, "the history gives another code");
        answer
    }
}

/// Asks for some codes at both ends. They are the same exactly where the ends' sessions are.
fn ask(random: &mut Random, ends: &[End; 2], codes: &mut [u64; 13]) {
    for _ in 0..1 + random.below(2) {
        let (packet, room) = (packet(random), other_length(random, 8, 4));
        let before = random.bytes(room);
        let given = ends.each_ref().map(|end| {
            let mut out = before.clone();
            let answer = end.code(packet, &mut out);
            codes[answer.number as usize] += 1;
            (answer, out)
        });
        let [here, there] = ends.each_ref().map(|end| &end.asked.library);
        if same(here, there) {
            assert_eq!(given[0], given[1], "the ends are level");
        } else if given.iter().all(|(answer, _)| answer.number == 0) {
            assert_ne!(given[0].1, given[1].1, "one end has accepted another message");
        }
    }
}

/// Wraps some message at an end, with a header or lengths that are refused now and then, and gives what travels.
fn wrap(random: &mut Random, end: &mut End, tally: &mut Tally) -> Option<Arrival> {
    let (metadata, message) = (text(random), text(random));
    let (metadata, message) = (maybe_long(random, &metadata, 30), maybe_long(random, &message, 30));
    let envelope = play::any_envelope(random);
    let header = play::any_header::<Record>(random, envelope, &metadata, &message, &mut tally.ways);
    let (room, tag_length) = (other_length(random, message.len(), 8), other_length(random, 32, 12));
    let (mut out, mut tag) = (random.bytes(room), random.bytes(tag_length));
    end.asked.by = By::any(random);
    let answer = end.wrap(header.as_deref(), &metadata, &message, &mut out, &mut tag);
    out.truncate(message.len());
    let accepted = tally.take(header.as_deref(), answer);
    accepted.then_some(Arrival { header, metadata, cryptogram: out, tag, message })
}

/// Hands an arrival to an end, now and then damaged or with a buffer of another length, and gives whether it was accepted.
fn unwrap(random: &mut Random, end: &mut End, arrival: &Arrival, tally: &mut Tally) -> bool {
    let is_damaged = random.once_in(3);
    let handed = if is_damaged { arrival.damaged(random, b'S', &mut tally.ways) } else { arrival.clone() };
    let room = other_length(random, handed.cryptogram.len(), 8);
    let mut out = random.bytes(room);
    end.asked.by = By::any(random);
    let answer = end.unwrap(&handed, &mut out);
    tally.take(handed.header.as_deref(), answer)
}

#[test]
fn lists_with_and_without_codes() {
    let (mut wraps, mut unwraps, mut codes) = (Tally::default(), Tally::default(), [0; 13]);
    cases("lists_with_and_without_codes", |random| {
        let key = key(random);
        let mut ends = [End::start(random, &key), End::start(random, &key)];
        // What travels, and the end that it is meant for.
        let mut travels: Option<(Arrival, usize)> = None;
        for _ in 0..1 + random.below(6) {
            ask(random, &ends, &mut codes);
            match travels.take() {
                Some((arrival, to)) if !random.once_in(5) => {
                    let end = if random.once_in(6) { 1 - to } else { to };
                    if !unwrap(random, &mut ends[end], &arrival, &mut unwraps) {
                        travels = Some((arrival, to));
                    }
                }
                _ => {
                    let from = random.below(2);
                    travels = wrap(random, &mut ends[from], &mut wraps).map(|arrival| (arrival, 1 - from));
                }
            }
            ask(random, &ends, &mut codes);
        }
    });
    if is_whole_run() {
        assert!(
            [0, 1, 6, 7, 8].iter().all(|number| wraps.numbers[*number] > least_times()),
            "wraps: {:?}",
            wraps.numbers
        );
        assert!(
            [0, 1, 8, 11].iter().all(|number| unwraps.numbers[*number] > least_times()),
            "unwraps: {:?}",
            unwraps.numbers
        );
        assert!(unwraps.accepted.iter().all(|sort| *sort > 10 * least_times()), "{:?}", unwraps.accepted);
        all_were_there(&unwraps.ways, least_times() / 5);
        assert!([0, 8, 12].iter().all(|number| codes[*number] > 1_000), "codes: {codes:?}");
    }
}

#[test]
fn codes_of_any_record() {
    let mut numbers = [0; 13];
    cases("codes_of_any_record", |random| {
        let session = any_session(random);
        let index = match random.below(6) {
            0 => 0,
            1 => 1,
            2 => u32::MAX,
            _ => session.index,
        };
        let answer = Both::of(Session { index, ..session }).any_code(random);
        numbers[answer.number as usize] += 1;
    });
    if is_whole_run() {
        assert!([0, 5, 8, 12].iter().all(|number| numbers[*number] > 100), "{numbers:?}");
    }
}

/// Number 5 before 12 before 8. The buffer's first 8 bytes are written where none is met, and no other byte.
#[test]
fn every_edge() {
    let mut random = Random::new(1);
    for index in [0, 1, 2, 1_048_576, 1_048_577, u32::MAX] {
        for open in [false, true] {
            for packet in PACKETS.into_iter().chain([5_000]) {
                for room in [0, 1, 7, 8, 9, 15, 16, 100] {
                    let both = Both::of(Session { index, open, ..any_session(&mut random) });
                    let before = random.bytes(room);
                    let mut out = before.clone();
                    let number = match (open, index > 0 && packet <= 2_047, room >= 8) {
                        (false, _, _) => 5,
                        (true, false, _) => 12,
                        (true, true, false) => 8,
                        (true, true, true) => 0,
                    };
                    let (count, written) = if number == 0 { (2, 8) } else { (0, 0) };
                    assert_eq!(both.code(packet, &mut out), Answer { number, count }, "{index} {open} {packet} {room}");
                    assert_eq!(out[written..], before[written..], "{index} {open} {packet} {room}");
                }
            }
        }
    }
}

/// All codes of a session together are one run of its history's output.
#[test]
fn every_packet() {
    let mut random = Random::new(1);
    let mut end = End::start(&mut random, &[9; 47]);
    for length in [0, 1, 300] {
        let (metadata, message) = (random.bytes(20), random.bytes(length));
        assert_eq!(end.wrap(None, &metadata, &message, &mut vec![0; length], &mut [0; 32]).number, 0);
        let run = xoofff(&end.ledger.key, &end.ledger.history, 32, 8 * 2_048);
        for (packet, expected) in (0..).zip(run.chunks_exact(8)) {
            let mut code = [0; 8];
            assert_eq!(raw::code(&end.unasked, packet, &mut code), Answer { number: 0, count: 2 });
            assert_eq!(code, expected, "packet {packet}");
        }
        end.check();
    }
}
