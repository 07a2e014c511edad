//! Sessions of SANE through the C library, beside the independent implementation: every answer, buffer and record is the
//! same, in random sessions and of any record, and equals what the full history gives. Each call may be made by four, and each end
//! has its own choice.

mod common;

use common::edges;
use common::headers::{Ways, all_were_there};
use common::play::{self, Ends, Tally};
use common::{
    Arrival, By, SaneBoth, answer_of, cases, is_whole_run, key, least_times, maybe_long, other_length, record_of, same,
    text,
};
use pevghazo::raw::{Answer, SaneRecord};
use pevghazo_reference::deck::xoofff;
use pevghazo_reference::ledger::SaneLedger;
use pevghazo_reference::limits::INDEX_MAX;
use pevghazo_reference::random::Random;

#[test]
fn messages_both_ways() {
    let mut tally = Tally::default();
    cases("messages_both_ways", |random| {
        let (shared, nonce) = (key(random), text(random));
        // Another nonce under this key, or the same under another.
        let (other_key, other_nonce) = if random.once_in(2) {
            (shared.clone(), [&nonce[..nonce.len().min(16_383)], b"+"].concat())
        } else {
            (key(random), nonce.clone())
        };
        let [here, there] = [(); 2].map(|()| SaneBoth::started(random, &shared, &nonce));
        let mut ends = Ends::of([here, there], SaneBoth::started(random, &other_key, &other_nonce));
        for _ in 0..1 + random.below(6) {
            ends.message(random, &mut tally, |_, _| ());
        }
        if random.once_in(3) {
            ends.lost(random, &mut tally);
        }
    });
    if is_whole_run() {
        let Tally { numbers, forged, ways, accepted, choices } = tally;
        assert!(forged > 10_000, "{forged} forged arrivals");
        assert!(accepted.iter().all(|sort| *sort > 10 * least_times()), "without and for an envelope: {accepted:?}");
        all_were_there(&ways, least_times());
        choices.all_were_there(10 * least_times());
        assert!(numbers[0] > 5_000 && [1, 6, 7, 8].iter().all(|number| numbers[*number] > 100), "{numbers:?}");
    }
}

#[test]
fn every_pair_of_edges() {
    let mut random = Random::new(1);
    let both = SaneBoth::started(&mut random, &[9; 47], b"1");
    play::every_pair_of_edges(&mut random, both);
}

#[test]
fn any_record() {
    // By the record's openness, and by number.
    let (mut numbers, mut ways) = ([[0; 12]; 2], Ways::default());
    cases("any_record", |random| {
        let (number, open) = play::call_on_any_record::<SaneRecord>(random, &mut ways);
        numbers[usize::from(open)][number as usize] += 1;
    });
    if is_whole_run() {
        let [closed, open] = numbers;
        assert!([0, 1, 6, 7, 8, 9, 11].iter().all(|number| open[*number] > 10), "{open:?}");
        assert!(closed[1] > 10 && closed[5] > 100 && closed[1] + closed[5] == closed.iter().sum(), "{closed:?}");
        all_were_there(&ways, least_times() / 10);
    }
}

#[test]
fn indexes_near_the_limit() {
    cases("indexes_near_the_limit", play::call_near_the_limit::<SaneRecord>);
}

#[test]
fn one_long_session_up_to_the_limit() {
    // The nonce's string takes 343 of the index, and those of each message 686.
    let mut random = Random::new(1);
    let nonce = random.bytes(16_384);
    let both = SaneBoth::started(&mut random, &[1; 16], &nonce);
    assert_eq!(play::up_to_the_limit(&mut random, both), (INDEX_MAX - 343) / 686);
}

/// One end of a session, to which each call is made on the record, by the library and the reference, and on the key and the
/// full history, which opens with the nonce.
struct End {
    both: SaneBoth,
    ledger: SaneLedger,
}

impl End {
    fn start(random: &mut Random, key: &[u8], nonce: &[u8]) -> End {
        let mut tags = [[0; 16], [1; 16]];
        let (both, answer) = SaneBoth::start(random, key, nonce, &mut tags[0]);
        let (ledger, count) = SaneLedger::start(key, nonce, &mut tags[1], xoofff).unwrap();
        assert_eq!((answer, tags[0]), (Answer { number: 0, count }, tags[1]));
        End { both, ledger }
    }

    /// The record is the one that the history gives.
    fn check(&self) {
        assert!(same(&self.both.library, &record_of(&self.ledger.record())), "the history gives another record");
    }

    /// Wraps some message, with a header or lengths that are refused now and then, and gives what travels.
    fn wrap(&mut self, random: &mut Random, tally: &mut Tally) -> Option<Arrival> {
        let (metadata, message) = (text(random), text(random));
        let (metadata, message) = (maybe_long(random, &metadata, 30), maybe_long(random, &message, 30));
        let envelope = play::any_envelope(random);
        let header = play::any_header::<SaneRecord>(random, envelope, &metadata, &message, &mut tally.ways);
        let (room, tag_length) = (other_length(random, message.len(), 8), other_length(random, 16, 12));
        let (mut out, mut tag) = (random.bytes(room), random.bytes(tag_length));
        let (mut out_too, mut tag_too) = (out.clone(), tag.clone());
        let answer = self.both.by(By::any(random)).wrap_for(header.as_deref(), &metadata, &message, &mut out, &mut tag);
        let by_history = self.ledger.wrap_for(header.as_deref(), &metadata, &message, &mut out_too, &mut tag_too);
        assert_eq!(answer, answer_of(by_history));
        assert!(out == out_too && tag == tag_too, "the history gives other buffers");
        self.check();
        out.truncate(message.len());
        let accepted = tally.take(header.as_deref(), answer);
        accepted.then_some(Arrival { header, metadata, cryptogram: out, tag, message })
    }

    /// Unwraps an arrival, now and then damaged or with a buffer of another length, and gives whether it was accepted.
    fn unwrap(&mut self, random: &mut Random, arrival: &Arrival, tally: &mut Tally) -> bool {
        let is_damaged = random.once_in(3);
        let handed = if is_damaged { arrival.damaged(random, b'N', &mut tally.ways) } else { arrival.clone() };
        let room = other_length(random, handed.cryptogram.len(), 8);
        let mut out = random.bytes(room);
        let mut out_too = out.clone();
        let Arrival { header, metadata, cryptogram, tag, .. } = &handed;
        let answer = self.both.by(By::any(random)).unwrap_for(header.as_deref(), metadata, cryptogram, tag, &mut out);
        let by_history = self.ledger.unwrap_for(header.as_deref(), metadata, cryptogram, tag, &mut out_too);
        assert_eq!(answer, answer_of(by_history));
        assert!(out == out_too, "the history gives another buffer");
        self.check();
        tally.take(header.as_deref(), answer)
    }
}

#[test]
fn lists_against_the_full_history() {
    let (mut wraps, mut unwraps) = (Tally::default(), Tally::default());
    cases("lists_against_the_full_history", |random| {
        let (key, nonce) = (key(random), text(random));
        let mut ends = [(); 2].map(|()| End::start(random, &key, &nonce));
        // What travels, and the end that it is meant for.
        let mut travels: Option<(Arrival, usize)> = None;
        for _ in 0..1 + random.below(6) {
            match travels.take() {
                Some((arrival, to)) if !random.once_in(5) => {
                    let end = if random.once_in(6) { 1 - to } else { to };
                    if !ends[end].unwrap(random, &arrival, &mut unwraps) {
                        travels = Some((arrival, to));
                    }
                }
                _ => {
                    let from = random.below(2);
                    travels = ends[from].wrap(random, &mut wraps).map(|arrival| (arrival, 1 - from));
                }
            }
        }
    });
    if is_whole_run() {
        assert!(
            [0, 1, 6, 7, 8].iter().all(|number| wraps.numbers[*number] > least_times()),
            "wraps: {:?}",
            wraps.numbers
        );
        assert!(
            [0, 1, 8, 11].iter().all(|number| unwraps.numbers[*number] > least_times()),
            "unwraps: {:?}",
            unwraps.numbers
        );
        assert!(unwraps.accepted.iter().all(|sort| *sort > 10 * least_times()), "{:?}", unwraps.accepted);
        all_were_there(&unwraps.ways, least_times() / 5);
    }
}

#[test]
fn any_start() {
    let mut numbers = [0; 12];
    cases("any_start", |random| numbers[edges::any_start::<SaneRecord>(random) as usize] += 1);
    if is_whole_run() {
        assert!([0, 4, 6, 7].iter().all(|number| numbers[*number] > least_times()), "{numbers:?}");
    }
}
