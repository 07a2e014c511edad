//! Sessions of SANSE through the C library, beside the independent implementation: every answer, buffer and record is the same,
//! and no arrival is accepted but the one that the other end sealed next. Each call may be made by four, and each end has its own
//! choice. Codes are asked for in between.

mod common;

use common::headers::{Ways, all_were_there};
use common::play::{self, Ends, Tally};
use common::{Both, cases, is_whole_run, key, least_times};
use pevghazo::raw::Record;
use pevghazo_reference::limits::INDEX_MAX;
use pevghazo_reference::random::Random;
use pevghazo_reference::sanse::growth;

/// Asks for some codes at both ends; what they were answered is told by `codes`.
fn ask(random: &mut Random, ends: &[Both; 2], codes: &mut [u64; 13]) {
    for _ in 0..random.below(3) {
        let end = &ends[random.below(2)];
        codes[end.any_code(random).number as usize] += 1;
    }
}

#[test]
fn messages_both_ways() {
    let (mut tally, mut codes) = (Tally::default(), [0; 13]);
    cases("messages_both_ways", |random| {
        let (shared, other) = (key(random), key(random));
        let [here, there, stranger] = [&shared, &shared, &other].map(|key| Both::start(random, key).0);
        let mut ends = Ends::of([here, there], stranger);
        for _ in 0..1 + random.below(6) {
            ends.message(random, &mut tally, |random, ends| ask(random, ends, &mut codes));
        }
        if random.once_in(3) {
            ends.lost(random, &mut tally);
        }
    });
    if is_whole_run() {
        let Tally { numbers, forged, ways, accepted, choices } = tally;
        assert!(forged > 10_000, "{forged} forged arrivals");
        assert!(accepted.iter().all(|sort| *sort > 10 * least_times()), "without and for an envelope: {accepted:?}");
        all_were_there(&ways, least_times());
        choices.all_were_there(10 * least_times());
        assert!(numbers[0] > 5_000 && [1, 6, 7, 8].iter().all(|number| numbers[*number] > 100), "{numbers:?}");
        assert!([0, 8, 12].iter().all(|number| codes[*number] > 1_000), "codes: {codes:?}");
    }
}

#[test]
fn every_pair_of_edges() {
    let mut random = Random::new(1);
    let both = Both::start(&mut random, &[9; 47]).0;
    play::every_pair_of_edges(&mut random, both);
}

#[test]
fn every_length_of_a_key() {
    let mut random = Random::new(1);
    for length in (0..=100).chain([16_384, 70_000]) {
        let key = random.bytes(length);
        let (both, answer) = Both::start(&mut random, &key);
        assert_eq!(answer.number, if (16..=47).contains(&length) { 0 } else { 4 });
        assert_eq!(both.library.opened, answer.number == 0);
    }
}

#[test]
fn any_record() {
    // By the record's openness, and by number.
    let (mut numbers, mut ways) = ([[0; 12]; 2], Ways::default());
    cases("any_record", |random| {
        let (number, open) = play::call_on_any_record::<Record>(random, &mut ways);
        numbers[usize::from(open)][number as usize] += 1;
    });
    if is_whole_run() {
        let [closed, open] = numbers;
        assert!([0, 1, 6, 7, 8, 9, 11].iter().all(|number| open[*number] > 10), "{open:?}");
        assert!(closed[1] > 10 && closed[5] > 100 && closed[1] + closed[5] == closed.iter().sum(), "{closed:?}");
        all_were_there(&ways, least_times() / 10);
    }
}

#[test]
fn indexes_near_the_limit() {
    cases("indexes_near_the_limit", play::call_near_the_limit::<Record>);
}

#[test]
fn one_long_session_up_to_the_limit() {
    // The strings of such a message fill the index in 1,528 of them.
    let mut random = Random::new(1);
    let both = Both::start(&mut random, &[1; 16]).0;
    assert_eq!(play::up_to_the_limit(&mut random, both), INDEX_MAX / growth(16_384, 16_384));
}
