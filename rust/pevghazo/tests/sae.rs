//! Boxes of old letters through the C library, beside the independent implementation: every answer, buffer and record is the same, in
//! random sessions and of any record, and equals what the full history gives. The letters are made by the first version's wrap.

mod common;

use common::letters::{accept, answered, next, next_in_sane, no_wrap, refuse};
use common::{
    Arrival, EDGES, SaeBoth, answer_of, any_session, cases, edges, is_whole_run, key, least_times, maybe_long,
    other_length, record_of, same, text,
};
use pevghazo::raw::{Answer, SaeRecord};
use pevghazo_reference::deck::xoofff;
use pevghazo_reference::ledger::SaeLedger;
use pevghazo_reference::limits::INDEX_MAX;
use pevghazo_reference::random::Random;
use pevghazo_reference::session::{SaeSession, SaneSession, growth};

/// What a session may be handed in the place of its next letter.
const KINDS: [&str; 5] = ["damaged", "opened before", "a later one", "another session's", "one of SANE"];

/// How often each was handed over.
type Kinds = [u64; KINDS.len()];

/// A session of the first version, and so many of its letters.
struct Letters {
    key: Vec<u8>,
    nonce: Vec<u8>,
    sender: SaeSession,
    letters: Vec<Arrival>,
    /// The same metadata and messages in SANE, under the same key and nonce.
    in_sane: Vec<Arrival>,
    /// The same under another key, or with another nonce.
    strangers: Vec<Arrival>,
}

impl Letters {
    fn new(random: &mut Random, number: usize) -> Letters {
        let (key, nonce, other) = (key(random), text(random), key(random));
        let other_nonce = [&nonce[..nonce.len().min(16_383)], b"+"].concat();
        let start = |key: &[u8], nonce: &[u8]| SaeSession::start(key, nonce, &mut [0; 16]).unwrap().0;
        let mut sender = start(&key, &nonce);
        let mut stranger = if random.once_in(2) { start(&key, &other_nonce) } else { start(&other, &nonce) };
        let mut sane = SaneSession::start(&key, &nonce, &mut [0; 16]).unwrap().0;
        let texts: Vec<_> = (0..number).map(|_| (text(random), text(random))).collect();
        let letters = texts.iter().map(|(a, m)| next(&mut sender, a, m)).collect();
        let in_sane = texts.iter().map(|(a, m)| next_in_sane(&mut sane, a, m)).collect();
        let strangers = texts.iter().map(|(a, m)| next(&mut stranger, a, m)).collect();
        Letters { key, nonce, sender, letters, in_sane, strangers }
    }

    /// What must be refused in the place of a letter, with its kind.
    fn wrong(&self, random: &mut Random, place: usize) -> Vec<(usize, Arrival)> {
        let mut wrong = vec![(0, self.letters[place].damaged_part(random)), (4, self.in_sane[place].clone())];
        if place > 0 {
            wrong.push((1, self.letters[random.below(place)].clone()));
        }
        if place + 1 < self.letters.len() {
            let later = place + 1 + random.below(self.letters.len() - place - 1);
            wrong.push((2, self.letters[later].clone()));
        }
        wrong.push((3, self.strangers[place].clone()));
        wrong.retain(|(_, bad)| !bad.travels_as(&self.letters[place]) && random.once_in(2));
        wrong
    }
}

/// Letters are opened in their order, with wrong ones and wraps in between; the session is then the sender's.
fn open_all(random: &mut Random, numbers: &mut [u64; 19], kinds: &mut Kinds) {
    let number = 1 + random.below(6);
    let all = Letters::new(random, number);
    let mut end = SaeBoth::started(random, &all.key, &all.nonce);
    for (place, letter) in all.letters.iter().enumerate() {
        for (kind, bad) in all.wrong(random, place) {
            refuse(random, &mut end, &bad);
            kinds[kind] += 1;
        }
        if random.once_in(3) {
            no_wrap(random, &mut end);
            numbers[18] += 1;
        }
        accept(random, &mut end, letter, numbers);
        refuse(random, &mut end, letter);
    }
    assert!(end.library.toggle == all.sender.toggle && !end.library.toggle, "the toggle is never set");
    assert!(same(&end.library, &record_of(&all.sender)), "the session is not the sender's");
}

#[test]
fn boxes_of_letters() {
    let (mut numbers, mut kinds) = ([0; 19], Kinds::default());
    cases("boxes_of_letters", |random| open_all(random, &mut numbers, &mut kinds));
    if is_whole_run() {
        assert!(numbers[0] > 100 * least_times(), "{numbers:?}");
        assert!([6, 7, 8, 18].iter().all(|number| numbers[*number] > least_times()), "{numbers:?}");
        assert!(kinds.iter().all(|kind| *kind > 10 * least_times()), "{KINDS:?}: {kinds:?}");
    }
}

/// A letter that is missing: none after it opens, until it is found.
#[test]
fn a_letter_that_is_missing() {
    cases("a_letter_that_is_missing", |random| {
        let all = Letters::new(random, 4);
        let mut end = SaeBoth::started(random, &all.key, &all.nonce);
        let (missing, mut numbers) = (random.below(3), [0; 19]);
        all.letters[..missing].iter().for_each(|letter| accept(random, &mut end, letter, &mut numbers));
        for later in &all.letters[missing + 1..] {
            refuse(random, &mut end, later);
        }
        all.letters[missing..].iter().for_each(|letter| accept(random, &mut end, letter, &mut numbers));
        assert!(same(&end.library, &record_of(&all.sender)));
    });
}

/// Letters with metadata and text of all pairs of edges, each into a buffer of just its length and one byte more.
#[test]
fn every_pair_of_edges() {
    let mut random = Random::new(1);
    let mut end = SaeBoth::started(&mut random, &[9; 47], b"1");
    let mut sender = end.reference.clone();
    for (a, m, more) in EDGES.into_iter().flat_map(|a| EDGES.into_iter().flat_map(move |m| [(a, m, 0), (a, m, 1)])) {
        let letter = next(&mut sender, &random.bytes(a), &random.bytes(m));
        let mut out = random.bytes(m + more);
        let answer = end.unwrap(&letter.metadata, &letter.cryptogram, &letter.tag, &mut out);
        assert_eq!((answer, &out[..m]), (answered(0, &letter), &letter.message[..]));
        assert!(end.library.index == sender.index && same(&end.library, &record_of(&sender)));
    }
}

/// One call on a record with any numbers, also with a toggle that no start leaves: a wrap, or an unwrap of its next letter as it is or
/// damaged. Gives the number, and whether the record is open.
fn call_on_any_record(random: &mut Random) -> (u32, bool) {
    let session: SaeSession = any_session(random);
    let open = session.open;
    if random.once_in(3) {
        no_wrap(random, &mut SaeBoth::of(session));
        return (18, open);
    }
    let mut sender = SaeSession { index: 0, open: true, ..session.clone() };
    let letter = next(&mut sender, &text(random), &text(random));
    let mut bad = if random.once_in(4) { letter.damaged_part(random) } else { letter.clone() };
    bad.metadata = maybe_long(random, &bad.metadata, 20);
    bad.cryptogram = maybe_long(random, &bad.cryptogram, 20);
    bad.tag.resize(other_length(random, 16, 12), 0);
    let room = bad.cryptogram.len() + random.below(60);
    let mut out = vec![0; other_length(random, room, 12)];
    let mut both = SaeBoth::of(session.clone());
    let answer = both.unwrap(&bad.metadata, &bad.cryptogram, &bad.tag, &mut out);
    assert!(answer.number != 0 || bad.travels_as(&letter));
    assert_eq!(both.library.toggle, session.toggle, "no call alters the toggle");
    (answer.number, open)
}

#[test]
fn any_record() {
    // By the record's openness, and by number.
    let mut numbers = [[0; 19]; 2];
    cases("any_record", |random| {
        let (number, open) = call_on_any_record(random);
        numbers[usize::from(open)][number as usize] += 1;
    });
    if is_whole_run() {
        let [closed, open] = numbers;
        assert!([0, 6, 7, 8, 9, 11, 18].iter().all(|number| open[*number] > 10), "{open:?}");
        assert!(closed[5] > least_times() && closed[18] > least_times(), "{closed:?}");
        assert_eq!(closed[5] + closed[18], closed.iter().sum(), "{closed:?}");
    }
}

#[test]
fn indexes_near_the_limit() {
    cases("indexes_near_the_limit", |random| {
        let (metadata, message) = (text(random), text(random));
        let full = INDEX_MAX - growth(metadata.len(), message.len());
        let index = match random.below(6) {
            0 => full + 1,
            1 => full + random.below(5) as u32,
            2 => full - random.below(5) as u32,
            3 => u32::MAX - random.below(5) as u32,
            _ => full,
        };
        let session = SaeSession { index, open: true, ..any_session(random) };
        let mut sender = SaeSession { index: 0, ..session.clone() };
        let (letter, mut out) = (next(&mut sender, &metadata, &message), random.bytes(message.len()));
        let (before, mut both) = (out.clone(), SaeBoth::of(session));
        let answer = both.unwrap(&letter.metadata, &letter.cryptogram, &letter.tag, &mut out);
        if index <= full {
            assert_eq!((answer, &out), (answered(0, &letter), &message));
            assert_eq!(both.library.index, index + growth(metadata.len(), message.len()));
        } else {
            assert_eq!((answer, &out), (Answer { number: 9, count: 0 }, &before));
        }
    });
}

/// Letters of the greatest length until the index is full. The nonce's string takes 343 of it, and those of each letter 686.
#[test]
fn one_long_session_up_to_the_limit() {
    let mut random = Random::new(1);
    let (nonce, message) = (random.bytes(16_384), random.bytes(16_384));
    let mut end = SaeBoth::started(&mut random, &[1; 16], &nonce);
    let mut sender = end.reference.clone();
    for _ in 0..(INDEX_MAX - 343) / 686 {
        let letter = next(&mut sender, &message, &message);
        let mut out = vec![0; 16_384];
        assert_eq!(end.unwrap(&message, &letter.cryptogram, &letter.tag, &mut out), answered(0, &letter));
        assert!(out == message);
    }
    let mut tag = [0; 16];
    let full = sender.trial_wrap(&message, &message, &mut [0; 16_384], &mut tag);
    assert_eq!(answer_of(full), Answer { number: 9, count: 0 });
    assert_eq!(end.unwrap(&message, &message, &tag, &mut [0; 16_384]), Answer { number: 9, count: 0 });
}

/// A session to which each call is made on the record, by the library and the reference, and on the key and the full history, which
/// opens with the nonce.
struct End {
    both: SaeBoth,
    ledger: SaeLedger,
}

impl End {
    fn start(random: &mut Random, key: &[u8], nonce: &[u8]) -> End {
        let mut tags = [[0; 16], [1; 16]];
        let (both, answer) = SaeBoth::start(random, key, nonce, &mut tags[0]);
        let (ledger, count) = SaeLedger::start(key, nonce, &mut tags[1], xoofff).unwrap();
        assert_eq!((answer, tags[0]), (Answer { number: 0, count }, tags[1]));
        End { both, ledger }
    }

    /// Unwraps a letter, now and then with a buffer of another length. Gives the number.
    fn unwrap(&mut self, random: &mut Random, handed: &Arrival) -> u32 {
        let room = other_length(random, handed.cryptogram.len(), 8);
        let mut out = random.bytes(room);
        let mut out_too = out.clone();
        let Arrival { metadata, cryptogram, tag, .. } = handed;
        let answer = self.both.unwrap(metadata, cryptogram, tag, &mut out);
        let by_history = self.ledger.unwrap(metadata, cryptogram, tag, &mut out_too);
        assert_eq!(answer, answer_of(by_history));
        assert!(out == out_too, "the history gives another buffer");
        assert!(same(&self.both.library, &record_of(&self.ledger.record())), "the history gives another record");
        answer.number
    }
}

/// Any lists of letters, in any order, with damaged ones: each is answered as the algorithm over the history of the accepted ones says.
#[test]
fn lists_against_the_full_history() {
    let mut numbers = [0; 19];
    cases("lists_against_the_full_history", |random| {
        let number = 1 + random.below(5);
        let all = Letters::new(random, number);
        let mut end = End::start(random, &all.key, &all.nonce);
        let mut opened = 0;
        for _ in 0..2 * number {
            let place = if random.once_in(3) { random.below(number) } else { opened.min(number - 1) };
            let letter = &all.letters[place];
            let handed = if random.once_in(4) { letter.damaged_part(random) } else { letter.clone() };
            let answer = end.unwrap(random, &handed);
            numbers[answer as usize] += 1;
            assert!(answer != 0 || (place == opened && handed.travels_as(letter)), "another letter than the next one");
            opened += usize::from(answer == 0);
        }
    });
    if is_whole_run() {
        assert!([0, 8, 11].iter().all(|number| numbers[*number] > 5 * least_times()), "{numbers:?}");
    }
}

#[test]
fn any_start() {
    let mut numbers = [0; 19];
    cases("any_start", |random| numbers[edges::any_start::<SaeRecord>(random) as usize] += 1);
    if is_whole_run() {
        assert!([0, 4, 6, 7].iter().all(|number| numbers[*number] > least_times()), "{numbers:?}");
    }
}
