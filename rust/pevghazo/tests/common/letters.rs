//! Old letters as the first version sealed them, made by the reference, and what happens to them at sessions that are held twice.
//!
//! An old letter travels in an envelope whose header no call is handed, so that its [`Arrival`] has none.

use pevghazo::raw::Answer;
use pevghazo_reference::random::Random;
use pevghazo_reference::sane;
use pevghazo_reference::session::{SaeSession, SaneSession};

use super::{Arrival, SaeBoth, copy, maybe_long, other_length, same, text};

/// The next letter of a session of the first version.
pub fn next(sender: &mut SaeSession, metadata: &[u8], message: &[u8]) -> Arrival {
    let (mut cryptogram, mut tag) = (vec![0; message.len()], vec![0; 16]);
    sender.trial_wrap(metadata, message, &mut cryptogram, &mut tag).expect("a letter within the limits");
    Arrival { header: None, metadata: metadata.to_vec(), cryptogram, tag, message: message.to_vec() }
}

/// The next message of a session in SANE, likewise without a header.
pub fn next_in_sane(sender: &mut SaneSession, metadata: &[u8], message: &[u8]) -> Arrival {
    let (mut cryptogram, mut tag) = (vec![0; message.len()], vec![0; 16]);
    sender.wrap(metadata, message, &mut cryptogram, &mut tag).expect("a message within the limits");
    Arrival { header: None, metadata: metadata.to_vec(), cryptogram, tag, message: message.to_vec() }
}

/// The answer to a letter of these lengths, by this number: 0 or 11.
pub fn answered(number: u32, letter: &Arrival) -> Answer {
    Answer { number, count: sane::count(letter.metadata.len(), letter.cryptogram.len()) }
}

/// Hands a letter to a session that must refuse it by 11: the session stays as it was, and zeros stand in the message's place.
pub fn refuse(random: &mut Random, end: &mut SaeBoth, forged: &Arrival) {
    let before = random.bytes(forged.cryptogram.len() + random.clone().below(50));
    let (mut out, record) = (before.clone(), copy(&end.library));
    let answer = end.unwrap(&forged.metadata, &forged.cryptogram, &forged.tag, &mut out);
    assert_eq!(answer, answered(11, forged), "a letter was not refused by its tag");
    assert!(same(&end.library, &record), "a refused letter has altered the session");
    let (zeros, rest) = out.split_at(forged.cryptogram.len());
    assert!(zeros.iter().all(|byte| *byte == 0) && *rest == before[zeros.len()..], "a refused letter's buffer");
}

/// Hands the right next letter over, with lengths that are refused now and then, until it is accepted. `numbers` counts the answers.
pub fn accept(random: &mut Random, end: &mut SaeBoth, letter: &Arrival, numbers: &mut [u64; 19]) {
    loop {
        let (a, c) = (maybe_long(random, &letter.metadata, 30), maybe_long(random, &letter.cryptogram, 30));
        let mut tag = letter.tag.clone();
        tag.resize(other_length(random, 16, 10), 0);
        let room = if random.once_in(3) { c.len() + random.below(100) } else { other_length(random, c.len(), 5) };
        let before = random.bytes(room);
        let (mut out, record) = (before.clone(), copy(&end.library));
        let answer = end.unwrap(&a, &c, &tag, &mut out);
        numbers[answer.number as usize] += 1;
        if answer.number == 0 {
            assert_eq!((answer, &out[..c.len()]), (answered(0, letter), &letter.message[..]));
            assert!(out[c.len()..] == before[c.len()..], "bytes behind the message");
            return;
        }
        assert!([6, 7, 8].contains(&answer.number) && answer.count == 0, "{answer:?}");
        assert!(out == before && same(&end.library, &record), "a refusal has altered something");
    }
}

/// Asks a session to wrap, with texts, a tag and a buffer of any lengths: 18, with count 0, and nothing is altered.
pub fn no_wrap(random: &mut Random, end: &mut SaeBoth) {
    let (a, m) = (text(random), text(random));
    let (a, m) = (maybe_long(random, &a, 4), maybe_long(random, &m, 4));
    let (room, tag) = (other_length(random, m.len(), 2), other_length(random, 16, 2));
    let before = (random.bytes(room), random.bytes(tag));
    let (mut out, mut tag) = before.clone();
    let record = copy(&end.library);
    assert_eq!(end.wrap(&a, &m, &mut out, &mut tag), Answer { number: 18, count: 0 });
    assert!((out, tag) == before && same(&end.library, &record), "a wrap has altered something");
}
