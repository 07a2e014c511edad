//! The edges of SANE and of old letters, which start, count and refuse alike.

use pevghazo::raw::Answer;
use pevghazo_reference::random::Random;
use pevghazo_reference::session::Record as Reference;

use super::{BothOf, Held, WithNonce, any_session, length, maybe_long, other_length};

/// Lengths of metadata and message, with the counts of document 02, by hand.
pub const COUNTS: [(usize, usize, u32); 11] = [
    (0, 0, 3),
    (0, 1, 5),
    (20, 48, 8),
    (16_384, 16_384, 1_029),
    (0, 31, 5),
    (0, 32, 5),
    (0, 33, 6),
    (0, 47, 6),
    (0, 48, 7),
    (0, 49, 7),
    (0, 16_384, 687),
];

/// The first number met of 4, 6 and 7, with the record closed and the tag's buffer kept; or b(N) + 3 permutations, and an open
/// record with index b(N) + 1.
pub fn starts<R: WithNonce>() {
    let mut random = Random::new(1);
    for key in [0, 15, 16, 47, 48] {
        for (nonce, blocks) in [(0, 1), (47, 1), (48, 2), (16_384, 342), (16_385, 342)] {
            for tag in [0, 15, 16, 17, 32] {
                let number = match (key, nonce, tag) {
                    (0 | 15 | 48, _, _) => 4,
                    (_, 16_385, _) => 6,
                    (_, _, 0 | 15 | 17 | 32) => 7,
                    _ => 0,
                };
                let (key, nonce, before) = (random.bytes(key), random.bytes(nonce), random.bytes(tag));
                let mut tag = before.clone();
                let (both, answer) = BothOf::<R>::start(&mut random, &key, &nonce, &mut tag);
                let left = both.library.reference();
                if number == 0 {
                    assert_eq!(answer, Answer { number, count: blocks + 3 });
                    assert_eq!((left.index, left.toggle, left.open), (blocks + 1, false, true));
                    assert_ne!(tag, before);
                } else {
                    assert_eq!((answer, left), (Answer { number, count: 0 }, Reference::CLOSED));
                    assert_eq!(tag, before);
                }
            }
        }
    }
}

/// A start that is refused now and then. Gives its number.
pub fn any_start<R: WithNonce>(random: &mut Random) -> u32 {
    let (usual, nonce) = (16 + random.below(32), length(random));
    let key_length = other_length(random, usual, 4);
    let (key, nonce) = (random.bytes(key_length), random.bytes(nonce));
    let nonce = maybe_long(random, &nonce, 6);
    let mut tag = vec![0xA5; other_length(random, 16, 4)];
    BothOf::<R>::start(random, &key, &nonce, &mut tag).1.number
}

/// Lengths of metadata, message, tag and output buffer.
pub type Lengths = (usize, usize, usize, usize);

/// Calls with all lengths at which something changes, on records that are open and closed, with indexes up to the limit and above it:
/// `one` is handed the first number met of 5 to 9, or 0. A call with 20 and 48 bytes counts 8.
pub fn every_refusal<R: Held>(mut one: impl FnMut(&mut Random, &Reference<R::Mode>, Lengths, u32)) {
    let mut random = Random::new(1);
    let mut numbers = [0; 12];
    for (open, index) in
        [false, true].into_iter().flat_map(|open| [2, 1_048_571, 1_048_572, u32::MAX].map(|i| (open, i)))
    {
        let session = Reference { index, open, ..any_session(&mut random) };
        for (a, m) in [(20, 48), (16_385, 48), (20, 16_385), (16_385, 16_385)] {
            for (tag, room) in
                [0, 15, 16, 17, 32].into_iter().flat_map(|tag| [0, m - 1, m, m + 5].map(|room| (tag, room)))
            {
                let number = match (open, a.max(m), tag, room < m, index) {
                    (false, _, _, _, _) => 5,
                    (true, 16_385, _, _, _) => 6,
                    (true, _, 0 | 15 | 17 | 32, _, _) => 7,
                    (true, _, _, true, _) => 8,
                    (true, _, _, _, 1_048_572..) => 9,
                    _ => 0,
                };
                numbers[number as usize] += 1;
                one(&mut random, &session, (a, m, tag, room), number);
            }
        }
    }
    assert!([0, 5, 6, 7, 8, 9].iter().all(|number| numbers[*number] > 0), "{numbers:?}");
}
