//! Wraps and unwraps of both modes, and unwraps of old letters, through the C library, beside the independent implementation, at all
//! short lengths and at those where blocks begin and end, with all buffers at addresses that are not aligned: answers, buffers,
//! counts and records are the same, the message comes back, and the bytes around the buffers stay. Those of the modes are made
//! without an envelope, and for one, a block at a time and by four.

mod common;

use std::array;
use std::ops::Range;

use common::headers::header;
use common::letters::{answered, next};
use common::{Arrival, Both, BothOf, By, EDGES, Library, SaeBoth, SaneBoth, answer_of, record_of, same};
use pevghazo_reference::random::Random;
use pevghazo_reference::session::{Mode, SaeSession, Scheme};

/// How far behind a multiple of 16 the buffers stand: each the next one's place, from one that the turn says.
const OFFSETS: [usize; 16] = [1, 2, 3, 5, 7, 9, 11, 13, 15, 6, 10, 14, 4, 12, 8, 0];

/// Turns in which no buffer stands at a multiple of 4.
const TURNS: Range<usize> = 0..5;

/// Lengths at which a call by four has a group of four blocks, or one more, just not, just so and with a byte behind it; sixteen groups,
/// behind which the row of its masks or states starts again, and one more; and the longest.
const FOUR_EDGES: [usize; 9] = [191, 192, 193, 383, 384, 385, 3_072, 3_264, 16_384];

/// The lengths at which blocks of SANE's and of old letters' keystream begin and end: it is the output from byte 16 on.
const STREAM_EDGES: [usize; 6] = [31, 32, 33, 79, 80, 81];

/// A buffer within a larger one, all of random bytes.
struct Placed {
    bytes: Vec<u8>,
    range: Range<usize>,
    before: Vec<u8>,
}

impl Placed {
    /// A buffer of this length, so far behind a multiple of 16.
    fn new(random: &mut Random, offset: usize, length: usize) -> Placed {
        let bytes = random.bytes(length + 64);
        let from = 32 - bytes.as_ptr().addr() % 16 + offset;
        assert_eq!(bytes[from..].as_ptr().addr() % 16, offset);
        Placed { before: bytes.clone(), bytes, range: from..from + length }
    }

    /// The buffer.
    fn get(&self) -> &[u8] {
        &self.bytes[self.range.clone()]
    }

    /// The buffer, to be written to.
    fn get_mut(&mut self) -> &mut [u8] {
        &mut self.bytes[self.range.clone()]
    }

    /// Puts these bytes into the buffer, as what it is known to hold.
    fn put(&mut self, bytes: &[u8]) {
        self.get_mut().copy_from_slice(bytes);
        self.before.copy_from_slice(&self.bytes);
    }

    /// The bytes around the buffer are as they were.
    fn is_kept_around(&self) -> bool {
        let Range { start, end } = self.range;
        self.bytes[..start] == self.before[..start] && self.bytes[end..] == self.before[end..]
    }

    /// The buffer is as it was, too.
    fn is_kept(&self) -> bool {
        self.bytes == self.before
    }
}

/// Buffers of these lengths, each at another offset; `turn` is which one the first has.
fn placed<const N: usize>(random: &mut Random, turn: usize, lengths: [usize; N]) -> [Placed; N] {
    array::from_fn(|i| Placed::new(random, OFFSETS[(turn + i) % OFFSETS.len()], lengths[i]))
}

/// Names the lengths and the turn of a message that fails, and the group of its envelope, if it has one.
#[derive(Debug)]
struct Case {
    a: usize,
    m: usize,
    turn: usize,
    group: Option<u32>,
}

impl Drop for Case {
    fn drop(&mut self) {
        if std::thread::panicking() {
            eprintln!("failed with metadata of a bytes and a message of m: {self:?}");
        }
    }
}

/// A message from one end to the other.
fn message<R: Library>(random: &mut Random, [here, there]: &mut [BothOf<R>; 2], case: &Case) {
    let Case { a, m, turn, group } = *case;
    let whole = group.map(|group| header(R::Mode::LETTER, group, a, m)).unwrap_or_default();
    let lengths = [whole.len(), a, m, m, R::Mode::TAG, m];
    let [mut header, metadata, message, mut out, mut tag, mut back] = placed(random, turn, lengths);
    header.put(&whole);
    let of_envelope = group.map(|_| header.get());
    let accepted = answer_of(Ok(R::Mode::count(whole.len() + a, m)));
    let answer =
        here.by(By::any(random)).wrap_for(of_envelope, metadata.get(), message.get(), out.get_mut(), tag.get_mut());
    assert_eq!(answer, accepted, "wrap");
    let answer =
        there.by(By::any(random)).unwrap_for(of_envelope, metadata.get(), out.get(), tag.get(), back.get_mut());
    assert_eq!(answer, accepted, "unwrap");
    assert!(back.get() == message.get(), "another message comes back");
    assert!(same(&here.library, &there.library), "the ends' records differ");
    assert!([header, metadata, message].iter().all(Placed::is_kept), "header, metadata or message were altered");
    assert!([out, tag, back].iter().all(Placed::is_kept_around), "bytes beside the output were altered");
}

/// Lengths of metadata and message: all pairs of edges, and every length up to nine blocks and a byte; so header and metadata
/// together have every length from 10 to that, too.
fn lengths() -> impl Iterator<Item = (usize, usize)> {
    let edges = [&EDGES[..], &STREAM_EDGES].concat();
    pairs(&edges).collect::<Vec<_>>().into_iter().chain((0..=433).map(|m| (433 - m, m)))
}

/// All pairs of some lengths.
fn pairs(lengths: &[usize]) -> impl Iterator<Item = (usize, usize)> {
    lengths.iter().flat_map(|a| lengths.iter().map(|m| (*a, *m)))
}

/// Messages of these lengths and at these turns, without an envelope and for one, from these ends on, which take turns in sealing.
fn messages_of<R: Library>(
    random: &mut Random,
    mut ends: [BothOf<R>; 2],
    lengths: impl Iterator<Item = (usize, usize)>,
    turns: Range<usize>,
) {
    for (a, m) in lengths {
        for turn in turns.clone() {
            for group in [None, Some(random.below(32) as u32)] {
                message(random, &mut ends, &Case { a, m, turn, group });
            }
            ends.reverse();
        }
    }
}

/// Messages of all lengths, and those of a call by four with every buffer at every address modulo 16.
fn messages<R: Library>(random: &mut Random, start: impl Fn(&mut Random) -> BothOf<R>) {
    let ends = [start(random), start(random)];
    messages_of(random, ends, lengths(), TURNS);
    let ends = [start(random), start(random)];
    messages_of(random, ends, pairs(&FOUR_EDGES), 0..OFFSETS.len());
}

#[test]
fn messages_in_sanse() {
    messages(&mut Random::new(1), |random| Both::start(random, &[9; 47]).0);
}

#[test]
fn messages_in_sane() {
    messages(&mut Random::new(1), |random| SaneBoth::started(random, &[9; 47], b"1"));
}

/// The next old letter of these lengths is opened.
fn letter(random: &mut Random, sender: &mut SaeSession, end: &mut SaeBoth, case: &Case) {
    let letter = next(sender, &random.bytes(case.a), &random.bytes(case.m));
    let [mut metadata, mut cryptogram, mut tag, mut out] = placed(random, case.turn, [case.a, case.m, 16, case.m]);
    let Arrival { metadata: a, cryptogram: c, tag: t, .. } = &letter;
    for (place, bytes) in [(&mut metadata, a), (&mut cryptogram, c), (&mut tag, t)] {
        place.put(bytes);
    }
    let answer = end.unwrap(metadata.get(), cryptogram.get(), tag.get(), out.get_mut());
    assert_eq!((answer, out.get()), (answered(0, &letter), &letter.message[..]));
    assert!(same(&end.library, &record_of(sender)), "another session than the sender's");
    assert!([metadata, cryptogram, tag].iter().all(Placed::is_kept), "metadata, cryptogram or tag were altered");
    assert!(out.is_kept_around(), "bytes beside the output were altered");
}

#[test]
fn old_letters() {
    let mut random = Random::new(1);
    let mut end = SaeBoth::started(&mut random, &[9; 47], b"1");
    let mut sender = end.reference.clone();
    for (a, m) in lengths() {
        for turn in TURNS {
            letter(&mut random, &mut sender, &mut end, &Case { a, m, turn, group: None });
        }
    }
}

#[test]
fn starts() {
    let mut random = Random::new(1);
    for key in 16..=47 {
        for nonce in EDGES {
            for turn in TURNS {
                let [key, nonce, mut tag] = placed(&mut random, turn, [key, nonce, 16]);
                let answer = SaneBoth::start(&mut random, key.get(), nonce.get(), tag.get_mut()).1;
                let old = SaeBoth::start(&mut random, key.get(), nonce.get(), tag.get_mut()).1;
                assert_eq!((answer.number, old.number, Both::start(&mut random, key.get()).1.number), (0, 0, 0));
                assert!(key.is_kept() && nonce.is_kept() && tag.is_kept_around());
            }
        }
    }
}
