//! Cases, lengths and sessions that are held twice, shared by the comparison tests.
//!
//! Each test runs `PEVGHAZO_CASES` cases, 10,000 by default, each from a seed of its own. A failure names the seed, and
//! `PEVGHAZO_SEED` runs that case alone.
#![allow(dead_code, unused_imports)]

mod both;
pub mod edges;
pub mod headers;
pub mod letters;
pub mod lists;
pub mod play;
pub mod pools;
pub mod seasons;
pub mod stored;
pub mod tables;
pub mod tills;

pub use both::{
    Both, BothOf, By, Held, Library, SaeBoth, SaneBoth, WithNonce, answer_of, any_session, copy, record_of, same,
};
use headers::{ADDED, ANOTHER_GROUP, DROPPED, Ways, group_of, header, misfit};
use pevghazo_reference::random::Random;
use pevghazo_reference::session::metadata_string;

/// The lengths at which something changes: where a block ends, where four do, where eight do, and the limit.
pub const EDGES: [usize; 16] = [0, 1, 47, 48, 49, 95, 96, 97, 191, 192, 193, 383, 384, 385, 16_383, 16_384];

/// The packets at which something changes, with some beside them: the codes of 0 and 1 stand in the first output block, those of 2
/// to 7 in the second.
pub const PACKETS: [u32; 10] = [0, 1, 2, 5, 6, 7, 8, 2_047, 2_048, u32::MAX];

/// Names the seed of a case that fails.
struct Case {
    name: &'static str,
    seed: u64,
}

impl Drop for Case {
    fn drop(&mut self) {
        if std::thread::panicking() {
            eprintln!("{} failed with seed {}; PEVGHAZO_SEED={} runs this case alone", self.name, self.seed, self.seed);
        }
    }
}

/// A number from the environment.
fn setting(name: &str) -> Option<u64> {
    let value = std::env::var(name).ok()?;
    Some(value.parse().unwrap_or_else(|_| panic!("{name} is not a number: {value}")))
}

/// Whether the tests run all cases, so that counts of what happened mean something.
pub fn is_whole_run() -> bool {
    setting("PEVGHAZO_SEED").is_none() && setting("PEVGHAZO_CASES").is_none_or(|cases| cases >= 1_000)
}

/// How often what happens in many cases must have happened: 100 times in 10,000 cases, and in others in proportion.
pub fn least_times() -> u64 {
    if setting("PEVGHAZO_SEED").is_some() { 0 } else { number_of_cases() / 100 }
}

/// How many cases there are.
fn number_of_cases() -> u64 {
    setting("PEVGHAZO_CASES").unwrap_or(10_000)
}

/// Runs the cases of a test.
pub fn cases(name: &'static str, one: impl FnMut(&mut Random)) {
    some_cases(name, 1, one);
}

/// Runs one case for every so many, and at least one, for a test whose cases take long.
pub fn some_cases(name: &'static str, every: u64, mut one: impl FnMut(&mut Random)) {
    let seeds = match setting("PEVGHAZO_SEED") {
        Some(seed) => seed..seed + 1,
        None => 1..number_of_cases().div_ceil(every) + 1,
    };
    for seed in seeds {
        let _case = Case { name, seed };
        one(&mut Random::new(seed));
    }
}

/// A length within the limit: an edge, a short one, or any.
pub fn length(random: &mut Random) -> usize {
    match random.below(20) {
        0 => random.below(16_385),
        1 => random.pick(&EDGES),
        2..8 => random.pick(&EDGES[..14]),
        8..12 => random.below(16),
        _ => random.below(300),
    }
}

/// Random bytes of a random length within the limit.
pub fn text(random: &mut Random) -> Vec<u8> {
    let length = length(random);
    random.bytes(length)
}

/// A key within the limits.
pub fn key(random: &mut Random) -> Vec<u8> {
    let length = 16 + random.below(32);
    random.bytes(length)
}

/// A packet's number: one within the limit, an edge, or any.
pub fn packet(random: &mut Random) -> u32 {
    match random.below(8) {
        0 => random.bits() as u32,
        1 | 2 => random.pick(&PACKETS),
        _ => random.below(2_048) as u32,
    }
}

/// One time in `n`, something else than `usual`: a length below, or above.
pub fn other_length(random: &mut Random, usual: usize, n: usize) -> usize {
    if !random.once_in(n) {
        return usual;
    }
    match random.below(4) {
        0 => 0,
        1 => usual.saturating_sub(1),
        2 => usual + 1,
        _ => random.below(2 * usual + 2),
    }
}

/// One time in `n` a text that is too long.
pub fn maybe_long(random: &mut Random, text: &[u8], n: usize) -> Vec<u8> {
    if !random.once_in(n) {
        return text.to_vec();
    }
    let length = if random.once_in(2) { 16_385 } else { 16_385 + random.below(200) };
    random.bytes(length)
}

/// The bytes with some bits flipped, at least one; empty ones stay.
pub fn damaged(random: &mut Random, bytes: &[u8]) -> Vec<u8> {
    let mut bad = bytes.to_vec();
    if !bad.is_empty() {
        let place = random.below(bad.len());
        bad[place] ^= 1 + random.below(255) as u8;
    }
    bad
}

/// What travels, for an envelope with this header or without one, with the message that it should give.
#[derive(Clone, Debug, PartialEq, Eq)]
pub struct Arrival {
    pub header: Option<Vec<u8>>,
    pub metadata: Vec<u8>,
    pub cryptogram: Vec<u8>,
    pub tag: Vec<u8>,
    pub message: Vec<u8>,
}

impl Arrival {
    /// Whether the two travel as the same bytes.
    pub fn travels_as(&self, other: &Arrival) -> bool {
        self.header == other.header
            && (&self.metadata, &self.cryptogram, &self.tag) == (&other.metadata, &other.cryptogram, &other.tag)
    }

    /// Whether there is no header, or one that fits a lone session of this letter.
    pub fn header_fits(&self, letter: u8) -> bool {
        let lengths = (self.metadata.len(), self.cryptogram.len());
        self.header.as_ref().is_none_or(|header| headers::fits(header, letter, lengths.0, lengths.1))
    }

    /// The lengths of its metadata string and of its cryptogram.
    pub fn lengths(&self) -> (usize, usize) {
        (metadata_string(self.header.as_deref(), &self.metadata).len(), self.cryptogram.len())
    }

    /// The arrival at a session of this letter with one kind of damage; it may be none for empty parts. Where its lengths are
    /// others then, a header mostly goes with them.
    pub fn damaged(&self, random: &mut Random, letter: u8, ways: &mut Ways) -> Arrival {
        if random.once_in(4) {
            return self.with_another_header(random, letter, ways);
        }
        let mut bad = self.damaged_part(random);
        if let Some(whole) = &self.header
            && !random.once_in(4)
        {
            bad.header = Some(header(letter, group_of(whole), bad.metadata.len(), bad.cryptogram.len()));
        }
        bad
    }

    /// The arrival with something else in the place of its header, or of none.
    fn with_another_header(&self, random: &mut Random, letter: u8, ways: &mut Ways) -> Arrival {
        let (a, c, group) = (self.metadata.len(), self.cryptogram.len(), random.below(32) as u32);
        let fitting = Some(header(letter, group, a, c));
        let (way, header) = match (&self.header, random.below(4)) {
            (Some(_), 0) => (DROPPED, None),
            (Some(_), 1) => (ANOTHER_GROUP, fitting),
            (None, 0 | 1) => (ADDED, fitting),
            _ => {
                let (way, bytes) = misfit(random, letter, group, a, c);
                (way, Some(bytes))
            }
        };
        ways[way] += u64::from(header != self.header);
        Arrival { header, ..self.clone() }
    }

    /// The arrival with damage in its metadata, its cryptogram or its tag.
    pub fn damaged_part(&self, random: &mut Random) -> Arrival {
        let mut bad = self.clone();
        match random.below(12) {
            0 | 1 => bad.tag = damaged(random, &self.tag),
            2 | 3 => bad.cryptogram = damaged(random, &self.cryptogram),
            4 | 5 => bad.metadata = damaged(random, &self.metadata),
            6 => bad.tag = random.bytes(self.tag.len()),
            7 => drop(bad.cryptogram.pop()),
            8 => bad.cryptogram.insert(0, 0),
            9 => drop(bad.metadata.pop()),
            10 => bad.metadata.push(0),
            _ => bad.metadata.append(&mut bad.cryptogram),
        }
        bad.metadata.truncate(16_384);
        bad.cryptogram.truncate(16_384);
        bad
    }
}
