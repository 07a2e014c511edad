//! Headers that calls for envelopes are handed: ones that fit, and others, in every way in which they may be others.

use pevghazo_reference::random::Random;

/// What a call may be handed in the place of its own header. The first ones do not fit the call; the last three do, but the
/// message was wrapped otherwise.
pub const WAYS: [&str; 15] = [
    "another mode's letter",
    "a letter that there is not",
    "another length of the metadata",
    "another length of the message",
    "bytes after it",
    "a byte before it",
    "a part of it",
    "a leading zero",
    "a group above 31",
    "no bytes",
    "one byte altered",
    "any bytes",
    "another group's",
    "none, where there was one",
    "one, where there was none",
];

/// The ways in which a header does not fit.
const MISFITS: usize = 12;
/// A header that fits, of another group.
pub const ANOTHER_GROUP: usize = 12;
/// No header in the place of one.
pub const DROPPED: usize = 13;
/// A header in the place of none.
pub const ADDED: usize = 14;

/// How often a call was handed something else than its own header, by the way.
pub type Ways = [u64; WAYS.len()];

/// Each way has been there so many times.
pub fn all_were_there(ways: &Ways, least: u64) {
    for (way, times) in WAYS.iter().zip(ways) {
        assert!(*times >= least, "{way}: {times} times");
    }
}

/// The header of the layout.
pub fn header(letter: u8, group: u32, metadata: usize, message: usize) -> Vec<u8> {
    format!("{},{group},{metadata},{message},", char::from(letter)).into_bytes()
}

/// Whether bytes are the header of a call at a lone session: one of the layout, for its letter and its lengths and any group.
pub fn fits(bytes: &[u8], letter: u8, metadata: usize, message: usize) -> bool {
    metadata.max(message) <= 16_384 && (0..32).any(|group| bytes == header(letter, group, metadata, message))
}

/// The group in a header of the layout.
pub fn group_of(header: &[u8]) -> u32 {
    let text = std::str::from_utf8(header).expect("a header of the layout");
    text.split(',').nth(1).and_then(|group| group.parse().ok()).expect("a header of the layout")
}

/// A length that is not this one.
fn another_length(random: &mut Random, length: usize) -> usize {
    let other = match random.below(4) {
        0 => length + 1,
        1 => length.saturating_sub(1),
        2 => length + 16_384,
        _ => random.below(16_385),
    };
    if other == length { length + 1 } else { other }
}

/// A header with a zero before one of its numbers.
fn with_leading_zero(random: &mut Random, whole: &[u8]) -> Vec<u8> {
    let commas: Vec<usize> = (0..whole.len() - 1).filter(|i| whole[*i] == b',').collect();
    let (before, after) = whole.split_at(1 + random.pick(&commas));
    [before, b"0", after].concat()
}

/// A header that does not fit a call with this letter and these lengths, in one of the ways, and which way it is.
pub fn misfit(random: &mut Random, letter: u8, group: u32, metadata: usize, message: usize) -> (usize, Vec<u8>) {
    let whole = header(letter, group, metadata, message);
    loop {
        let way = random.below(MISFITS);
        let bytes = match way {
            0 => header(if letter == b'S' { random.pick(b"NF") } else { random.pick(b"SF") }, group, metadata, message),
            1 => header(random.pick(b"snfM,0\0 "), group, metadata, message),
            2 => header(letter, group, another_length(random, metadata), message),
            3 => header(letter, group, metadata, another_length(random, message)),
            4 => [&whole[..], &random.bytes(1 + random.clone().below(20))].concat(),
            5 => [&[random.pick(b" S,0")][..], &whole].concat(),
            6 => whole[..random.below(whole.len())].to_vec(),
            7 => with_leading_zero(random, &whole),
            8 => header(letter, random.pick(&[32, 33, 99, 256 + group, u32::MAX]), metadata, message),
            9 => Vec::new(),
            10 => super::damaged(random, &whole),
            _ => random.bytes(random.clone().below(24)),
        };
        if !fits(&bytes, letter, metadata, message) {
            return (way, bytes);
        }
    }
}

/// The header of a call, and one time in `n` one that does not fit.
pub fn maybe_misfit(
    random: &mut Random,
    ways: &mut Ways,
    n: usize,
    whole: Vec<u8>,
    lengths: (usize, usize),
) -> Vec<u8> {
    if !random.once_in(n) {
        return whole;
    }
    let group = random.below(32) as u32;
    let (way, bytes) = misfit(random, whole[0], group, lengths.0, lengths.1);
    ways[way] += 1;
    bytes
}
