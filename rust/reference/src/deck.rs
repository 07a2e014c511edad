//! Xoofff, the deck function (Farfalle paper, section 3, with the parameters of the Xoodoo cookbook, section 3).
//!
//! A *deck function* takes a key and a *history*, which is a sequence of strings, and gives a stream of bytes that looks
//! random to everybody without the key. It is worked out in two halves. *Compressing* goes through the history block by
//! block and sums up an *accumulator*; *expanding* makes the stream from the accumulator. The history may be continued
//! without going through the old strings again, since the accumulator only gains.

use crate::rolling::{roll_input, roll_output};
use crate::xoodoo::{BLOCK, State, XOOFFF_ROUNDS, from_bytes, permute, sum, to_bytes};

/// Xoodoo with the six rounds that Xoofff takes everywhere.
pub fn p(state: &State) -> State {
    #[cfg(test)]
    tests::count_one();
    permute(state, XOOFFF_ROUNDS)
}

/// One string of a history: whole bytes, then the *frame bits*, which tell apart what strings are for.
#[derive(Clone, Debug, PartialEq, Eq)]
pub struct Text {
    /// The bytes; bit 0 of a byte is its least significant and comes first.
    pub bytes: Vec<u8>,
    /// The bits after the bytes, the first one first; at most 7.
    pub frame: Vec<bool>,
}

impl Text {
    /// The string of these bytes and frame bits.
    pub fn new(bytes: &[u8], frame: &[bool]) -> Text {
        Text { bytes: bytes.to_vec(), frame: frame.to_vec() }
    }
}

/// The padded string: the bytes, the frame bits, one 1-bit, and the fewest 0-bits that reach a whole number of blocks.
///
/// # Panics
///
/// If there are more than 7 frame bits: they and the 1-bit fill up one byte here.
pub fn pad(bytes: &[u8], frame: &[bool]) -> Vec<u8> {
    assert!(frame.len() <= 7, "at most 7 frame bits");
    let mut last = 1 << frame.len();
    for (i, bit) in frame.iter().enumerate() {
        last |= u8::from(*bit) << i;
    }
    let mut padded = bytes.to_vec();
    padded.push(last);
    padded.resize(padded.len().next_multiple_of(BLOCK), 0);
    padded
}

/// The number of blocks of a padded string of so many bytes with at most 7 frame bits.
pub fn blocks(length: usize) -> usize {
    length / BLOCK + 1
}

/// Where compressing has got to: all that the strings so far have left behind.
#[derive(Clone, Debug, PartialEq, Eq)]
pub struct Deck {
    /// The sum of the permuted blocks so far.
    pub accumulator: State,
    /// The key's mask, rolled `index` times.
    pub mask: State,
    /// The input index: the number of the next block, with one number left blank after each string.
    pub index: u64,
}

impl Deck {
    /// The deck function of this key with an empty history.
    ///
    /// # Panics
    ///
    /// If the key has more than 47 bytes.
    pub fn start(key: &[u8]) -> Deck {
        let padded = pad(key, &[]);
        let block: &[u8; BLOCK] = padded.as_slice().try_into().expect("a key has at most 47 bytes");
        Deck { accumulator: [0; 12], mask: p(&from_bytes(block)), index: 0 }
    }

    /// The deck function of this key after all strings of a history, the oldest first.
    pub fn of(key: &[u8], history: &[Text]) -> Deck {
        let mut deck = Deck::start(key);
        for text in history {
            deck.compress(&text.bytes, &text.frame);
        }
        deck
    }

    /// The mask of the next index.
    fn roll(&mut self) {
        self.mask = roll_input(&self.mask);
        self.index += 1;
    }

    /// The history gains one string.
    pub fn compress(&mut self, bytes: &[u8], frame: &[bool]) {
        for block in pad(bytes, frame).chunks_exact(BLOCK) {
            let block = from_bytes(block.try_into().expect("a whole block"));
            self.accumulator = sum(&self.accumulator, &p(&sum(&block, &self.mask)));
            self.roll();
        }
        self.roll();
    }

    /// Fills `out` with the output for the history so far, from byte `offset` of the stream on.
    pub fn output(&self, offset: usize, out: &mut [u8]) {
        let mut rolling = p(&self.accumulator);
        for _ in 0..offset / BLOCK {
            rolling = roll_output(&rolling);
        }
        let mut skip = offset % BLOCK;
        let mut done = 0;
        while done < out.len() {
            let block = to_bytes(&sum(&p(&rolling), &self.mask));
            let taken = (BLOCK - skip).min(out.len() - done);
            out[done..done + taken].copy_from_slice(&block[skip..skip + taken]);
            done += taken;
            skip = 0;
            rolling = roll_output(&rolling);
        }
    }
}

/// Xoofff as one function: `length` bytes from byte `offset` of the output for this key and history.
pub fn xoofff(key: &[u8], history: &[Text], offset: usize, length: usize) -> Vec<u8> {
    let mut out = vec![0; length];
    Deck::of(key, history).output(offset, &mut out);
    out
}

#[cfg(test)]
pub(crate) mod tests {
    use std::cell::Cell;

    thread_local! {
        static PERMUTATIONS: Cell<u32> = const { Cell::new(0) };
    }

    /// Called at each permutation.
    pub(super) fn count_one() {
        PERMUTATIONS.with(|n| n.set(n.get() + 1));
    }

    /// The number of permutations that `run` really makes.
    pub(crate) fn counted<T>(run: impl FnOnce() -> T) -> (T, u32) {
        let before = PERMUTATIONS.with(Cell::get);
        let result = run();
        (result, PERMUTATIONS.with(Cell::get) - before)
    }
}
