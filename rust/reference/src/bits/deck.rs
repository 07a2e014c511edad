//! The deck function, with its indexes counted as in the Farfalle paper.

use super::rolling::times;
use super::{Bits, WIDTH, of_bytes, permute, roll_input, roll_output, sum, to_bytes};
use crate::deck::Text;

/// The string, one 1-bit, and the fewest 0-bits that reach a multiple of 384.
pub fn pad(bits: &[bool]) -> Bits {
    let mut padded = bits.to_vec();
    padded.push(true);
    while !padded.len().is_multiple_of(WIDTH) {
        padded.push(false);
    }
    padded
}

/// What compressing a history gives: the accumulator x, the mask k' (the key's mask k rolled I times), and the index I.
pub fn compress(key: &[bool], history: &[Bits]) -> (Bits, Bits, usize) {
    let k = permute(&pad(key), 6);
    let mut x = vec![false; WIDTH];
    let mut index = 0;
    for string in history {
        let padded = pad(string);
        // The mask of block number j of this string is k rolled index + j times; it is worked out anew for each string.
        let mut mask = times(&k, index, roll_input);
        for block in padded.chunks(WIDTH) {
            x = sum(&x, &permute(&sum(block, &mask), 6));
            mask = roll_input(&mask);
        }
        index += padded.len() / WIDTH + 1;
    }
    (x, times(&k, index, roll_input), index)
}

/// The deck function: `length` bits from bit `offset` of the output for this key and history.
pub fn deck(key: &[bool], history: &[Bits], offset: usize, length: usize) -> Bits {
    let (x, k, _) = compress(key, history);
    let mut rolling = permute(&x, 6);
    let mut stream = Bits::new();
    while stream.len() < offset + length {
        stream.extend(sum(&permute(&rolling, 6), &k));
        rolling = roll_output(&rolling);
    }
    stream[offset..offset + length].to_vec()
}

/// The bits of one string of a history: its bytes, then its frame bits.
pub fn of_text(text: &Text) -> Bits {
    let mut bits = of_bytes(&text.bytes);
    bits.extend(&text.frame);
    bits
}

/// [`crate::deck::xoofff`] once more, by way of [`deck`].
pub fn xoofff(key: &[u8], history: &[Text], offset: usize, length: usize) -> Vec<u8> {
    let history: Vec<Bits> = history.iter().map(of_text).collect();
    to_bytes(&deck(&of_bytes(key), &history, 8 * offset, 8 * length))
}
