//! Xoofff-SANE: start, wrap and unwrap of a session (Xoodoo cookbook, section 4; counts, limits and refusals of document 02).
//!
//! The tag has 16 bytes. A session starts with a *nonce*, the first string of its history, and with a tag. The keystream comes
//! from the history before the message, behind the bytes that were its last tag, and the history gains the cryptogram: one
//! pass over a message is enough, but no two sessions under one key may start with one nonce.

use crate::deck::{Deck, blocks};
use crate::envelope::SANE_LETTER;
use crate::limits::{SANE_TAG, check_key, check_lengths};
use crate::refusal::Number;
use crate::session::{Mode, Record, SaneSession, Scheme, add_keystream, compress_metadata, metadata_frame};
use crate::xoodoo::BLOCK;

/// The mode Xoofff-SANE.
#[derive(Clone, Copy, Debug, PartialEq, Eq)]
pub struct Sane;

/// The frame bits after a nonce: none.
pub const NONCE_FRAME: [bool; 0] = [];

/// Where the keystream begins in the output: the fewest whole bytes that leave room for a tag.
pub const KEYSTREAM: usize = SANE_TAG;

/// The frame bits after a cryptogram.
pub fn cryptogram_frame(toggle: bool) -> [bool; 2] {
    [true, toggle]
}

/// The permutations of a start with a nonce of this length.
pub fn start_count(nonce: usize) -> u32 {
    u32::try_from(blocks(nonce) + 3).expect("a length within its limit")
}

/// The permutations of a call with metadata and message of these lengths.
pub fn count(metadata: usize, message: usize) -> u32 {
    let permutations = if message == 0 {
        blocks(metadata) + 2
    } else {
        let a = if metadata == 0 { 0 } else { blocks(metadata) };
        a + blocks(message) + 3 + (message + KEYSTREAM).div_ceil(BLOCK)
    };
    u32::try_from(permutations).expect("lengths within their limits")
}

/// The steps after the keystream's: the history gains metadata and cryptogram.
fn compress(history: &mut Deck, toggle: bool, metadata: &[u8], cryptogram: &[u8]) {
    compress_metadata(history, &metadata_frame(toggle), metadata, cryptogram.len());
    if !cryptogram.is_empty() {
        history.compress(cryptogram, &cryptogram_frame(toggle));
    }
}

/// The first step: the sum of a text and the keystream of the history so far; none is made for an empty one.
pub(crate) fn crypt(history: &Deck, input: &[u8], output: &mut [u8]) {
    if !input.is_empty() {
        add_keystream(history, KEYSTREAM, input, output);
    }
}

impl Mode for Sane {
    const LETTER: u8 = SANE_LETTER;
}

impl Scheme for Sane {
    const TAG: usize = SANE_TAG;
    const TOGGLES: bool = true;

    fn count(metadata: usize, message: usize) -> u32 {
        count(metadata, message)
    }

    fn wrap(
        mut history: Deck,
        toggle: bool,
        metadata: &[u8],
        message: &[u8],
        cryptogram: &mut [u8],
        tag: &mut [u8],
    ) -> Deck {
        crypt(&history, message, cryptogram);
        compress(&mut history, toggle, metadata, cryptogram);
        history.output(0, tag);
        history
    }

    fn unwrap(
        mut history: Deck,
        toggle: bool,
        metadata: &[u8],
        cryptogram: &[u8],
        _tag: &[u8],
        message: &mut [u8],
    ) -> Deck {
        crypt(&history, cryptogram, message);
        compress(&mut history, toggle, metadata, cryptogram);
        history
    }
}

/// A start with a nonce, of SANE or of old letters.
pub(crate) fn started<M: Scheme>(key: &[u8], nonce: &[u8], tag: &mut [u8]) -> Result<(Record<M>, u32), Number> {
    check_key(key)?;
    check_lengths(&[nonce.len()], tag.len(), M::TAG)?;
    let mut history = Deck::start(key);
    history.compress(nonce, &NONCE_FRAME);
    history.output(0, tag);
    Ok((Record::opened(history), start_count(nonce.len())))
}

impl SaneSession {
    /// Starts a session under a key with a nonce: its tag goes to `tag`. Gives the session and the count of permutations.
    /// Meets 4, 6 for the nonce, and 7, with `tag` left as it was; a refused start gives a closed record, so a caller that
    /// lent one holds [`SaneSession::CLOSED`](crate::session::Record::CLOSED) afterwards.
    pub fn start(key: &[u8], nonce: &[u8], tag: &mut [u8]) -> Result<(SaneSession, u32), Number> {
        started(key, nonce, tag)
    }
}

#[cfg(test)]
mod tests {
    use super::*;
    use crate::deck::tests::counted;
    use crate::session::tests::check_counts;

    #[test]
    fn counts_are_the_permutations_made() {
        for nonce in [0, 1, 47, 48, 95, 96, 16_384] {
            let (started, made) = counted(|| SaneSession::start(&[7; 16], &vec![3; nonce], &mut [0; SANE_TAG]));
            assert_eq!(started.unwrap().1, made, "a nonce of {nonce} bytes");
        }
        check_counts(&SaneSession::start(&[7; 16], &[3; 20], &mut [0; SANE_TAG]).unwrap().0, Some(SANE_LETTER));
    }
}
