//! Farfalle-SAE over Xoofff, the scheme of the first version, a trial, whose letters still open: start and unwrap of a session, and
//! the first version's own wrap (Farfalle paper, section 4.1, algorithm 2, with tags of 128 bits and an alignment of 8 bits; counts,
//! limits and refusals of document 02, request 9).
//!
//! The history begins as the nonce. A letter's keystream is the output for the history before it, from the first multiple of 8 bits
//! on that leaves room for a tag. Then the history gains the metadata with a 0-bit, and the cryptogram with a 1-bit; no toggle tells
//! one letter from the next. The tag is the start of the output for the history after the letter.

use crate::deck::Deck;
use crate::envelope::{SAE_LETTER, header_bytes};
use crate::limits::SAE_TAG;
use crate::refusal::{Number, Refusal};
use crate::sane::{count, crypt, started};
use crate::session::{SaeSession, Scheme, compress_metadata};

/// The scheme of old letters.
#[derive(Clone, Copy, Debug, PartialEq, Eq)]
pub struct Sae;

/// The frame bits after metadata.
pub const METADATA_FRAME: [bool; 1] = [false];

/// The frame bits after a cryptogram.
pub const CRYPTOGRAM_FRAME: [bool; 1] = [true];

/// The steps after the keystream's: the history gains metadata and cryptogram.
fn compress(history: &mut Deck, metadata: &[u8], cryptogram: &[u8]) {
    compress_metadata(history, &METADATA_FRAME, metadata, cryptogram.len());
    if !cryptogram.is_empty() {
        history.compress(cryptogram, &CRYPTOGRAM_FRAME);
    }
}

impl Scheme for Sae {
    const TAG: usize = SAE_TAG;
    const TOGGLES: bool = false;

    /// As in SANE.
    fn count(metadata: usize, message: usize) -> u32 {
        count(metadata, message)
    }

    fn wrap(
        mut history: Deck,
        _toggle: bool,
        metadata: &[u8],
        message: &[u8],
        cryptogram: &mut [u8],
        tag: &mut [u8],
    ) -> Deck {
        crypt(&history, message, cryptogram);
        compress(&mut history, metadata, cryptogram);
        history.output(0, tag);
        history
    }

    fn unwrap(
        mut history: Deck,
        _toggle: bool,
        metadata: &[u8],
        cryptogram: &[u8],
        _tag: &[u8],
        message: &mut [u8],
    ) -> Deck {
        crypt(&history, cryptogram, message);
        compress(&mut history, metadata, cryptogram);
        history
    }
}

impl SaeSession {
    /// Starts a session under a key with a nonce, as [`SaneSession::start`](crate::session::SaneSession::start) does.
    pub fn start(key: &[u8], nonce: &[u8], tag: &mut [u8]) -> Result<(SaeSession, u32), Number> {
        started(key, nonce, tag)
    }

    /// Meets 18 before every other check, of any record and whatever it is handed, with everything left as it was: old letters are
    /// only opened.
    pub fn wrap(
        &mut self,
        _metadata: &[u8],
        _message: &[u8],
        _cryptogram: &mut [u8],
        _tag: &mut [u8],
    ) -> Result<u32, Refusal> {
        Err(Number::ReadOnly.into())
    }

    /// The first version's wrap, so that tests have letters to open. The arguments, answers and checks are those of
    /// [`Record::wrap`](crate::session::Record::wrap) in the modes that seal.
    pub fn trial_wrap(
        &mut self,
        metadata: &[u8],
        message: &[u8],
        cryptogram: &mut [u8],
        tag: &mut [u8],
    ) -> Result<u32, Refusal> {
        self.wrap_after(&[], metadata, message, cryptogram, tag)
    }

    /// A letter as the first version sealed it: the bytes of its envelope.
    ///
    /// # Panics
    ///
    /// If the first version would have refused it.
    pub fn trial_seal(&mut self, group: u32, metadata: &[u8], message: &[u8]) -> Vec<u8> {
        let (mut cryptogram, mut tag) = (vec![0; message.len()], [0; SAE_TAG]);
        self.trial_wrap(metadata, message, &mut cryptogram, &mut tag).expect("a letter within the limits");
        let header = header_bytes(SAE_LETTER, group, metadata.len(), message.len());
        [&header, metadata, &cryptogram, &tag].concat()
    }
}

#[cfg(test)]
mod tests {
    use super::*;
    use crate::deck::tests::counted;
    use crate::session::tests::check_counts;

    #[test]
    fn counts_are_the_permutations_made() {
        for nonce in [0, 1, 47, 48, 95, 96, 16_384] {
            let (started, made) = counted(|| SaeSession::start(&[7; 16], &vec![3; nonce], &mut [0; SAE_TAG]));
            assert_eq!(started.unwrap().1, made, "a nonce of {nonce} bytes");
        }
        let mut session = SaeSession::start(&[7; 16], &[3; 20], &mut [0; SAE_TAG]).unwrap().0;
        check_counts(&session, None);
        let (answer, made) = counted(|| session.wrap(&[1; 20], &[2; 48], &mut [0; 48], &mut [0; SAE_TAG]));
        assert_eq!((answer, made), (Err(Number::ReadOnly.into()), 0));
    }
}
