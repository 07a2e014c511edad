//! The steps of SANE over the full history: algorithm 2 of the cookbook.

use super::{Algorithm, DeckFunction, LedgerOf, SaneLedger, Steps, sum};
use crate::deck::Text;
use crate::limits::{SANE_TAG, check_key, check_lengths};
use crate::refusal::Number;
use crate::sane::{KEYSTREAM, NONCE_FRAME, Sane, cryptogram_frame, start_count};

/// A text plus the output for the history so far, behind the bytes that are kept for tags; in SANE and in old letters.
pub(super) fn crypt<M>(ledger: &LedgerOf<M>, text: &[u8]) -> Vec<u8> {
    sum(text, &ledger.output(&ledger.history, KEYSTREAM, text.len()))
}

/// The history after metadata and cryptogram.
fn after(ledger: &SaneLedger, metadata: &[u8], cryptogram: &[u8]) -> Vec<Text> {
    let mut history = ledger.after_metadata(metadata, cryptogram.len());
    if !cryptogram.is_empty() {
        history.push(Text::new(cryptogram, &cryptogram_frame(ledger.toggle)));
    }
    history
}

impl Algorithm for Sane {
    fn wrap_steps(ledger: &SaneLedger, metadata: &[u8], message: &[u8]) -> Steps {
        let cryptogram = crypt(ledger, message);
        let history = after(ledger, metadata, &cryptogram);
        Steps { output: cryptogram, tag: ledger.output(&history, 0, SANE_TAG), history }
    }

    fn unwrap_steps(ledger: &SaneLedger, metadata: &[u8], cryptogram: &[u8], _arrived: &[u8]) -> Steps {
        let message = crypt(ledger, cryptogram);
        let history = after(ledger, metadata, cryptogram);
        Steps { output: message, tag: ledger.output(&history, 0, SANE_TAG), history }
    }
}

/// A start with a nonce, of SANE or of old letters.
pub(super) fn started<M: Algorithm>(
    key: &[u8],
    nonce: &[u8],
    tag: &mut [u8],
    deck: DeckFunction,
) -> Result<(LedgerOf<M>, u32), Number> {
    check_key(key)?;
    check_lengths(&[nonce.len()], tag.len(), M::TAG)?;
    let ledger = LedgerOf::<M>::opened(key, vec![Text::new(nonce, &NONCE_FRAME)], deck);
    tag.copy_from_slice(&ledger.output(&ledger.history, 0, M::TAG));
    Ok((ledger, start_count(nonce.len())))
}

impl SaneLedger {
    /// The ledger of a session that was just started: the nonce is the first string of its history. The start's tag goes to
    /// `tag`. Gives the ledger and the count of permutations. Meets 4, 6 for the nonce, and 7.
    pub fn start(key: &[u8], nonce: &[u8], tag: &mut [u8], deck: DeckFunction) -> Result<(SaneLedger, u32), Number> {
        started(key, nonce, tag, deck)
    }
}
