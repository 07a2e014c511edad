//! The steps of Farfalle-SAE over the full history: algorithm 2 of the Farfalle paper.

use super::sane::{crypt, started};
use super::{Algorithm, DeckFunction, SaeLedger, Steps};
use crate::deck::Text;
use crate::limits::SAE_TAG;
use crate::refusal::{Number, Refusal};
use crate::sae::Sae;

/// The history after a letter: A, 0 where there are metadata or no text, and then C, 1 where there is a text.
fn after(history: &[Text], metadata: &[u8], cryptogram: &[u8]) -> Vec<Text> {
    let mut history = history.to_vec();
    if !metadata.is_empty() || cryptogram.is_empty() {
        history.push(Text::new(metadata, &[false]));
    }
    if !cryptogram.is_empty() {
        history.push(Text::new(cryptogram, &[true]));
    }
    history
}

impl Algorithm for Sae {
    fn wrap_steps(ledger: &SaeLedger, metadata: &[u8], message: &[u8]) -> Steps {
        let cryptogram = crypt(ledger, message);
        let history = after(&ledger.history, metadata, &cryptogram);
        Steps { output: cryptogram, tag: ledger.output(&history, 0, SAE_TAG), history }
    }

    fn unwrap_steps(ledger: &SaeLedger, metadata: &[u8], cryptogram: &[u8], _arrived: &[u8]) -> Steps {
        let message = crypt(ledger, cryptogram);
        let history = after(&ledger.history, metadata, cryptogram);
        Steps { output: message, tag: ledger.output(&history, 0, SAE_TAG), history }
    }
}

impl SaeLedger {
    /// The ledger of a session that was just started, as that of SANE is.
    pub fn start(key: &[u8], nonce: &[u8], tag: &mut [u8], deck: DeckFunction) -> Result<(SaeLedger, u32), Number> {
        started(key, nonce, tag, deck)
    }

    /// Meets 18, as [`SaeSession::wrap`](crate::session::SaeSession::wrap) does.
    pub fn wrap(
        &mut self,
        _metadata: &[u8],
        _message: &[u8],
        _cryptogram: &mut [u8],
        _tag: &mut [u8],
    ) -> Result<u32, Refusal> {
        Err(Number::ReadOnly.into())
    }

    /// The first version's wrap; the arguments and answers are those of
    /// [`SaeSession::trial_wrap`](crate::session::SaeSession::trial_wrap).
    pub fn trial_wrap(
        &mut self,
        metadata: &[u8],
        message: &[u8],
        cryptogram: &mut [u8],
        tag: &mut [u8],
    ) -> Result<u32, Refusal> {
        self.wrap_after(&[], metadata, message, cryptogram, tag)
    }
}
