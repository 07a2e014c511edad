//! The steps of SANSE over the full history: algorithm 3 of the cookbook, and the codes for packets.

use super::{Algorithm, DeckFunction, Ledger, Steps, sum};
use crate::codes::{self, CODE};
use crate::deck::Text;
use crate::limits::{TAG, check_key};
use crate::refusal::{Number, Refusal};
use crate::sanse::{Sanse, message_frame, tag_frame};

/// A history with one more string.
fn with(history: &[Text], bytes: &[u8], frame: &[bool]) -> Vec<Text> {
    let mut longer = history.to_vec();
    longer.push(Text::new(bytes, frame));
    longer
}

impl Algorithm for Sanse {
    fn wrap_steps(ledger: &Ledger, metadata: &[u8], message: &[u8]) -> Steps {
        let e = ledger.toggle;
        let history = ledger.after_metadata(metadata, message.len());
        if message.is_empty() {
            return Steps { output: Vec::new(), tag: ledger.output(&history, 0, TAG), history };
        }
        let with_message = with(&history, message, &message_frame(e));
        let tag = ledger.output(&with_message, 0, TAG);
        let keystream = ledger.output(&with(&history, &tag, &tag_frame(e)), 0, message.len());
        Steps { output: sum(message, &keystream), tag, history: with_message }
    }

    fn unwrap_steps(ledger: &Ledger, metadata: &[u8], cryptogram: &[u8], arrived: &[u8]) -> Steps {
        let e = ledger.toggle;
        let mut history = ledger.after_metadata(metadata, cryptogram.len());
        let mut output = Vec::new();
        if !cryptogram.is_empty() {
            let keystream = ledger.output(&with(&history, arrived, &tag_frame(e)), 0, cryptogram.len());
            output = sum(cryptogram, &keystream);
            history.push(Text::new(&output, &message_frame(e)));
        }
        Steps { output, tag: ledger.output(&history, 0, TAG), history }
    }
}

impl Ledger {
    /// The ledger of a session that was just started. Meets 4.
    pub fn start(key: &[u8], deck: DeckFunction) -> Result<Ledger, Number> {
        check_key(key)?;
        Ok(Ledger::opened(key, Vec::new(), deck))
    }

    /// A packet's code; the arguments and answers are those of [`Session::code`](crate::session::Session::code), but that a
    /// ledger's session is always open.
    pub fn code(&self, packet: u32, buffer: &mut [u8]) -> Result<u32, Refusal> {
        codes::check(!self.history.is_empty(), packet, buffer.len())?;
        buffer[..CODE].copy_from_slice(&self.output(&self.history, codes::place(packet), CODE));
        Ok(codes::COUNT)
    }
}
