//! One end of a session kept as key and full history (document 01, "The two ends of demand 3").
//!
//! A *ledger* is document 01's word for this: it is fed what each call at its end is handed beside the record, and works the
//! deck function out from the first string on at each call. Nothing is carried along but the key, the history and the toggle,
//! and the steps of each mode are written as in its paper's algorithm, so it says what a record's answers should have been.
//! Where a call is handed a header (document 02, request 7), it is fed that too, and judges it by writing the headers that fit.

mod sae;
mod sane;
mod sanse;

use std::marker::PhantomData;

use crate::deck::{Deck, Text};
use crate::envelope::{GROUP_MAX, header_bytes};
use crate::limits::{INDEX_MAX, LENGTH_MAX, check_lengths};
use crate::refusal::{Number, Refusal};
use crate::sae::Sae;
use crate::sane::Sane;
use crate::sanse::Sanse;
use crate::session::{Header, Mode, Record, Scheme, metadata_frame, metadata_string};

/// A deck function of key, history, offset and length, all in bytes: [`crate::deck::xoofff`] or [`crate::bits::xoofff`].
pub type DeckFunction = fn(&[u8], &[Text], usize, usize) -> Vec<u8>;

/// The ledger of a session of SANSE.
pub type Ledger = LedgerOf<Sanse>;

/// The ledger of a session of SANE, whose history opens with the nonce.
pub type SaneLedger = LedgerOf<Sane>;

/// The ledger of a session of old letters, whose history opens with the nonce.
pub type SaeLedger = LedgerOf<Sae>;

/// Key, history and toggle of one end, in a mode.
#[derive(Clone, Debug)]
pub struct LedgerOf<M> {
    /// The key.
    pub key: Vec<u8>,
    /// The strings that start and accepted messages have left so far, the oldest first.
    pub history: Vec<Text>,
    /// The toggle e.
    pub toggle: bool,
    /// What the steps ask for tags, keystream and codes.
    deck: DeckFunction,
    mode: PhantomData<M>,
}

/// What a call gives that meets no check before the tag's.
pub struct Steps {
    /// The cryptogram, or the message.
    pub output: Vec<u8>,
    /// The tag that the steps find.
    pub tag: Vec<u8>,
    /// The history afterwards.
    pub history: Vec<Text>,
}

/// A scheme's algorithm as its paper prints it, over the full history.
pub trait Algorithm: Scheme {
    /// The steps of wrap; the metadata are the string that a call takes for them.
    fn wrap_steps(ledger: &LedgerOf<Self>, metadata: &[u8], message: &[u8]) -> Steps;

    /// The steps of unwrap, likewise, with the tag that arrived.
    fn unwrap_steps(ledger: &LedgerOf<Self>, metadata: &[u8], cryptogram: &[u8], arrived: &[u8]) -> Steps;
}

/// The sum of two strings of one length.
fn sum(a: &[u8], b: &[u8]) -> Vec<u8> {
    a.iter().zip(b).map(|(a, b)| a ^ b).collect()
}

/// The index after a history: each string counts its blocks and one more.
fn index(history: &[Text]) -> usize {
    history.iter().map(|text| text.bytes.len() / 48 + 2).sum()
}

impl<M> LedgerOf<M> {
    /// The ledger that opens with this history.
    fn opened(key: &[u8], history: Vec<Text>, deck: DeckFunction) -> LedgerOf<M> {
        LedgerOf { key: key.to_vec(), history, toggle: false, deck, mode: PhantomData }
    }

    /// The record that a session with this key and history must have.
    pub fn record(&self) -> Record<M> {
        let deck = Deck::of(&self.key, &self.history);
        Record {
            accumulator: deck.accumulator,
            mask: deck.mask,
            index: u32::try_from(index(&self.history)).expect("an index within its limit"),
            toggle: self.toggle,
            open: true,
            mode: PhantomData,
        }
    }

    /// The deck function of a history under this key.
    fn output(&self, history: &[Text], offset: usize, length: usize) -> Vec<u8> {
        (self.deck)(&self.key, history, offset, length)
    }

    /// The history after the metadata's step.
    fn after_metadata(&self, metadata: &[u8], message: usize) -> Vec<Text> {
        let mut history = self.history.clone();
        if !metadata.is_empty() || message == 0 {
            history.push(Text::new(metadata, &metadata_frame(self.toggle)));
        }
        history
    }
}

impl<M: Algorithm> LedgerOf<M> {
    /// The checks 6 to 9, with these bytes before the metadata in the metadata string; a ledger's session is always open.
    fn check(&self, head: &[u8], metadata: &[u8], message: &[u8], tag: &[u8], output: &[u8]) -> Result<(), Number> {
        check_lengths(&[metadata.len(), message.len()], tag.len(), M::TAG)?;
        if output.len() < message.len() {
            return Err(Number::Buffer);
        }
        let mut history = self.after_metadata(&metadata_string(Some(head), metadata), message.len());
        if !message.is_empty() {
            history.push(Text::new(message, &[]));
        }
        if index(&history) > INDEX_MAX as usize { Err(Number::Full) } else { Ok(()) }
    }

    /// Takes in the history of an accepted message.
    fn accept(&mut self, history: Vec<Text>) {
        self.history = history;
        self.toggle ^= M::TOGGLES;
    }

    /// Wraps with these bytes before the metadata, or none.
    fn wrap_after(
        &mut self,
        head: &[u8],
        metadata: &[u8],
        message: &[u8],
        cryptogram: &mut [u8],
        tag: &mut [u8],
    ) -> Result<u32, Refusal> {
        self.check(head, metadata, message, tag, cryptogram)?;
        let string = metadata_string(Some(head), metadata);
        let steps = M::wrap_steps(self, &string, message);
        cryptogram[..message.len()].copy_from_slice(&steps.output);
        tag.copy_from_slice(&steps.tag);
        self.accept(steps.history);
        Ok(M::count(string.len(), message.len()))
    }

    /// Unwraps likewise.
    fn unwrap_after(
        &mut self,
        head: &[u8],
        metadata: &[u8],
        cryptogram: &[u8],
        tag: &[u8],
        message: &mut [u8],
    ) -> Result<u32, Refusal> {
        self.check(head, metadata, cryptogram, tag, message)?;
        let string = metadata_string(Some(head), metadata);
        let steps = M::unwrap_steps(self, &string, cryptogram, tag);
        let count = M::count(string.len(), cryptogram.len());
        if steps.tag != tag {
            message[..cryptogram.len()].fill(0);
            return Err(Refusal { number: Number::Tag, count });
        }
        message[..cryptogram.len()].copy_from_slice(&steps.output);
        self.accept(steps.history);
        Ok(count)
    }

    /// Unwraps; the arguments and answers are those of [`Record::unwrap`].
    pub fn unwrap(
        &mut self,
        metadata: &[u8],
        cryptogram: &[u8],
        tag: &[u8],
        message: &mut [u8],
    ) -> Result<u32, Refusal> {
        self.unwrap_after(&[], metadata, cryptogram, tag, message)
    }
}

impl<M: Algorithm + Mode> LedgerOf<M> {
    /// Check 1: whether a header, if there is one, is one of the layout's for this mode, some group, and metadata and message of these
    /// lengths.
    fn check_header(header: Header<'_>, metadata: usize, message: usize) -> Result<(), Number> {
        let in_limits = metadata <= LENGTH_MAX && message <= LENGTH_MAX;
        let fits = |header| (0..=GROUP_MAX).any(|group| header == header_bytes(M::LETTER, group, metadata, message));
        if header.is_none_or(|header| in_limits && fits(header)) { Ok(()) } else { Err(Number::Header) }
    }

    /// Wraps; the arguments and answers are those of [`Record::wrap`].
    pub fn wrap(
        &mut self,
        metadata: &[u8],
        message: &[u8],
        cryptogram: &mut [u8],
        tag: &mut [u8],
    ) -> Result<u32, Refusal> {
        self.wrap_for(None, metadata, message, cryptogram, tag)
    }

    /// Wraps for an envelope, or without one; the arguments and answers are those of [`Record::wrap_for`].
    pub fn wrap_for(
        &mut self,
        header: Header<'_>,
        metadata: &[u8],
        message: &[u8],
        cryptogram: &mut [u8],
        tag: &mut [u8],
    ) -> Result<u32, Refusal> {
        LedgerOf::<M>::check_header(header, metadata.len(), message.len())?;
        self.wrap_after(header.unwrap_or_default(), metadata, message, cryptogram, tag)
    }

    /// Unwraps for an envelope, or without one; the arguments and answers are those of [`Record::unwrap_for`].
    pub fn unwrap_for(
        &mut self,
        header: Header<'_>,
        metadata: &[u8],
        cryptogram: &[u8],
        tag: &[u8],
        message: &mut [u8],
    ) -> Result<u32, Refusal> {
        LedgerOf::<M>::check_header(header, metadata.len(), cryptogram.len())?;
        self.unwrap_after(header.unwrap_or_default(), metadata, cryptogram, tag, message)
    }
}
