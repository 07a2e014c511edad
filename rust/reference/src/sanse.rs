//! Xoofff-SANSE: start, wrap and unwrap of a session (Xoodoo cookbook, section 5; counts of document 01).
//!
//! The tag has 32 bytes. It is worked out first, from the history with metadata and message, and the keystream comes from the
//! history with metadata and tag: so two messages have one keystream only where everything up to their tags is the same.

use crate::deck::{Deck, blocks};
use crate::envelope::SANSE_LETTER;
use crate::limits::{TAG, check_key};
use crate::refusal::Number;
use crate::session::{Mode, Scheme, Session, add_keystream, compress_metadata};
pub use crate::session::{growth, metadata_frame};
use crate::xoodoo::BLOCK;

/// The mode Xoofff-SANSE.
#[derive(Clone, Copy, Debug, PartialEq, Eq)]
pub struct Sanse;

/// The frame bits after a message.
pub fn message_frame(toggle: bool) -> [bool; 3] {
    [false, true, toggle]
}

/// The frame bits after a tag, where the keystream is asked for.
pub fn tag_frame(toggle: bool) -> [bool; 3] {
    [true, true, toggle]
}

/// The permutations of a call with metadata and message of these lengths.
pub fn count(metadata: usize, message: usize) -> u32 {
    let permutations = if message == 0 {
        blocks(metadata) + 2
    } else {
        let a = if metadata == 0 { 0 } else { blocks(metadata) };
        a + blocks(message) + 4 + message.div_ceil(BLOCK)
    };
    u32::try_from(permutations).expect("lengths within their limits")
}

/// The history with the tag as its newest string, which gives the keystream.
fn with_tag(history: &Deck, toggle: bool, tag: &[u8]) -> Deck {
    let mut with_tag = history.clone();
    with_tag.compress(tag, &tag_frame(toggle));
    with_tag
}

impl Mode for Sanse {
    const LETTER: u8 = SANSE_LETTER;
}

impl Scheme for Sanse {
    const TAG: usize = TAG;
    const TOGGLES: bool = true;

    fn count(metadata: usize, message: usize) -> u32 {
        count(metadata, message)
    }

    fn wrap(
        mut history: Deck,
        toggle: bool,
        metadata: &[u8],
        message: &[u8],
        cryptogram: &mut [u8],
        tag: &mut [u8],
    ) -> Deck {
        compress_metadata(&mut history, &metadata_frame(toggle), metadata, message.len());
        if message.is_empty() {
            history.output(0, tag);
            return history;
        }
        let mut with_message = history.clone();
        with_message.compress(message, &message_frame(toggle));
        with_message.output(0, tag);
        add_keystream(&with_tag(&history, toggle, tag), 0, message, cryptogram);
        with_message
    }

    fn unwrap(
        mut history: Deck,
        toggle: bool,
        metadata: &[u8],
        cryptogram: &[u8],
        tag: &[u8],
        message: &mut [u8],
    ) -> Deck {
        compress_metadata(&mut history, &metadata_frame(toggle), metadata, cryptogram.len());
        if !cryptogram.is_empty() {
            add_keystream(&with_tag(&history, toggle, tag), 0, cryptogram, message);
            history.compress(message, &message_frame(toggle));
        }
        history
    }
}

impl Session {
    /// The permutations of an accepted start.
    pub const START_COUNT: u32 = 1;

    /// Starts a session under a key. Meets 4; a refused start gives a closed record, so a caller that lent one holds
    /// [`Session::CLOSED`](crate::session::Record::CLOSED) afterwards.
    pub fn start(key: &[u8]) -> Result<Session, Number> {
        check_key(key)?;
        Ok(Session::opened(Deck::start(key)))
    }
}

#[cfg(test)]
mod tests {
    use super::*;
    use crate::deck::tests::counted;
    use crate::session::tests::check_counts;

    #[test]
    fn counts_are_the_permutations_made() {
        let (session, made) = counted(|| Session::start(&[7; 16]));
        assert_eq!(made, Session::START_COUNT);
        check_counts(&session.unwrap(), Some(SANSE_LETTER));
    }
}
