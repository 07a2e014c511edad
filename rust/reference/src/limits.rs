//! The limits of keys, texts, tags and indexes (document 01, "Counts and limits"; document 02 for those of SANE
//! and of old letters).

use crate::refusal::Number;

/// The fewest bytes of a key.
pub const KEY_MIN: usize = 16;
/// The most bytes of a key.
pub const KEY_MAX: usize = 47;
/// The bytes of a tag of SANSE.
pub const TAG: usize = 32;
/// The bytes of a tag of SANE.
pub const SANE_TAG: usize = 16;
/// The bytes of a tag of old letters.
pub const SAE_TAG: usize = 16;
/// The most bytes of metadata, of a message, and of a nonce.
pub const LENGTH_MAX: usize = 16_384;
/// The highest index that a session may reach.
pub const INDEX_MAX: u32 = 1_048_576;

/// Check 4.
pub(crate) fn check_key(key: &[u8]) -> Result<(), Number> {
    if (KEY_MIN..=KEY_MAX).contains(&key.len()) { Ok(()) } else { Err(Number::Key) }
}

/// Check 6, of texts with these lengths.
pub(crate) fn check_texts(texts: &[usize]) -> Result<(), Number> {
    if texts.iter().any(|length| *length > LENGTH_MAX) { Err(Number::TooLong) } else { Ok(()) }
}

/// The checks 6 and 7, which sessions and envelopes share: of texts with these lengths, and of a tag that must have
/// `tag_length` bytes.
pub(crate) fn check_lengths(texts: &[usize], tag: usize, tag_length: usize) -> Result<(), Number> {
    check_texts(texts)?;
    if tag != tag_length {
        return Err(Number::TagLength);
    }
    Ok(())
}
