//! The envelope: the bytes in which a sealed message travels (document 01, "Envelope"; document 02 for the letter).
//!
//! `S,group,A length,M length,` in decimal, then the metadata, the cryptogram and the tag. The letter is that of the mode: S
//! for SANSE, N for SANE, and F for old letters, which are read and never written (document 02, request 9); the tag's length goes by
//! it. More bytes may follow, so several envelopes can stand one after the other. A call for an envelope is handed the header, and it
//! must be the call's own (document 02, request 7).

use crate::limits::{LENGTH_MAX, SAE_TAG, SANE_TAG, TAG, check_lengths, check_texts};
use crate::refusal::Number;

/// The highest number of a group.
pub const GROUP_MAX: u32 = 31;
/// The most bytes of a header.
pub const HEADER_MAX: usize = 17;

/// The letter of SANSE.
pub const SANSE_LETTER: u8 = b'S';
/// The letter of SANE.
pub const SANE_LETTER: u8 = b'N';
/// The letter of old letters.
pub const SAE_LETTER: u8 = b'F';

/// What reading an envelope hands out. The default is what a refused reading hands out: a zero byte as letter, empty parts,
/// group 0 and place 0.
#[derive(Clone, Copy, Debug, Default, PartialEq, Eq)]
pub struct Parts<'a> {
    /// The letter.
    pub letter: u8,
    /// The group.
    pub group: u32,
    /// The header's bytes within the envelope: all before the metadata.
    pub header: &'a [u8],
    /// The metadata's bytes within the envelope.
    pub metadata: &'a [u8],
    /// The cryptogram's bytes within the envelope.
    pub cryptogram: &'a [u8],
    /// The tag's bytes within the envelope.
    pub tag: &'a [u8],
    /// The place after the envelope.
    pub place: usize,
}

/// Reads one number of the header with the comma after it, and gives it with the bytes that follow.
fn number(bytes: &[u8], max: usize) -> Option<(usize, &[u8])> {
    let comma = bytes.iter().take(HEADER_MAX).position(|byte| *byte == b',')?;
    let digits = &bytes[..comma];
    if digits.is_empty() || !digits.iter().all(u8::is_ascii_digit) || (digits[0] == b'0' && digits.len() > 1) {
        return None;
    }
    // At most 16 digits here, so the value fits.
    let value = digits.iter().fold(0u64, |value, digit| 10 * value + u64::from(digit - b'0'));
    if value > max as u64 { None } else { Some((value as usize, &bytes[comma + 1..])) }
}

/// The bytes of a tag in an envelope with this letter, if there is such a letter.
pub fn tag_length(letter: u8) -> Option<usize> {
    match letter {
        SANSE_LETTER => Some(TAG),
        SANE_LETTER => Some(SANE_TAG),
        SAE_LETTER => Some(SAE_TAG),
        _ => None,
    }
}

/// What a header says.
struct Header {
    letter: u8,
    tag: usize,
    group: u32,
    metadata: usize,
    message: usize,
}

/// Reads a header, and gives it with the bytes that follow.
fn header(bytes: &[u8]) -> Option<(Header, &[u8])> {
    let (letter, rest) = bytes.split_first()?;
    let tag = tag_length(*letter)?;
    let rest = rest.strip_prefix(b",")?;
    let (group, rest) = number(rest, GROUP_MAX as usize)?;
    let (metadata, rest) = number(rest, LENGTH_MAX)?;
    let (message, rest) = number(rest, LENGTH_MAX)?;
    Some((Header { letter: *letter, tag, group: group as u32, metadata, message }, rest))
}

/// Reads the envelope at the start of `bytes`. Meets 1 and 2, which go with [`Parts::default`].
pub fn read(bytes: &[u8]) -> Result<Parts<'_>, Number> {
    let (header, rest) = header(bytes).ok_or(Number::Header)?;
    if rest.len() < header.metadata + header.message + header.tag {
        return Err(Number::Truncated);
    }
    let before = &bytes[..bytes.len() - rest.len()];
    let (metadata, after) = rest.split_at(header.metadata);
    let (cryptogram, after) = after.split_at(header.message);
    let (tag, after) = after.split_at(header.tag);
    let place = bytes.len() - after.len();
    Ok(Parts { letter: header.letter, group: header.group, header: before, metadata, cryptogram, tag, place })
}

/// Check 1 of a call for an envelope: bytes that are not exactly one header, or one with another letter, another group than the
/// call's, if it has one, or other lengths of metadata and message.
pub(crate) fn check_header(
    bytes: &[u8],
    letter: u8,
    group: Option<u32>,
    metadata: usize,
    message: usize,
) -> Result<(), Number> {
    let (found, rest) = header(bytes).ok_or(Number::Header)?;
    let same_lengths = found.metadata == metadata && found.message == message;
    let same_group = group.is_none_or(|group| group == found.group);
    if rest.is_empty() && found.letter == letter && same_group && same_lengths { Ok(()) } else { Err(Number::Header) }
}

/// The header of an envelope.
pub fn header_bytes(letter: u8, group: u32, metadata: usize, message: usize) -> Vec<u8> {
    [&[letter][..], format!(",{group},{metadata},{message},").as_bytes()].concat()
}

/// Writes an envelope to the start of `buffer`, whose other bytes keep their content, and gives the number of its bytes.
/// Meets 18 for the letter of old letters, 1 for a letter that there is not, 3 for the group, 6, 7 by the letter, and 8 for a buffer
/// shorter than the envelope, with the buffer left as it was.
pub fn write(
    letter: u8,
    group: u32,
    metadata: &[u8],
    cryptogram: &[u8],
    tag: &[u8],
    buffer: &mut [u8],
) -> Result<usize, Number> {
    let tag_length = check_written(letter, group)?;
    check_lengths(&[metadata.len(), cryptogram.len()], tag.len(), tag_length)?;
    let header = header_bytes(letter, group, metadata.len(), cryptogram.len());
    put(&[&header, metadata, cryptogram, tag].concat(), buffer)
}

/// Writes the header alone of an envelope with these lengths of metadata and message, as [`write()`] writes an envelope. Meets 18,
/// 1, 3, 6 and 8.
pub fn write_header(
    letter: u8,
    group: u32,
    metadata: usize,
    message: usize,
    buffer: &mut [u8],
) -> Result<usize, Number> {
    check_written(letter, group)?;
    check_texts(&[metadata, message])?;
    put(&header_bytes(letter, group, metadata, message), buffer)
}

/// The checks 18, 1 and 3 of writing. Gives the length of the letter's tags.
fn check_written(letter: u8, group: u32) -> Result<usize, Number> {
    if letter == SAE_LETTER {
        return Err(Number::ReadOnly);
    }
    let tag_length = tag_length(letter).ok_or(Number::Header)?;
    if group > GROUP_MAX { Err(Number::Group) } else { Ok(tag_length) }
}

/// Puts bytes at the start of a buffer, and gives their number. Meets 8.
fn put(bytes: &[u8], buffer: &mut [u8]) -> Result<usize, Number> {
    let start = buffer.get_mut(..bytes.len()).ok_or(Number::Buffer)?;
    start.copy_from_slice(bytes);
    Ok(bytes.len())
}
