//! Envelopes: `pevghazo/envelope.h`.

use std::mem::{offset_of, size_of};

/// An envelope as it was read: the places where its parts begin, and the place after it.
#[repr(C)]
#[must_use = "the reading may have been refused"]
#[derive(Clone, Copy, Debug, PartialEq, Eq)]
pub struct Parts {
    /// 0, or the refusal's number.
    pub number: u32,
    /// The letter, or zero on a refusal.
    pub letter: u8,
    /// The group.
    pub group: u32,
    /// Where the metadata begin.
    pub metadata: usize,
    /// Where the cryptogram begins.
    pub cryptogram: usize,
    /// Where the tag begins.
    pub tag: usize,
    /// The place after the envelope.
    pub place: usize,
}

/// An envelope, or a header, as it was written.
#[repr(C)]
#[must_use = "the writing may have been refused"]
#[derive(Clone, Copy, Debug, PartialEq, Eq)]
pub struct Written {
    /// 0, or the refusal's number.
    pub number: u32,
    /// Its bytes, or 0.
    pub len: usize,
}

// The layouts of the header on x86-64.
const _: () = assert!(size_of::<Parts>() == 48 && offset_of!(Parts, letter) == 4 && offset_of!(Parts, group) == 8);
const _: () = assert!(offset_of!(Parts, metadata) == 16 && offset_of!(Parts, place) == 40);
const _: () = assert!(size_of::<Written>() == 16 && offset_of!(Written, len) == 8);

unsafe extern "C" {
    fn pevghazo_read_envelope(bytes: *const u8, bytes_len: usize) -> Parts;
    fn pevghazo_write_envelope(
        letter: u8,
        group: u32,
        metadata: *const u8,
        metadata_len: usize,
        cryptogram: *const u8,
        cryptogram_len: usize,
        tag: *const u8,
        tag_len: usize,
        out: *mut u8,
        out_len: usize,
    ) -> Written;
    pub(super) fn pevghazo_write_header(
        letter: u8,
        group: u32,
        metadata_len: usize,
        message_len: usize,
        out: *mut u8,
        out_len: usize,
    ) -> Written;
}

/// Reads the envelope at the start of the bytes. Checks 1 and 2.
pub fn read_envelope(bytes: &[u8]) -> Parts {
    // SAFETY: see the module's head.
    unsafe { pevghazo_read_envelope(bytes.as_ptr(), bytes.len()) }
}

/// Writes an envelope. Checks 18 (for the letter F), 1 (for a letter that there is not), 3, 6, 7 and 8.
pub fn write_envelope(
    letter: u8,
    group: u32,
    metadata: &[u8],
    cryptogram: &[u8],
    tag: &[u8],
    out: &mut [u8],
) -> Written {
    // SAFETY: see the module's head.
    unsafe {
        pevghazo_write_envelope(
            letter,
            group,
            metadata.as_ptr(),
            metadata.len(),
            cryptogram.as_ptr(),
            cryptogram.len(),
            tag.as_ptr(),
            tag.len(),
            out.as_mut_ptr(),
            out.len(),
        )
    }
}

/// Writes the header of an envelope with these lengths of metadata and message. Checks 18 (for the letter F), 1 (for a letter that
/// there is not), 3, 6 and 8.
pub fn write_header(letter: u8, group: u32, metadata_len: usize, message_len: usize, out: &mut [u8]) -> Written {
    // SAFETY: see the module's head.
    unsafe { pevghazo_write_header(letter, group, metadata_len, message_len, out.as_mut_ptr(), out.len()) }
}
