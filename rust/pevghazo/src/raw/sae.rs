//! Old letters, in lone sessions of Farfalle-SAE: `pevghazo/sae.h`.

use std::mem::{offset_of, size_of};

use super::bind::bind;
use super::session::overwrite;

/// The record of a session of old letters, with the fields of a [`Record`](super::Record). It is as secret, and its memory is set to
/// zero when it is dropped; one that is moved leaves its old memory as it was, so [`SaeSession`](crate::SaeSession) keeps its own
/// in a box.
///
/// It is a kind of its own, so that no call takes a record of another mode:
///
/// ```compile_fail,E0308
/// use pevghazo::raw::{self, SaneRecord};
///
/// let mut record = SaneRecord::closed();
/// let answer = raw::sae_unwrap(&mut record, b"", b"12001", &[0; 16], &mut [0; 5]);
/// ```
#[repr(C)]
pub struct SaeRecord {
    /// The accumulator of the history.
    pub acc: [u32; 12],
    /// The key's mask, rolled `index` times.
    pub mask: [u32; 12],
    /// The input index.
    pub index: u32,
    /// The toggle, which is false from the start on: no call alters it.
    pub toggle: bool,
    /// Whether the session is open.
    pub opened: bool,
}

// The layout of the header on x86-64.
const _: () = assert!(size_of::<SaeRecord>() == 104 && offset_of!(SaeRecord, mask) == 48);
const _: () = assert!(offset_of!(SaeRecord, index) == 96 && offset_of!(SaeRecord, toggle) == 100);
const _: () = assert!(offset_of!(SaeRecord, opened) == 101);

bind! {
    (session: &mut SaeRecord; session => *mut SaeRecord);
    /// Starts a session in this record, and fills `tag` with the start's tag. Checks 4, 6 (for the nonce) and 7; a refused start
    /// closes the record, and the session that it held is lost, but `tag` stays as it was.
    sae_start = pevghazo_sae_start [key, nonce] -> [tag];
    /// Unwraps an old letter. Checks 5 to 9 and 11.
    sae_unwrap = pevghazo_sae_unwrap [metadata, cryptogram, tag] -> [out];
    /// Always 18, before every other check, and nothing is altered.
    sae_wrap = pevghazo_sae_wrap [metadata, message] -> [out, tag];
}

impl SaeRecord {
    /// A closed record: zero in all its numbers.
    pub const fn closed() -> SaeRecord {
        SaeRecord { acc: [0; 12], mask: [0; 12], index: 0, toggle: false, opened: false }
    }
}

impl Drop for SaeRecord {
    fn drop(&mut self) {
        overwrite(self, SaeRecord::closed());
    }
}
