//! A lone session of Xoofff-SANE: `pevghazo/sane.h`.

use std::mem::{offset_of, size_of};

use super::bind::bind;
use super::session::overwrite;

/// The record of a session in SANE, with the fields of a [`Record`](super::Record). It is as secret, and its memory is set to
/// zero when it is dropped; one that is moved leaves its old memory as it was, so [`SaneSession`](crate::SaneSession) keeps its
/// own in a box.
///
/// It is a kind of its own, so that no call takes a record of another mode:
///
/// ```compile_fail,E0308
/// use pevghazo::raw::{self, Record};
///
/// let mut record = Record::closed();
/// let answer = raw::sane_wrap(&mut record, b"", b"12001", &mut [0; 5], &mut [0; 16]);
/// ```
#[repr(C)]
pub struct SaneRecord {
    /// The accumulator of the history.
    pub acc: [u32; 12],
    /// The key's mask, rolled `index` times.
    pub mask: [u32; 12],
    /// The input index.
    pub index: u32,
    /// The toggle, which changes with each accepted message.
    pub toggle: bool,
    /// Whether the session is open.
    pub opened: bool,
}

// The layout of the header on x86-64.
const _: () = assert!(size_of::<SaneRecord>() == 104 && offset_of!(SaneRecord, mask) == 48);
const _: () = assert!(offset_of!(SaneRecord, index) == 96 && offset_of!(SaneRecord, toggle) == 100);
const _: () = assert!(offset_of!(SaneRecord, opened) == 101);

bind! {
    (session: &mut SaneRecord; session => *mut SaneRecord);
    /// Starts a session in this record, and fills `tag` with the start's tag. Checks 4, 6 (for the nonce) and 7; a refused start
    /// closes the record, and the session that it held is lost, but `tag` stays as it was.
    sane_start = pevghazo_sane_start [key, nonce] -> [tag];
    /// Wraps. Checks 5 to 9.
    sane_wrap = pevghazo_sane_wrap [metadata, message] -> [out, tag];
    /// Unwraps. Checks 5 to 9 and 11.
    sane_unwrap = pevghazo_sane_unwrap [metadata, cryptogram, tag] -> [out];
    /// Wraps for the envelope with this header. Check 1, for a header that is not the call's, then 5 to 9.
    sane_wrap_envelope = pevghazo_sane_wrap_envelope [header, metadata, message] -> [out, tag];
    /// Unwraps what arrived in the envelope with this header. Check 1, for a header that is not the call's, then 5 to 9 and 11.
    sane_unwrap_envelope = pevghazo_sane_unwrap_envelope [header, metadata, cryptogram, tag] -> [out];
    /// [`sane_wrap`] by four.
    sane_wrap_four = pevghazo_sane_wrap_four [metadata, message] -> [out, tag];
    /// [`sane_unwrap`] by four.
    sane_unwrap_four = pevghazo_sane_unwrap_four [metadata, cryptogram, tag] -> [out];
    /// [`sane_wrap_envelope`] by four.
    sane_wrap_envelope_four = pevghazo_sane_wrap_envelope_four [header, metadata, message] -> [out, tag];
    /// [`sane_unwrap_envelope`] by four.
    sane_unwrap_envelope_four = pevghazo_sane_unwrap_envelope_four [header, metadata, cryptogram, tag] -> [out];
}

impl SaneRecord {
    /// A closed record: zero in all its numbers.
    pub const fn closed() -> SaneRecord {
        SaneRecord { acc: [0; 12], mask: [0; 12], index: 0, toggle: false, opened: false }
    }
}

impl Drop for SaneRecord {
    fn drop(&mut self) {
        overwrite(self, SaneRecord::closed());
    }
}
