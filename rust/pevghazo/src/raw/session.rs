//! A lone session: `pevghazo/session.h`.

use std::mem::{offset_of, size_of};
use std::sync::atomic::{Ordering, compiler_fence};

use super::bind::bind;

/// A session's record. It is secret, and its memory is set to zero when it is dropped; one that is moved leaves its old memory as it was,
/// so [`Session`](crate::Session) and [`Table`](crate::Table) keep theirs in boxes.
///
/// Records cannot be compared by `==`, whose time would tell where they differ:
///
/// ```compile_fail,E0369
/// use pevghazo::raw::Record;
///
/// assert!(Record::closed() == Record::closed());
/// ```
#[repr(C)]
pub struct Record {
    /// The accumulator of the history.
    pub acc: [u32; 12],
    /// The key's mask, rolled `index` times.
    pub mask: [u32; 12],
    /// The input index.
    pub index: u32,
    /// The toggle, which changes with each accepted message.
    pub toggle: bool,
    /// Whether the session is open.
    pub opened: bool,
}

/// What a call on a session gives, a lone one or a group's: its number, and the permutations done.
#[repr(C)]
#[must_use = "the call may have been refused"]
#[derive(Clone, Copy, Debug, PartialEq, Eq)]
pub struct Answer {
    /// 0, or the refusal's number.
    pub number: u32,
    /// The permutations.
    pub count: u32,
}

// The layouts of the header on x86-64.
const _: () = assert!(size_of::<Record>() == 104 && offset_of!(Record, mask) == 48 && offset_of!(Record, index) == 96);
const _: () = assert!(offset_of!(Record, toggle) == 100 && offset_of!(Record, opened) == 101);
const _: () = assert!(size_of::<Answer>() == 8);

bind! {
    (session: &mut Record; session => *mut Record);
    /// Starts a session in this record. Check 4; a refused start closes the record, and the session that it held is lost.
    start = pevghazo_start [key] -> [];
    /// Wraps. Checks 5 to 9.
    wrap = pevghazo_wrap [metadata, message] -> [out, tag];
    /// Unwraps. Checks 5 to 9 and 11.
    unwrap = pevghazo_unwrap [metadata, cryptogram, tag] -> [out];
    /// Wraps for the envelope with this header. Check 1, for a header that is not the call's, then 5 to 9.
    wrap_envelope = pevghazo_wrap_envelope [header, metadata, message] -> [out, tag];
    /// Unwraps what arrived in the envelope with this header. Check 1, for a header that is not the call's, then 5 to 9 and 11.
    unwrap_envelope = pevghazo_unwrap_envelope [header, metadata, cryptogram, tag] -> [out];
    /// [`wrap`] by four.
    wrap_four = pevghazo_wrap_four [metadata, message] -> [out, tag];
    /// [`unwrap`] by four.
    unwrap_four = pevghazo_unwrap_four [metadata, cryptogram, tag] -> [out];
    /// [`wrap_envelope`] by four.
    wrap_envelope_four = pevghazo_wrap_envelope_four [header, metadata, message] -> [out, tag];
    /// [`unwrap_envelope`] by four.
    unwrap_envelope_four = pevghazo_unwrap_envelope_four [header, metadata, cryptogram, tag] -> [out];
}

impl Record {
    /// A closed record: zero in all its numbers.
    pub const fn closed() -> Record {
        Record { acc: [0; 12], mask: [0; 12], index: 0, toggle: false, opened: false }
    }
}

impl Drop for Record {
    fn drop(&mut self) {
        overwrite(self, Record::closed());
    }
}

/// Writes a closed record over one that is being dropped.
pub(super) fn overwrite<R>(record: &mut R, closed: R) {
    let record: *mut R = record;
    // SAFETY: the record is borrowed alone. The write is volatile, so that it is not left out as one that nobody reads; what it
    // overwrites is being dropped already.
    unsafe { record.write_volatile(closed) };
    compiler_fence(Ordering::SeqCst);
}

#[cfg(test)]
mod tests {
    use super::*;
    use crate::raw::{SaeRecord, SaneRecord};
    use std::mem::MaybeUninit;

    /// A record of this kind that is dropped leaves zeros.
    macro_rules! dropped {
        ($record:ident) => {
            let record = $record { acc: [1; 12], mask: [2; 12], index: 3, toggle: true, opened: true };
            let mut place = MaybeUninit::new(record);
            // SAFETY: it is dropped once. The memory is the test's own, and dropping leaves a record there.
            let record = unsafe {
                place.assume_init_drop();
                place.assume_init_ref()
            };
            assert_eq!((record.acc, record.mask), ([0; 12], [0; 12]));
            assert_eq!((record.index, record.toggle, record.opened), (0, false, false));
        };
    }

    #[test]
    fn dropped_records_are_zero() {
        dropped!(Record);
        dropped!(SaneRecord);
        dropped!(SaeRecord);
    }
}
