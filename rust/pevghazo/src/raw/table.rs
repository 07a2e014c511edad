//! The office's table: `pevghazo/table.h`.

use std::mem::{offset_of, size_of};

use super::Record;
use super::bind::bind;
use super::stack::clear_stack;

/// A group's record: its session, and beside it the group's own count of the day. The session is set to zero when it is dropped,
/// as a lone one is.
#[repr(C)]
pub struct GroupRecord {
    /// The session.
    pub session: Record,
    /// The permutations of this group's calls since the day began.
    pub count: u32,
}

/// What the nearly-full question gives.
#[repr(C)]
#[must_use = "the question may have been refused"]
#[derive(Clone, Copy, Debug, PartialEq, Eq)]
pub struct Found {
    /// 0, or the refusal's number.
    pub number: u32,
    /// Whether a group is named: never with a refusal.
    pub found: bool,
    /// The group, or 0 where none is named.
    pub group: u32,
}

// The layouts of the header on x86-64.
const _: () = assert!(size_of::<GroupRecord>() == 108 && offset_of!(GroupRecord, count) == 104);
const _: () = assert!(size_of::<Found>() == 12 && offset_of!(Found, group) == 8);

unsafe extern "C" {
    pub(super) fn pevghazo_start_day(records: *mut GroupRecord, length: usize, allowance: u32) -> u32;
    fn pevghazo_nearly_full(table: *const GroupRecord, table_len: usize, mark: u32) -> Found;
}

impl GroupRecord {
    /// A closed session, with a count of 0.
    pub const fn closed() -> GroupRecord {
        GroupRecord { session: Record::closed(), count: 0 }
    }
}

/// Starts a day over any number of records: every count becomes 0, and every session stays. Gives the allowance. Never refused.
pub fn start_day(records: &mut [GroupRecord], allowance: u32) -> u32 {
    // SAFETY: see the module's head.
    let allowance = unsafe { pevghazo_start_day(records.as_mut_ptr(), records.len(), allowance) };
    clear_stack();
    allowance
}

bind! {
    (table: &mut [GroupRecord], group: u32, allowance: u32;
     table.as_mut_ptr() => *mut GroupRecord, table.len() => usize, group => u32, allowance => u32);
    /// Opens a group. Checks 3, 4 and 10; a refusal leaves the record.
    open_group = pevghazo_open_group [key] -> [];
    /// Wraps for a group. Checks 3 and 5 to 10.
    wrap_group = pevghazo_wrap_group [metadata, message] -> [out, tag];
    /// Unwraps for a group. Checks 3 and 5 to 11; 11 adds its count to the group's, and alters nothing else in the record.
    unwrap_group = pevghazo_unwrap_group [metadata, cryptogram, tag] -> [out];
    /// Wraps for a group, for the envelope with this header. Check 1, for a header that is not the call's, then 3 and 5 to 10.
    wrap_envelope_group = pevghazo_wrap_envelope_group [header, metadata, message] -> [out, tag];
    /// Unwraps for a group what arrived in the envelope with this header. Check 1, for a header that is not the call's, then 3 and 5
    /// to 11; 11 adds its count to the group's, and alters nothing else in the record.
    unwrap_envelope_group = pevghazo_unwrap_envelope_group [header, metadata, cryptogram, tag] -> [out];
    /// [`wrap_group`] by four.
    wrap_group_four = pevghazo_wrap_group_four [metadata, message] -> [out, tag];
    /// [`unwrap_group`] by four.
    unwrap_group_four = pevghazo_unwrap_group_four [metadata, cryptogram, tag] -> [out];
    /// [`wrap_envelope_group`] by four.
    wrap_envelope_group_four = pevghazo_wrap_envelope_group_four [header, metadata, message] -> [out, tag];
    /// [`unwrap_envelope_group`] by four.
    unwrap_envelope_group_four = pevghazo_unwrap_envelope_group_four [header, metadata, cryptogram, tag] -> [out];
}

/// The lowest group that is open with an index above the mark; none exactly where there is none. Check 3, exactly where the table
/// does not hold 32 records.
pub fn nearly_full(table: &[GroupRecord], mark: u32) -> Found {
    // SAFETY: see the module's head.
    let found = unsafe { pevghazo_nearly_full(table.as_ptr(), table.len(), mark) };
    clear_stack();
    found
}
