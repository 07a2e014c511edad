//! Issue seasons: `pevghazo/season.h`. Nothing here is secret, so the stack is not overwritten after the calls.

use std::mem::{offset_of, size_of};

use super::PoolRecord;
use crate::Window;

/// The windows of the sizes A to H, in this order.
#[repr(C)]
#[derive(Clone, Copy, Debug, PartialEq, Eq, Hash)]
pub struct WindowsRecord {
    /// The windows.
    pub sizes: [Window; 8],
}

/// What the question for the first permitted day gives.
#[repr(C)]
#[must_use = "the question may have been refused"]
#[derive(Clone, Copy, Debug, PartialEq, Eq)]
pub struct First {
    /// 0, or the refusal's number.
    pub number: u32,
    /// Whether there is such a day: never with a refusal.
    pub found: bool,
    /// The day, or 0 where there is none.
    pub day: u32,
}

// The layouts of the header on x86-64.
const _: () =
    assert!(size_of::<Window>() == 4 && offset_of!(Window, open_month) == 0 && offset_of!(Window, open_day) == 1);
const _: () = assert!(offset_of!(Window, close_month) == 2 && offset_of!(Window, close_day) == 3);
const _: () = assert!(size_of::<WindowsRecord>() == 32);
const _: () = assert!(size_of::<First>() == 12 && offset_of!(First, found) == 4 && offset_of!(First, day) == 8);

unsafe extern "C" {
    fn pevghazo_pool_add_in_season(
        pool: *mut PoolRecord,
        windows: *const WindowsRecord,
        line: *const u8,
        line_len: usize,
    ) -> u32;
    fn pevghazo_first_day(windows: *const WindowsRecord, line: *const u8, line_len: usize) -> First;
}

/// Adds an issue line inside the season, and gives 0, or the refusal's number with the pool as it was. Checks 13, 16, 17, 14 and 15,
/// in this order.
#[must_use = "the line may have been refused"]
pub fn pool_add_in_season(pool: &mut PoolRecord, windows: &WindowsRecord, line: &[u8]) -> u32 {
    // SAFETY: see the module's head.
    unsafe { pevghazo_pool_add_in_season(pool, windows, line.as_ptr(), line.len()) }
}

/// The first permitted day from a line's own on; none exactly where no day up to the end of 2199 is permitted. Checks 13 and 16.
pub fn first_day(windows: &WindowsRecord, line: &[u8]) -> First {
    // SAFETY: see the module's head.
    unsafe { pevghazo_first_day(windows, line.as_ptr(), line.len()) }
}
