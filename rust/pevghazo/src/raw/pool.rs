//! The pool of unused rings: `pevghazo/pool.h`. A pool is no secret, so the stack is not overwritten after its calls.

use std::mem::{offset_of, size_of};

use crate::POOL_RUNS;

/// A run's record.
#[repr(C)]
#[derive(Clone, Copy, Debug, Default, PartialEq, Eq)]
pub struct RunRecord {
    /// The size's letter, A to H.
    pub size: u32,
    /// The first number.
    pub first: u32,
    /// The last number.
    pub last: u32,
}

/// A pool's record. Its runs are the first `used` of `runs`, or all of them where `used` is above 256.
#[repr(C)]
#[derive(Clone, Debug)]
pub struct PoolRecord {
    /// How many runs there are.
    pub used: usize,
    /// The runs, in no order that means anything, and room for more.
    pub runs: [RunRecord; POOL_RUNS],
}

// The layouts of the header on x86-64.
const _: () = assert!(size_of::<RunRecord>() == 12);
const _: () = assert!(offset_of!(RunRecord, first) == 4 && offset_of!(RunRecord, last) == 8);
const _: () = assert!(size_of::<PoolRecord>() == 3080 && offset_of!(PoolRecord, runs) == 8);

unsafe extern "C" {
    fn pevghazo_pool_add(pool: *mut PoolRecord, line: *const u8, line_len: usize) -> u32;
    fn pevghazo_pool_holds(pool: *const PoolRecord, size: u32, number: u32) -> bool;
    fn pevghazo_pool_rings(pool: *const PoolRecord) -> u64;
}

impl PoolRecord {
    /// The empty pool.
    pub const fn empty() -> PoolRecord {
        PoolRecord { used: 0, runs: [RunRecord { size: 0, first: 0, last: 0 }; POOL_RUNS] }
    }
}

/// Adds an issue line, and gives 0, or the refusal's number with the pool as it was. Checks 13 to 15.
#[must_use = "the line may have been refused"]
pub fn pool_add(pool: &mut PoolRecord, line: &[u8]) -> u32 {
    // SAFETY: see the module's head.
    unsafe { pevghazo_pool_add(pool, line.as_ptr(), line.len()) }
}

/// Whether a number of a size is pooled. Never refused.
#[must_use]
pub fn pool_holds(pool: &PoolRecord, size: u32, number: u32) -> bool {
    // SAFETY: see the module's head.
    unsafe { pevghazo_pool_holds(pool, size, number) }
}

/// The rings pooled. Never refused.
#[must_use]
pub fn pool_rings(pool: &PoolRecord) -> u64 {
    // SAFETY: see the module's head.
    unsafe { pevghazo_pool_rings(pool) }
}
