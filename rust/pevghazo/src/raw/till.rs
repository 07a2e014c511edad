//! Charging for rings: `pevghazo/till.h`. Nothing here is secret, so the stack is not overwritten after the call.

use std::mem::{offset_of, size_of};

/// The prices of a hundred rings of the sizes A to H, in this order, in pence.
#[repr(C)]
#[derive(Clone, Copy, Debug, PartialEq, Eq, Hash)]
pub struct PricesRecord {
    /// The prices.
    pub sizes: [u32; 8],
}

/// A till, of any content.
#[repr(C)]
#[derive(Clone, Copy, Debug, PartialEq, Eq, Hash)]
pub struct TillRecord {
    /// How many lines were priced.
    pub lines: u64,
    /// The total charged, in pence.
    pub charged: u64,
    /// The exact total, in hundredths of a penny.
    pub exact: u64,
}

/// What pricing a line gives.
#[repr(C)]
#[must_use = "the line may have been refused"]
#[derive(Clone, Copy, Debug, PartialEq, Eq)]
pub struct Priced {
    /// 0, or the refusal's number.
    pub number: u32,
    /// The line's charge in pence, or 0 with a refusal.
    pub charge: u64,
    /// The till afterwards; with a refusal the one that was handed in.
    pub till: TillRecord,
}

// The layouts of the header on x86-64.
const _: () = assert!(size_of::<PricesRecord>() == 32);
const _: () = assert!(size_of::<TillRecord>() == 24 && offset_of!(TillRecord, lines) == 0);
const _: () = assert!(offset_of!(TillRecord, charged) == 8 && offset_of!(TillRecord, exact) == 16);
const _: () = assert!(size_of::<Priced>() == 40 && offset_of!(Priced, number) == 0);
const _: () = assert!(offset_of!(Priced, charge) == 8 && offset_of!(Priced, till) == 16);

unsafe extern "C" {
    fn pevghazo_price(till: TillRecord, prices: PricesRecord, line: *const u8, line_len: usize) -> Priced;
}

/// Prices an issue line, its line feed included. Checks 13, 16, 19 and 22, in this order.
pub fn price(till: TillRecord, prices: PricesRecord, line: &[u8]) -> Priced {
    // SAFETY: see the module's head.
    unsafe { pevghazo_price(till, prices, line.as_ptr(), line.len()) }
}
