//! The calls of `include/pevghazo.h`, one to one, on slices. All of the crate's `unsafe` is in this folder, whose files are
//! those of the header.
//!
//! Programs use [`Session`](crate::Session), [`SaneSession`](crate::SaneSession), [`SaeSession`](crate::SaeSession),
//! [`Table`](crate::Table), [`Pool`](crate::Pool), [`Windows`](crate::Windows) and [`Till`](crate::Till). What is here answers with
//! the library's own numbers and takes tags and tables of any length, and pools and tills of any content, which the tests need.
//!
//! Each call hands over the pointers and lengths of slices and references, so they are not null and hold what the types say;
//! an altered one is borrowed alone, so it overlaps no other. That is all that the header asks for. Tills and prices go by value.
//! After a call on records of sessions the stack that it used is overwritten.
//!
//! Each call that wraps or unwraps, but for old letters, is there twice. Those whose names end with `_four` take four blocks of a string
//! side by side where it has them, which is faster from 192 bytes of metadata or text on, and give the same as the others in every
//! byte and count: each call of a session may be made by either, at each end.
//!
//! The answers' numbers must not be ignored:
//!
//! ```compile_fail
//! #![deny(unused_must_use)]
//! use pevghazo::raw;
//!
//! let mut record = raw::Record::closed();
//! raw::start(&mut record, &[7; 16]);
//! ```

use std::sync::atomic::{Ordering, compiler_fence};

mod bind;
#[cfg(test)]
pub(crate) mod called;
mod codes;
mod envelope;
mod pool;
mod sae;
mod sane;
mod season;
mod session;
mod stack;
mod table;
mod till;

pub use codes::code;
pub use envelope::{Parts, Written, read_envelope, write_envelope, write_header};
pub use pool::{PoolRecord, RunRecord, pool_add, pool_holds, pool_rings};
pub use sae::{SaeRecord, sae_start, sae_unwrap, sae_wrap};
pub use sane::{
    SaneRecord, sane_start, sane_unwrap, sane_unwrap_envelope, sane_unwrap_envelope_four, sane_unwrap_four, sane_wrap,
    sane_wrap_envelope, sane_wrap_envelope_four, sane_wrap_four,
};
pub use season::{First, WindowsRecord, first_day, pool_add_in_season};
pub use session::{
    Answer, Record, start, unwrap, unwrap_envelope, unwrap_envelope_four, unwrap_four, wrap, wrap_envelope,
    wrap_envelope_four, wrap_four,
};
pub(crate) use stack::clear_stack;
pub use table::{
    Found, GroupRecord, nearly_full, open_group, start_day, unwrap_envelope_group, unwrap_envelope_group_four,
    unwrap_group, unwrap_group_four, wrap_envelope_group, wrap_envelope_group_four, wrap_group, wrap_group_four,
};
pub use till::{Priced, PricesRecord, TillRecord, price};

/// Sets bytes to zero, also where nobody reads them afterwards.
pub fn wipe(bytes: &mut [u8]) {
    for byte in bytes {
        // SAFETY: a reference may be written to.
        unsafe { (byte as *mut u8).write_volatile(0) };
    }
    compiler_fence(Ordering::SeqCst);
}
