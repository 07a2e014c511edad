//! Sealing of ring numbers: safe bindings of the proved library.
//!
//! An office and a group share a key, and each end holds a [`Session`] under it. *Wrapping* turns *metadata*, which travel in
//! the clear, and a *message* into a *cryptogram* of the message's length and a *tag*; *unwrapping* turns them back, or refuses.
//! Every tag covers all messages of the session so far, those of both directions, so a message that is damaged, repeated, out of
//! order or meant for somebody else is refused, and the session goes on as it was. *Sealing* wraps a message into an
//! *envelope*, the bytes in which it travels, and *opening* unwraps one.
//!
//! ```
//! use pevghazo::{Plain, Session, Table};
//!
//! # fn main() -> Result<(), pevghazo::Refusal> {
//! let key = b"the key of group 7......";
//! let mut office = Table::new();
//! office.start_day(100_000);
//! office.open_group(7, key)?;
//! let (mut group, _) = Session::start(key)?;
//!
//! let block = office.seal(7, &Plain { metadata: b"size C", message: b"12001-12100" })?;
//! assert_eq!(group.open(&block.envelope)?.message, b"12001-12100");
//! # Ok(())
//! # }
//! ```
//!
//! There are two modes. A [`Session`] is in Xoofff-SANSE and needs nothing but the key. A [`SaneSession`] is in Xoofff-SANE: it
//! starts with a *nonce* that must not repeat under one key, so it is for ends that keep a counter. A third one only opens: old letters
//! of the first version, which a [`SaeSession`] reads.
//!
//! | what | where |
//! |---|---|
//! | one end of a session, as a group holds it | [`Session`] |
//! | one end of a session of a group that keeps a counter | [`SaneSession`] |
//! | old letters of the first version, in their order | [`SaeSession`] |
//! | the office's 32 sessions, each with its count of the day, under one allowance | [`Table`] |
//! | what is handed over, by name | [`Plain`], [`Arrival`] |
//! | the bytes in which a sealed message travels | [`envelope`] |
//! | the code that is printed on a packet of rings | [`Code`] |
//! | unused rings that groups return as issue lines | [`Pool`], with its [`Run`]s and their [`Size`] |
//! | the days on which rings of each size may be issued | [`Windows`], a [`Window`] for each [`Size`] |
//! | what rings cost, and what was charged for them | [`Prices`], [`Till`] |
//! | a refused call: its number and a plain sentence | [`Refusal`], [`Number`] |
//! | the C interface itself, on slices | [`raw`] |
//!
//! All work is done by the C library, whose functions are proved to meet their definitions for all bytes. This crate adds types:
//! a session cannot be copied by accident, a tag has its mode's length, a table has 32 sessions. It also sees to memory:
//! sessions, tables and their stored bytes are set to zero when they are dropped, and after each call the stack that it used is
//! overwritten. Messages and keys are the caller's: [`wipe`] sets them to zero.
//!
//! The library has each wrap and unwrap twice: a block at a time, and *by four*, with four blocks side by side, in about half the time
//! for long texts. What they give is the same in every byte and count, so either end of a session may use either for each message.
//! This crate goes by four exactly where metadata or text has 192 bytes or more, which are four full blocks; old letters are always
//! opened a block at a time.
//!
//! The build looks for the library in the folder that `PEVGHAZO_LIB_DIR` names (`libpevghazo.a` or `libcapi.a`); then in the
//! repository that the crate stands in, where `make lib` makes it; then with `pkg-config`, which finds an installed one.
#![deny(unsafe_code)]

mod by_four;
mod code;
pub mod envelope;
mod pool;
#[allow(unsafe_code)]
pub mod raw;
mod record;
mod refusal;
mod sae;
mod sane;
mod season;
mod secret;
mod session;
mod size;
mod table;
mod texts;
mod till;

pub use code::{BadCode, Code};
pub use envelope::{Envelope, Letter};
pub use pool::{BadRuns, Pool, Run};
pub use raw::wipe;
pub use refusal::{BadBytes, Number, Refusal};
pub use sae::SaeSession;
pub use sane::SaneSession;
pub use season::{Window, Windows};
pub use secret::Secret;
pub use session::Session;
pub use size::{BadSize, Size};
pub use table::{Group, Table};
pub use texts::{Arrival, Opened, Plain, Sealed, Unwrapped, Wrapped};
pub use till::{BadTotals, Prices, Till};

/// The groups of a table.
pub const GROUPS: usize = 32;
/// The bytes of a tag of a [`Session`].
pub const TAG_LENGTH: usize = 32;
/// The bytes of a tag of a [`SaneSession`].
pub const SANE_TAG_LENGTH: usize = 16;
/// The bytes of a tag of a [`SaeSession`].
pub const SAE_TAG_LENGTH: usize = 16;
/// The fewest bytes of a key.
pub const KEY_MIN: usize = 16;
/// The most bytes of a key.
pub const KEY_MAX: usize = 47;
/// The most bytes of metadata, and of a message.
pub const TEXT_MAX: usize = 16_384;
/// The most bytes of a nonce.
pub const NONCE_MAX: usize = 16_384;
/// The most bytes of an envelope's header.
pub const HEADER_MAX: usize = 17;
/// The highest index that a session may reach.
pub const INDEX_MAX: u32 = 1_048_576;
/// The bytes of a code.
pub const CODE_LENGTH: usize = 8;
/// The highest number of a packet.
pub const PACKET_MAX: u32 = 2_047;
/// The most runs of a pool.
pub const POOL_RUNS: usize = 256;
/// The highest number of a ring; the lowest is 1.
pub const RING_MAX: u32 = 99_999_999;
/// The most bytes of an issue line, its line feed included.
pub const LINE_MAX: usize = 32;
/// The first day that exists for seasons and charges, 1 January 1900, as the number of its eight digits.
pub const DAY_MIN: u32 = 19_000_101;
/// The last one, 31 December 2199.
pub const DAY_MAX: u32 = 21_991_231;
/// The highest price of a hundred rings, in pence.
pub const PRICE_MAX: u32 = 1_000_000;
/// The most lines of a till.
pub const TILL_LINES: u64 = 65_536;

/// A tag of a [`Session`].
pub type Tag = [u8; TAG_LENGTH];
/// A tag of a [`SaneSession`].
pub type SaneTag = [u8; SANE_TAG_LENGTH];
/// A tag of a [`SaeSession`].
pub type SaeTag = [u8; SAE_TAG_LENGTH];
