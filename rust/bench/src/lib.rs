//! The independent implementation behind a C interface, so that `bench/bench.c` can time it beside the proved library, and
//! `tests/leaves.c` and `tests/buffers.c` can compare the leaves and the library's calls with it; and `tests/constant_time.c` has old
//! letters to open. The records are those of `include/pevghazo.h`; lengths must be within their limits.

use std::slice::{from_raw_parts, from_raw_parts_mut};

use pevghazo_reference::deck::Deck;
use pevghazo_reference::refusal::Refusal;
use pevghazo_reference::sanse::count;
use pevghazo_reference::session::{Record as Kept, SaeSession, Session};
use pevghazo_reference::xoodoo::{BLOCK, State, XOOFFF_ROUNDS, inverse};

/// `pevghazo_session` of the header, or `pevghazo_sae_session`, which has the same layout.
#[repr(C)]
pub struct Record {
    acc: [u32; 12],
    mask: [u32; 12],
    index: u32,
    toggle: bool,
    opened: bool,
}

impl Record {
    fn session<M>(&self) -> Kept<M> {
        Kept {
            accumulator: self.acc,
            mask: self.mask,
            index: self.index,
            toggle: self.toggle,
            open: self.opened,
            ..Kept::CLOSED
        }
    }

    fn set<M>(&mut self, session: Kept<M>) {
        self.acc = session.accumulator;
        self.mask = session.mask;
        self.index = session.index;
        self.toggle = session.toggle;
        self.opened = session.open;
    }
}

/// Starts a session under a key within the limits.
///
/// # Safety
///
/// The pointers hold what the lengths say, and what is written to overlaps nothing else.
#[unsafe(no_mangle)]
pub unsafe extern "C" fn rust_start(session: &mut Record, key: *const u8, key_len: usize) {
    let key = unsafe { from_raw_parts(key, key_len) };
    session.set(Session::start(key).expect("a good key"));
}

/// Wraps `message`, and gives whether it was accepted.
///
/// # Safety
///
/// As for [`rust_start`]; `out` has as many bytes as `message`.
#[unsafe(no_mangle)]
pub unsafe extern "C" fn rust_wrap(
    session: &mut Record,
    metadata: *const u8,
    metadata_len: usize,
    message: *const u8,
    message_len: usize,
    out: *mut u8,
    tag: &mut [u8; 32],
) -> bool {
    let (metadata, message) = unsafe { (from_raw_parts(metadata, metadata_len), from_raw_parts(message, message_len)) };
    let out = unsafe { from_raw_parts_mut(out, message_len) };
    let mut here: Session = session.session();
    let answer = here.wrap(metadata, message, out, tag);
    session.set(here);
    answer.is_ok()
}

/// Unwraps `cryptogram`, and gives whether it was accepted.
///
/// # Safety
///
/// As for [`rust_start`]; `out` has as many bytes as `cryptogram`.
#[unsafe(no_mangle)]
pub unsafe extern "C" fn rust_unwrap(
    session: &mut Record,
    metadata: *const u8,
    metadata_len: usize,
    cryptogram: *const u8,
    cryptogram_len: usize,
    tag: &[u8; 32],
    out: *mut u8,
) -> bool {
    let metadata = unsafe { from_raw_parts(metadata, metadata_len) };
    let cryptogram = unsafe { from_raw_parts(cryptogram, cryptogram_len) };
    let out = unsafe { from_raw_parts_mut(out, cryptogram_len) };
    let mut here: Session = session.session();
    let answer = here.unwrap(metadata, cryptogram, tag, out);
    session.set(here);
    answer.is_ok()
}

/// Wraps `message` for the envelope with this header, and gives the number.
///
/// # Safety
///
/// As for [`rust_wrap`].
#[unsafe(no_mangle)]
pub unsafe extern "C" fn rust_wrap_envelope(
    session: &mut Record,
    header: *const u8,
    header_len: usize,
    metadata: *const u8,
    metadata_len: usize,
    message: *const u8,
    message_len: usize,
    out: *mut u8,
    tag: &mut [u8; 32],
) -> u32 {
    let (header, metadata) = unsafe { (from_raw_parts(header, header_len), from_raw_parts(metadata, metadata_len)) };
    let (message, out) = unsafe { (from_raw_parts(message, message_len), from_raw_parts_mut(out, message_len)) };
    let mut here: Session = session.session();
    let answer = here.wrap_for(Some(header), metadata, message, out, tag);
    session.set(here);
    number(answer)
}

/// Unwraps `cryptogram`, which arrived in the envelope with this header, and gives the number.
///
/// # Safety
///
/// As for [`rust_unwrap`].
#[unsafe(no_mangle)]
pub unsafe extern "C" fn rust_unwrap_envelope(
    session: &mut Record,
    header: *const u8,
    header_len: usize,
    metadata: *const u8,
    metadata_len: usize,
    cryptogram: *const u8,
    cryptogram_len: usize,
    tag: &[u8; 32],
    out: *mut u8,
) -> u32 {
    let (header, metadata) = unsafe { (from_raw_parts(header, header_len), from_raw_parts(metadata, metadata_len)) };
    let cryptogram = unsafe { from_raw_parts(cryptogram, cryptogram_len) };
    let out = unsafe { from_raw_parts_mut(out, cryptogram_len) };
    let mut here: Session = session.session();
    let answer = here.unwrap_for(Some(header), metadata, cryptogram, tag, out);
    session.set(here);
    number(answer)
}

/// Starts a session of old letters under a key and a nonce within the limits.
///
/// # Safety
///
/// As for [`rust_start`].
#[unsafe(no_mangle)]
pub unsafe extern "C" fn rust_sae_start(
    session: &mut Record,
    key: *const u8,
    key_len: usize,
    nonce: *const u8,
    nonce_len: usize,
    tag: &mut [u8; 16],
) {
    let (key, nonce) = unsafe { (from_raw_parts(key, key_len), from_raw_parts(nonce, nonce_len)) };
    session.set(SaeSession::start(key, nonce, tag).expect("a good key").0);
}

/// Wraps `message` as the first version did, and gives the number.
///
/// # Safety
///
/// As for [`rust_wrap`].
#[unsafe(no_mangle)]
pub unsafe extern "C" fn rust_trial_wrap(
    session: &mut Record,
    metadata: *const u8,
    metadata_len: usize,
    message: *const u8,
    message_len: usize,
    out: *mut u8,
    tag: &mut [u8; 16],
) -> u32 {
    let (metadata, message) = unsafe { (from_raw_parts(metadata, metadata_len), from_raw_parts(message, message_len)) };
    let out = unsafe { from_raw_parts_mut(out, message_len) };
    let mut here: SaeSession = session.session();
    let answer = here.trial_wrap(metadata, message, out, tag);
    session.set(here);
    number(answer)
}

/// Unwraps an old letter, and gives the number.
///
/// # Safety
///
/// As for [`rust_unwrap`].
#[unsafe(no_mangle)]
pub unsafe extern "C" fn rust_sae_unwrap(
    session: &mut Record,
    metadata: *const u8,
    metadata_len: usize,
    cryptogram: *const u8,
    cryptogram_len: usize,
    tag: &[u8; 16],
    out: *mut u8,
) -> u32 {
    let metadata = unsafe { from_raw_parts(metadata, metadata_len) };
    let cryptogram = unsafe { from_raw_parts(cryptogram, cryptogram_len) };
    let out = unsafe { from_raw_parts_mut(out, cryptogram_len) };
    let mut here: SaeSession = session.session();
    let answer = here.unwrap(metadata, cryptogram, tag, out);
    session.set(here);
    number(answer)
}

/// An answer's number: 0 where it is accepted.
fn number(answer: Result<u32, Refusal>) -> u32 {
    answer.map_or_else(|refusal| refusal.number.number().into(), |_| 0)
}

/// The permutations of a call with metadata, or header and metadata, and a message of these lengths, which a table adds to the
/// group's count.
#[unsafe(no_mangle)]
pub extern "C" fn rust_count(metadata_len: usize, message_len: usize) -> u32 {
    count(metadata_len, message_len)
}

/// Accumulator and mask, in place, after the string of these bytes with no frame bits.
///
/// # Safety
///
/// As for [`rust_start`].
#[unsafe(no_mangle)]
pub unsafe extern "C" fn rust_compress(acc: &mut State, mask: &mut State, s: *const u8, n: usize) {
    let s = unsafe { from_raw_parts(s, n) };
    let mut deck = Deck { accumulator: *acc, mask: *mask, index: 0 };
    deck.compress(s, &[]);
    (*acc, *mask) = (deck.accumulator, deck.mask);
}

/// Adds the output of the rolled state `y` under the mask, from its first byte on, to `out`, and gives the number of its blocks.
///
/// The deck function rolls the permutation of its accumulator, so here it has the accumulator whose permutation is `y`.
///
/// # Safety
///
/// As for [`rust_start`].
#[unsafe(no_mangle)]
pub unsafe extern "C" fn rust_expand(y: &State, mask: &State, out: *mut u8, n: usize) -> u32 {
    let out = unsafe { from_raw_parts_mut(out, n) };
    let mut output = vec![0; n];
    Deck { accumulator: inverse(y, XOOFFF_ROUNDS), mask: *mask, index: 0 }.output(0, &mut output);
    for (byte, more) in out.iter_mut().zip(output) {
        *byte ^= more;
    }
    u32::try_from(n.div_ceil(BLOCK)).expect("a length within the limit")
}
