//! Constant time: does a branch or an address of comparing two codes depend on one of them? And does one depend on the key or
//! the message where a session of either mode is started, wraps, seals, is stored, loaded and dropped, or where one of old letters is
//! started, refuses to wrap, is stored, loaded and dropped?
//!
//! `tests/constant_time.sh` runs this under valgrind's memcheck, which follows every bit that was never set and reports a branch
//! or an address that depends on one. The secrets are marked so here. Unwrapping, whose verdict everybody may know, is looked at
//! in `tests/constant_time.c` alone.

use std::hint::black_box;
use std::process::exit;

use pevghazo::{Code, Number, Plain, SaeSession, SaneSession, Session, envelope};

/// The requests to valgrind, as `valgrind.h` and `memcheck.h` number them.
mod request {
    pub const RUNNING_ON_VALGRIND: usize = 0x1001;
    pub const COUNT_ERRORS: usize = 0x1201;
    pub const MAKE_MEM_UNDEFINED: usize = 0x4D43_0001;
    pub const MAKE_MEM_DEFINED: usize = 0x4D43_0002;
    pub const CHECK_MEM_IS_DEFINED: usize = 0x4D43_0005;
}

/// Makes a request about this many bytes at a place; 0 without valgrind.
#[cfg(target_arch = "x86_64")]
fn ask(request: usize, place: usize, length: usize) -> usize {
    let words = [request, place, length, 0, 0, 0];
    let mut answer = 0;
    // SAFETY: the rotations put rdi back and the exchange does nothing; valgrind takes them for a request and reads the words.
    unsafe {
        std::arch::asm!(
            "rol rdi, 3", "rol rdi, 13", "rol rdi, 61", "rol rdi, 51", "xchg rbx, rbx",
            in("rax") &raw const words, inout("rdx") answer, options(nostack),
        );
    }
    answer
}

#[cfg(not(target_arch = "x86_64"))]
fn ask(_: usize, _: usize, _: usize) -> usize {
    0
}

/// Makes a request about the bytes of a value.
fn ask_of<T>(request: usize, value: &T) -> usize {
    ask(request, &raw const *value as usize, size_of::<T>())
}

/// How many reports there are.
fn errors() -> usize {
    ask(request::COUNT_ERRORS, 0, 0)
}

/// What is seen of a comparison.
struct Seen {
    /// Its verdict.
    equal: bool,
    /// How many reports it gave.
    reports: usize,
    /// Whether the verdict is followed back to the secret.
    followed: bool,
}

/// Compares two codes, of which the first is the secret.
fn compare(secret: Code, guess: Code, equal: fn(&Code, &Code) -> bool) -> Seen {
    let secret = black_box(secret);
    ask_of(request::MAKE_MEM_UNDEFINED, &secret);
    let before = errors();
    let verdict = Box::new(equal(&secret, &guess));
    let reports = errors() - before;
    let followed = ask_of(request::CHECK_MEM_IS_DEFINED, &*verdict) != 0;
    // Everybody may know the verdict.
    ask_of(request::MAKE_MEM_DEFINED, &*verdict);
    Seen { equal: *black_box(verdict), reports, followed }
}

/// A comparison that stops at the first difference, which must be seen: otherwise this test would see nothing.
fn early_end(one: &Code, other: &Code) -> bool {
    one.bytes().iter().zip(other.bytes()).all(|(one, other)| black_box(*one) == other)
}

fn check(holds: bool, doing: &str, what: &str) {
    if !holds {
        eprintln!("constant time: {doing}: {what}");
        exit(1);
    }
}

fn main() {
    if ask(request::RUNNING_ON_VALGRIND, 0, 0) == 0 {
        eprintln!("constant time: run tests/constant_time.sh, which runs this under valgrind");
        exit(2);
    }
    codes();
    sessions(
        "a session in SANSE",
        |key| Session::start(key).expect("a good key").0,
        |session, plain| session.wrap(plain).expect("there is room").cryptogram,
        |session| Session::from_bytes(&session.to_bytes()).expect("its own bytes"),
    );
    sessions(
        "a session in SANSE that seals",
        |key| Session::start(key).expect("a good key").0,
        |session, plain| cryptogram(&session.seal(7, plain).expect("there is room").envelope),
        |session| Session::from_bytes(&session.to_bytes()).expect("its own bytes"),
    );
    sessions(
        "a session in SANE",
        |key| SaneSession::start(key, b"41").expect("a good key").0,
        |session, plain| session.wrap(plain).expect("there is room").cryptogram,
        |session| SaneSession::from_bytes(&session.to_bytes()).expect("its own bytes"),
    );
    sessions(
        "a session in SANE that seals",
        |key| SaneSession::start(key, b"41").expect("a good key").0,
        |session, plain| cryptogram(&session.seal(7, plain).expect("there is room").envelope),
        |session| SaneSession::from_bytes(&session.to_bytes()).expect("its own bytes"),
    );
    old_letters();
    println!("constant time, comparing codes and the types of sessions: nothing seen");
}

/// The cryptogram in an envelope.
fn cryptogram(bytes: &[u8]) -> Vec<u8> {
    envelope::read(bytes).expect("an envelope").cryptogram.to_vec()
}

/// Sessions of a type, from start to end, with key and message as secrets.
fn sessions<S>(
    doing: &str,
    start: fn(&[u8]) -> S,
    wrap: fn(&mut S, &Plain<'_>) -> Vec<u8>,
    store_and_load: fn(S) -> S,
) {
    let (key, message) = (black_box([0x35_u8; 32]), black_box([0x36_u8; 400]));
    ask_of(request::MAKE_MEM_UNDEFINED, &key);
    ask_of(request::MAKE_MEM_UNDEFINED, &message);
    let mut before = errors();
    let mut session = start(&key);
    // The last two are wrapped by four.
    for (metadata, length) in [(6, 0), (6, 1), (6, 48), (6, 100), (6, 400), (400, 400)] {
        let plain = Plain { metadata: &[b'C'; 400][..metadata], message: &message[..length] };
        let cryptogram = wrap(&mut session, &plain);
        session = store_and_load(session);
        check(errors() == before, doing, "a branch or an address depends on a secret");
        let followed = ask(request::CHECK_MEM_IS_DEFINED, cryptogram.as_ptr() as usize, length) != 0;
        check(
            followed == (length > 0),
            doing,
            "the cryptogram does not depend on the secrets, so this test sees nothing",
        );
        // The question itself gives a report.
        before = errors();
    }
    drop(session);
    check(errors() == before, doing, "a branch or an address depends on a secret");
}

/// A session of old letters, from start to end, with key and message as secrets; nothing is wrapped.
fn old_letters() {
    let doing = "a session of old letters";
    let (key, message) = (black_box([0x35_u8; 32]), black_box([0x36_u8; 100]));
    ask_of(request::MAKE_MEM_UNDEFINED, &key);
    ask_of(request::MAKE_MEM_UNDEFINED, &message);
    let before = errors();
    let mut session = SaeSession::start(&key, b"41").expect("a good key").0;
    let refusal = session.wrap(&Plain { metadata: b"size C", message: &message }).expect_err("nothing is wrapped");
    check(refusal.number == Number::ReadOnly, doing, "another number");
    let bytes = session.to_bytes();
    session = SaeSession::from_bytes(&bytes).expect("its own bytes");
    drop(session);
    check(errors() == before, doing, "a branch or an address depends on a secret");
    let followed = ask(request::CHECK_MEM_IS_DEFINED, bytes.as_ptr() as usize, 96) != 0;
    check(followed, doing, "the session does not depend on the key, so this test sees nothing");
}

/// Comparing codes.
fn codes() {
    let doing = "comparing codes";
    let bytes = [0x5F, 0x0C, 0x91, 0xA4, 0x00, 0x2B, 0xE7, 0x38];
    for bit in 0..=64 {
        // The last guess is right.
        let mut guess = bytes;
        if bit < 64 {
            guess[bit / 8] ^= 1 << (bit % 8);
        }
        let seen = compare(bytes.into(), guess.into(), |one, other| one == other);
        check(seen.equal == (bit == 64), doing, "the verdict is not the expected one");
        check(seen.reports == 0, doing, "a branch or an address depends on a secret");
        check(seen.followed, doing, "the verdict does not depend on the secret, so this test sees nothing");
        let seen = compare(bytes.into(), guess.into(), early_end);
        check(seen.reports > 0, doing, "an end at the first difference was not reported");
    }
}
