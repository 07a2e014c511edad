//! The standard input and output as the program was started with them.
//!
//! Rust's runtime opens `/dev/null` in the place of a standard stream that is closed, before `main`, and its own standard
//! streams take a failed read for an end and a failed write for a success. A closed input would be sealed as an empty message,
//! and an envelope for a closed output would be lost. So a function that the system calls before the runtime (`.init_array`)
//! notes whether the input can be read and the output written to, and puts the root folder in the place of a closed one: it can
//! neither be read nor written to, by whichever name, as `/dev/stdin`. Reads and writes go to the descriptors themselves, with
//! no memory in between that would keep what went through it. A plain `< /dev/null` is an empty input, and `> /dev/null` an
//! output.

use std::ffi::{c_char, c_int};
use std::fs::File;
use std::io::{self, Write, stdin, stdout};
use std::os::fd::AsFd;
use std::sync::atomic::{AtomicBool, Ordering};

unsafe extern "C" {
    /// Asks about an open file, among other things.
    fn fcntl(file: c_int, question: c_int, ...) -> c_int;
    /// Opens a file under the lowest number that is free.
    fn open(path: *const c_char, flags: c_int, ...) -> c_int;
}

/// Whether the standard input cannot be read.
static NO_INPUT: AtomicBool = AtomicBool::new(false);

/// Whether the standard output cannot be written to.
static NO_OUTPUT: AtomicBool = AtomicBool::new(false);

/// Looks at the two streams, in their order.
extern "C" fn look() {
    /// How a file was opened.
    const FLAGS: c_int = 3;
    /// The bits of that which say for what, and their values.
    const ACCESS: c_int = 3;
    const READ_ONLY: c_int = 0;
    const WRITE_ONLY: c_int = 1;
    let access = |file| {
        // SAFETY: this question takes no more arguments and alters nothing.
        let flags = unsafe { fcntl(file, FLAGS) };
        if flags == -1 {
            // SAFETY: the path is a string that ends in a zero. The lowest free number is that of this stream.
            unsafe { open(c"/".as_ptr(), READ_ONLY) };
        }
        (flags != -1).then_some(flags & ACCESS)
    };
    NO_INPUT.store(matches!(access(0), None | Some(WRITE_ONLY)), Ordering::Relaxed);
    NO_OUTPUT.store(matches!(access(1), None | Some(READ_ONLY)), Ordering::Relaxed);
}

/// The functions in this section are called before Rust's runtime starts.
#[used]
#[unsafe(link_section = ".init_array")]
static LOOK: extern "C" fn() = look;

/// The standard input.
pub fn input() -> io::Result<File> {
    if NO_INPUT.load(Ordering::Relaxed) {
        return Err(io::Error::other("it is closed"));
    }
    Ok(File::from(stdin().as_fd().try_clone_to_owned()?))
}

/// Says whether the standard output can be written to.
pub fn check_output() -> io::Result<()> {
    if NO_OUTPUT.load(Ordering::Relaxed) { Err(io::Error::other("it is closed")) } else { Ok(()) }
}

/// The standard output, to be looked at.
pub fn output() -> io::Result<File> {
    check_output()?;
    Ok(File::from(stdout().as_fd().try_clone_to_owned()?))
}

/// The standard output. Where it is closed, every write fails.
pub struct StandardOutput(Option<File>);

impl StandardOutput {
    /// The standard output that the program was started with.
    pub fn new() -> StandardOutput {
        StandardOutput(output().ok())
    }
}

impl Write for StandardOutput {
    fn write(&mut self, bytes: &[u8]) -> io::Result<usize> {
        match &mut self.0 {
            Some(file) => file.write(bytes),
            None => Err(io::Error::other("it is closed")),
        }
    }

    fn flush(&mut self) -> io::Result<()> {
        Ok(())
    }
}
