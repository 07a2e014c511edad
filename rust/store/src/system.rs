//! The few calls of the system that the standard library does not offer, and the overwriting of secrets. All of the crate's
//! `unsafe` is here. The functions are those of the C library that every Rust program on Linux is linked with.

use std::ffi::{CString, OsStr, c_char, c_int, c_uint, c_void};
use std::io::{self, Error, ErrorKind};
use std::mem::MaybeUninit;
use std::os::unix::ffi::OsStrExt;
use std::path::Path;
use std::sync::atomic::{Ordering, compiler_fence};

unsafe extern "C" {
    /// The user that the process acts as.
    safe fn geteuid() -> c_uint;
    /// Fills a buffer with random bytes of the system.
    fn getrandom(buffer: *mut c_void, length: usize, flags: c_uint) -> isize;
    /// Renames a file; with the flag 1 it takes the place of none, and with 2 the two change names.
    fn renameat2(old_folder: c_int, old: *const c_char, new_folder: c_int, new: *const c_char, flags: c_uint) -> c_int;
}

/// `O_NOFOLLOW`: a symbolic link is not opened. Its number differs between processors; where it is not known here, the callers'
/// second look at the name has to do.
pub(crate) const NO_FOLLOW: c_int = if cfg!(any(target_arch = "x86_64", target_arch = "x86", target_arch = "riscv64")) {
    0o400_000
} else if cfg!(any(target_arch = "aarch64", target_arch = "arm")) {
    0o100_000
} else {
    0
};

/// `O_NONBLOCK`: opening a pipe does not wait for its other end.
pub(crate) const NO_WAIT: c_int = 0o4_000;

/// The user that the process acts as.
pub(crate) fn user() -> u32 {
    geteuid()
}

/// Fills the bytes with random ones of the system.
pub fn random(bytes: &mut [u8]) -> io::Result<()> {
    let mut filled = 0;
    while filled < bytes.len() {
        let rest = &mut bytes[filled..];
        // SAFETY: the buffer is borrowed alone and has this length.
        let got = unsafe { getrandom(rest.as_mut_ptr().cast(), rest.len(), 0) };
        match usize::try_from(got) {
            Ok(got) => filled += got,
            Err(_) => match Error::last_os_error() {
                error if error.kind() == ErrorKind::Interrupted => {}
                error => return Err(error),
            },
        }
    }
    Ok(())
}

/// Renames a file, unless something has the new name.
pub(crate) fn rename_to_new(old: &Path, new: &Path) -> io::Result<()> {
    /// Takes the place of nothing.
    const NO_REPLACE: c_uint = 1;
    rename(old, new, NO_REPLACE)
}

/// Gives two files each other's names, in one step.
pub(crate) fn exchange(one: &Path, other: &Path) -> io::Result<()> {
    const EXCHANGE: c_uint = 2;
    rename(one, other, EXCHANGE)
}

fn rename(old: &Path, new: &Path, flags: c_uint) -> io::Result<()> {
    /// The folder that relative paths start in, as a number in the place of an open folder.
    const HERE: c_int = -100;
    let (old, new) = (text(old.as_os_str())?, text(new.as_os_str())?);
    // SAFETY: both are strings that end in a zero, and outlive the call.
    let answer = unsafe { renameat2(HERE, old.as_ptr(), HERE, new.as_ptr(), flags) };
    if answer == 0 { Ok(()) } else { Err(Error::last_os_error()) }
}

/// A path as C has it.
fn text(path: &OsStr) -> io::Result<CString> {
    CString::new(path.as_bytes()).map_err(|_| ErrorKind::InvalidInput.into())
}

/// Sets bytes to zero, also where nobody reads them afterwards.
pub fn wipe(bytes: &mut [u8]) {
    for byte in bytes {
        // SAFETY: a reference may be written to.
        unsafe { (byte as *mut u8).write_volatile(0) };
    }
    compiler_fence(Ordering::SeqCst);
}

/// Sets to zero what the calls before this one left on the stack, 64 KiB deep.
#[inline(never)]
pub fn wipe_stack() {
    let mut room = [const { MaybeUninit::<u8>::uninit() }; 1 << 16];
    for byte in &mut room {
        // SAFETY: a reference may be written to.
        unsafe { byte.as_mut_ptr().write_volatile(0) };
    }
    compiler_fence(Ordering::SeqCst);
}

#[cfg(test)]
mod tests {
    use super::*;

    #[test]
    fn random_bytes_are_all_filled_and_differ() {
        let (mut first, mut second) = ([0; 1_000], [0; 1_000]);
        random(&mut first).unwrap();
        random(&mut second).unwrap();
        assert_ne!(first, second);
        for bytes in [first, second] {
            assert!(bytes.chunks(20).all(|chunk| chunk != [0; 20]));
        }
    }
}
