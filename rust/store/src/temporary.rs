//! Files that are written beside their place before they take it.
//!
//! A temporary file of `NAME` is called `.NAME.pevghazo-` and 16 random hexadecimal digits for a state file, and
//! `.NAME.pevghazo-out-` and 16 for an output, the last eight of which are a checksum: an output has any content, so that its
//! temporary file is known by its name alone. It is created where nothing is, and is closed to others from the start. Nothing
//! else is ever removed than a file with such a name of the process's own user, and no other name of the user's is taken. Of a
//! `NAME` so long that this would not fit, the start and a checksum stand for it.

use std::ffi::{OsStr, OsString};
use std::fs::{self, File, OpenOptions, Permissions};
use std::io::{self, ErrorKind, Write};
use std::os::unix::ffi::OsStrExt;
use std::os::unix::fs::{FileExt, MetadataExt, OpenOptionsExt, PermissionsExt};
use std::path::{Path, PathBuf};

use crate::fault::step;
use crate::format::crc64;
use crate::system::{self, NO_FOLLOW, NO_WAIT};

/// Readable and writable by the owner, closed to all others.
pub(crate) const OWNER_ONLY: u32 = 0o600;

/// What a temporary file is to become.
#[derive(Clone, Copy, Debug, PartialEq, Eq)]
pub(crate) enum Kind {
    /// A state file.
    State,
    /// An output.
    Output,
}

impl Kind {
    /// What stands in the name between that of the file and the digits.
    fn mark(self) -> &'static str {
        match self {
            Kind::State => ".pevghazo-",
            Kind::Output => ".pevghazo-out-",
        }
    }
}

/// A temporary file that was created. Its name is removed when it is dropped, unless it was given up.
pub(crate) struct Temporary {
    pub(crate) file: File,
    pub(crate) path: PathBuf,
    named: bool,
}

impl Temporary {
    /// Creates a temporary file beside the path that it is for.
    pub(crate) fn create(path: &Path, kind: Kind, what: &str) -> io::Result<Temporary> {
        let (folder, name) = parts(path)?;
        let file_at = |path: &Path| {
            OpenOptions::new()
                .read(true)
                .write(true)
                .create_new(true)
                .mode(OWNER_ONLY)
                .custom_flags(NO_FOLLOW)
                .open(path)
        };
        loop {
            let path = folder.join(fresh_name(name, kind)?);
            let made = step(what, || match file_at(&path) {
                Err(error) if error.kind() == ErrorKind::AlreadyExists => Ok(None),
                made => made.map(Some),
            });
            let Some(file) = made? else { continue };
            let temporary = Temporary { file, path, named: true };
            owner_only(&temporary.file)?;
            return Ok(temporary);
        }
    }

    /// Writes all bytes, in two steps, so that tests can stop in the middle, and brings them to the disk.
    pub(crate) fn fill(&mut self, bytes: &[u8], steps: [&str; 3]) -> io::Result<()> {
        let (first, second) = bytes.split_at(bytes.len() / 2);
        step(steps[0], || self.file.write_all(first))?;
        step(steps[1], || self.file.write_all(second))?;
        step(steps[2], || self.file.sync_all())
    }

    /// Says that the file has no temporary name any more.
    pub(crate) fn renamed(mut self) {
        self.named = false;
    }
}

impl Drop for Temporary {
    /// Overwrites what nobody is to have. At worst a leftover stays, which is removed later.
    fn drop(&mut self) {
        if self.named {
            let _ = fs::remove_file(&self.path);
            let _ = wipe_file(&self.file, 0, 0);
        }
    }
}

/// Overwrites a file from a place on, if it has just so many names.
pub(crate) fn wipe_file(file: &File, from: u64, names: u64) -> io::Result<()> {
    let metadata = file.metadata()?;
    if metadata.nlink() != names {
        return Err(ErrorKind::InvalidInput.into());
    }
    const ZEROS: [u8; 4_096] = [0; 4_096];
    let mut place = from;
    while place < metadata.len() {
        let length = ZEROS.len().min((metadata.len() - place) as usize);
        step("wipe the old file", || file.write_all_at(&ZEROS[..length], place))?;
        place += length as u64;
    }
    step("sync the old file", || file.sync_all())
}

/// A path's folder and name.
pub(crate) fn parts(path: &Path) -> io::Result<(&Path, &OsStr)> {
    let name = path.file_name().ok_or(ErrorKind::InvalidInput)?;
    Ok((path.parent().unwrap_or(Path::new("/")), name))
}

/// Sets an open file's permissions, whatever the process's own mask made of them.
pub(crate) fn owner_only(file: &File) -> io::Result<()> {
    if file.metadata()?.mode() & 0o7777 != OWNER_ONLY {
        step("set the permissions", || file.set_permissions(Permissions::from_mode(OWNER_ONLY)))?;
    }
    Ok(())
}

/// The digits of a temporary name.
const DIGITS: usize = 16;

/// What stands for a file's name in a temporary one: the name itself, if it is not too long.
fn stem(name: &OsStr) -> OsString {
    /// The most bytes of a name that stands for itself, and the bytes at the start of a longer one. A name has 255 at most.
    const LONGEST: usize = 200;
    const START: usize = 180;
    let bytes = name.as_bytes();
    if bytes.len() <= LONGEST {
        return name.to_os_string();
    }
    let mut stem = OsStr::from_bytes(&bytes[..START]).to_os_string();
    stem.push(format!("~{:016x}", crc64(bytes)));
    stem
}

/// A temporary name for a file of this name.
fn fresh_name(name: &OsStr, kind: Kind) -> io::Result<OsString> {
    let mut number = [0; DIGITS / 2];
    system::random(&mut number)?;
    let mut fresh = OsString::from(".");
    fresh.push(stem(name));
    let mut digits = format!("{:016x}", u64::from_be_bytes(number));
    if kind == Kind::Output {
        digits.truncate(DIGITS / 2);
        digits.push_str(&check_digits(name, &digits));
    }
    fresh.push(format!("{}{digits}", kind.mark()));
    Ok(fresh)
}

/// The second half of the digits of an output's temporary name, after the first.
fn check_digits(name: &OsStr, first: &str) -> String {
    let checked = [b"pevghazo output ", first.as_bytes(), b" ", name.as_bytes()].concat();
    format!("{:08x}", crc64(&checked) >> 32)
}

/// Whether a name is a temporary one of a file of this name.
fn is_temporary(candidate: &OsStr, name: &OsStr, kind: Kind) -> bool {
    let rest = candidate.as_bytes().strip_prefix(b".").and_then(|rest| rest.strip_prefix(stem(name).as_bytes()));
    let digits = rest.and_then(|rest| str::from_utf8(rest.strip_prefix(kind.mark().as_bytes())?).ok());
    digits.is_some_and(|digits| {
        digits.len() == DIGITS
            && digits.bytes().all(|digit| matches!(digit, b'0'..=b'9' | b'a'..=b'f'))
            && (kind == Kind::State || digits[DIGITS / 2..] == check_digits(name, &digits[..DIGITS / 2]))
    })
}

/// Whether a path is one that temporary files of a state file may have, or looks like one.
pub(crate) fn looks_temporary(candidate: &Path, state: &Path) -> bool {
    let (Some(candidate_name), Some(name)) = (candidate.file_name(), state.file_name()) else { return false };
    let mut start = OsString::from(".");
    start.push(stem(name));
    start.push(Kind::State.mark());
    candidate.parent() == state.parent() && candidate_name.as_bytes().starts_with(start.as_bytes())
}

/// The temporary files of this path that are the process's own user's, opened for reading.
pub(crate) fn found(path: &Path, kind: Kind) -> io::Result<Vec<(PathBuf, File)>> {
    let (folder, name) = parts(path)?;
    let mut all = Vec::new();
    for entry in fs::read_dir(folder)? {
        let entry = entry?;
        if !is_temporary(&entry.file_name(), name, kind) {
            continue;
        }
        let path = entry.path();
        let Ok(file) = OpenOptions::new().read(true).custom_flags(NO_FOLLOW | NO_WAIT).open(&path) else { continue };
        if file.metadata().is_ok_and(|own| own.is_file() && own.uid() == system::user()) && is_at(&file, &path) {
            all.push((path, file));
        }
    }
    Ok(all)
}

/// Whether an open file is the one of this name, which is no symbolic link.
pub(crate) fn is_at(file: &File, path: &Path) -> bool {
    let (Ok(own), Ok(named)) = (file.metadata(), fs::symlink_metadata(path)) else { return false };
    (named.dev(), named.ino()) == (own.dev(), own.ino())
}

#[cfg(test)]
mod tests {
    use super::*;

    #[test]
    fn temporary_names() {
        let name = OsStr::new("rings.txt");
        for kind in [Kind::State, Kind::Output] {
            let fresh = fresh_name(name, kind).unwrap();
            assert!(is_temporary(&fresh, name, kind), "{fresh:?}");
            assert_ne!(fresh, fresh_name(name, kind).unwrap());
            let other = if kind == Kind::State { Kind::Output } else { Kind::State };
            assert!(!is_temporary(&fresh, name, other), "{fresh:?}");
            assert!(!is_temporary(&fresh, OsStr::new("other.txt"), kind), "{fresh:?}");
        }
        for other in [
            "rings.txt",
            "rings.txt.new",
            ".rings.txt.new",
            ".rings.txt.pevghazo-",
            ".rings.txt.pevghazo-0123456789abcde",
            ".rings.txt.pevghazo-0123456789ABCDEF",
            ".rings.txt.pevghazo-0123456789abcdef0",
            "rings.txt.pevghazo-0123456789abcdef",
            "",
        ] {
            assert!(!is_temporary(OsStr::new(other), name, Kind::State), "{other}");
        }
        assert!(is_temporary(OsStr::new(".rings.txt.pevghazo-0123456789abcdef"), name, Kind::State));
        // By its name alone a file is an output's only with the right last digits.
        assert!(!is_temporary(OsStr::new(".rings.txt.pevghazo-out-0123456789abcdef"), name, Kind::Output));
        for (path, looks) in [
            ("a/.rings.txt.pevghazo-", true),
            ("a/.rings.txt.pevghazo-out-1", true),
            ("b/.rings.txt.pevghazo-", false),
            ("a/rings", false),
        ] {
            assert_eq!(looks_temporary(Path::new(path), Path::new("a/rings.txt")), looks, "{path}");
        }
    }

    #[test]
    fn long_names_fit() {
        for length in [200, 201, 255] {
            let names = ["a", "b"].map(|last| OsString::from("x".repeat(length - 1) + last));
            for kind in [Kind::State, Kind::Output] {
                let fresh = fresh_name(&names[0], kind).unwrap();
                assert!(fresh.len() <= 255, "{length}");
                assert!(is_temporary(&fresh, &names[0], kind) && !is_temporary(&fresh, &names[1], kind), "{length}");
            }
        }
    }
}
