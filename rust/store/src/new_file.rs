//! A new file that appears as a whole or not at all, and never takes the place of another.
//!
//! The bytes go to a temporary file in the same folder, which is synced; a second name (hard link) then gives it its place, and
//! the temporary name is removed. A link is never made where something is, so of two programs that make a file of one name at
//! the same time exactly one succeeds. Where the file system has no hard links, a rename that replaces nothing does the same;
//! where it has neither, no file is made.
//!
//! A program holds a lock on its temporary file. One that nobody holds was left behind by a kill. Before it is removed, it is
//! looked at: its name has the checksum, it is closed to others, and it has no other name than that of the new file.

use std::fs::{self, File, TryLockError};
use std::io::{self, ErrorKind};
use std::os::unix::fs::MetadataExt;
use std::path::Path;

use crate::fault::step;
use crate::system;
use crate::temporary::{Kind, Temporary, found, is_at, parts};

/// Creates a file with these bytes, closed to others. The error is [`ErrorKind::AlreadyExists`] where something has the name.
pub fn create(path: &Path, bytes: &[u8]) -> io::Result<()> {
    let mut temporary = locked(path)?;
    let steps = ["write the output's first half", "write the output's second half", "sync the output"];
    temporary.fill(bytes, steps)?;
    match step("link the output", || fs::hard_link(&temporary.path, path)) {
        Ok(()) => step("remove the temporary name", || fs::remove_file(&temporary.path))?,
        Err(error) if no_links(&error) => {
            step("rename the output", || system::rename_to_new(&temporary.path, path))?;
        }
        Err(error) => return Err(error),
    }
    temporary.renamed();
    Ok(())
}

/// Brings a file's name to the disk.
pub fn sync_name(path: &Path) -> io::Result<()> {
    let folder = File::open(parts(path)?.0)?;
    step("sync the output's folder", || folder.sync_all())
}

/// Removes what killed processes left behind of new files of this name, as far as that works.
pub fn remove_leftovers(path: &Path) {
    for (name, file) in found(path, Kind::Output).unwrap_or_default() {
        if is_own(&file, path) && file.try_lock().is_ok() && is_at(&file, &name) {
            let _ = fs::remove_file(&name);
        }
    }
}

/// Whether a file that has a temporary name is one as [`create`] makes it: closed to others, and with no other name, or with
/// that of the new file as the only other.
fn is_own(file: &File, path: &Path) -> bool {
    file.metadata().is_ok_and(|metadata| {
        metadata.mode() & 0o077 == 0 && (metadata.nlink() == 1 || metadata.nlink() == 2 && is_at(file, path))
    })
}

/// A temporary file that no other process takes for a leftover.
fn locked(path: &Path) -> io::Result<Temporary> {
    loop {
        let temporary = Temporary::create(path, Kind::Output, "create the output")?;
        match temporary.file.try_lock() {
            // Another process is removing it.
            Err(TryLockError::WouldBlock) => {}
            // Where there are no locks, nobody takes it for a leftover either.
            Ok(()) | Err(TryLockError::Error(_)) if is_at(&temporary.file, &temporary.path) => return Ok(temporary),
            _ => {}
        }
    }
}

/// Whether a file system has no hard links.
fn no_links(error: &io::Error) -> bool {
    /// `EMLINK`, as a file system says that has one name for each file.
    const TOO_MANY: i32 = 31;
    matches!(error.kind(), ErrorKind::PermissionDenied | ErrorKind::Unsupported)
        || error.raw_os_error() == Some(TOO_MANY)
}
