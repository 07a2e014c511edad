//! The lock file: it carries the lock, and the number of the last commit.
//!
//! `NAME.lock` is a file of its own because a lock belongs to a file and not to its name: a lock on the state file would stay
//! with the old file when a new one takes its name. For the same reason it keeps the number apart: an older state file that was
//! copied back brings its own older number with it, and not this one.
//!
//! | place | bytes | content |
//! |---|---|---|
//! | 0 and 512 | 16 | `pevghazo-lock`, a line feed and two zeros |
//! | 16 and 528 | 8 | a number, the lowest byte first |
//! | 24 and 536 | 8 | the CRC-64 of the 24 bytes before |
//!
//! The higher of the two numbers counts, and the other is overwritten next: a write that is cut short leaves one whole. An empty
//! file, as version 1 had it, holds no number. Any other file is not touched.

use std::fs::{self, File, OpenOptions, TryLockError};
use std::io::{self, ErrorKind};
use std::os::unix::fs::{FileExt, MetadataExt, OpenOptionsExt};
use std::path::{Path, PathBuf};
use std::thread::sleep;
use std::time::{Duration, Instant};

use crate::Wait;
use crate::error::{Error, failed};
use crate::fault::step;
use crate::file::beside;
use crate::format::crc64;
use crate::system::{self, NO_FOLLOW, NO_WAIT};
use crate::temporary::{OWNER_ONLY, is_at, owner_only};

/// How each of the two records starts.
const START: &[u8; 16] = b"pevghazo-lock\n\0\0";

/// The bytes of a record: the start, the number and the checksum.
const RECORD: usize = START.len() + 8 + 8;

/// The places of the two records: sectors of their own, so that a write of one leaves the other.
const PLACES: [u64; 2] = [0, 512];

/// All bytes of the file.
const LENGTH: usize = PLACES[1] as usize + RECORD;

/// The lock file, locked until this value is dropped.
#[derive(Debug)]
pub(crate) struct Lock {
    file: File,
    path: PathBuf,
    numbers: [Option<u64>; 2],
    /// Whether it was made here and nothing needs it yet.
    unneeded: bool,
}

impl Lock {
    /// Opens the lock file of a state file, made if there is none, and locks it.
    pub(crate) fn take(state: &Path, wait: Wait) -> Result<Lock, Error> {
        let path = beside(state, ".lock");
        let start = Instant::now();
        loop {
            let (file, made) = open(&path)?;
            wait_for(&file, wait, start).map_err(|error| match error {
                Some(source) => failed("lock", &path)(source),
                None => Error::Busy { path: state.to_path_buf() },
            })?;
            let lock = Lock { file, path: path.clone(), numbers: [None; 2], unneeded: made };
            // The file that was locked must still be the one of this name: otherwise somebody else locks another.
            if is_at(&lock.file, &path) {
                return lock.looked_through();
            }
        }
    }

    /// Says that there is a state file that needs it.
    pub(crate) fn keep(&mut self) {
        self.unneeded = false;
    }

    /// The number of the last commit, if one is noted.
    pub(crate) fn number(&self) -> Option<u64> {
        self.numbers.into_iter().flatten().max()
    }

    /// Notes a number, which is on the disk after this.
    pub(crate) fn note(&mut self, number: u64) -> io::Result<()> {
        let record = record(number);
        if self.number().is_none() {
            // The whole file, so that no later number needs more room on the disk.
            let mut content = [0; LENGTH];
            for place in PLACES {
                content[place as usize..][..RECORD].copy_from_slice(&record);
            }
            step("note the first number", || self.file.write_all_at(&content, 0))?;
            self.numbers = [Some(number); 2];
        } else {
            let older = usize::from(self.numbers[1] < self.numbers[0]);
            step("note the number", || self.file.write_all_at(&record, PLACES[older]))?;
            self.numbers[older] = Some(number);
        }
        step("sync the lock file", || self.file.sync_all())
    }

    /// Reads the numbers and checks that it is a lock file.
    fn looked_through(mut self) -> Result<Lock, Error> {
        let mut content = [0; LENGTH];
        let mut length = 0;
        while length < LENGTH {
            match self.file.read_at(&mut content[length..], length as u64) {
                Ok(0) => break,
                Ok(got) => length += got,
                Err(error) if error.kind() == ErrorKind::Interrupted => {}
                Err(error) => return Err(failed("read the lock file", &self.path)(error)),
            }
        }
        self.numbers = PLACES.map(|place| number(&content[place as usize..][..RECORD]));
        // Another process that has locked it before needs it.
        self.unneeded &= self.number().is_none();
        // Zeros are what a power failure may leave of the first number.
        if self.number().is_none() && (content != [0; LENGTH] || self.length()? > LENGTH as u64) {
            return Err(Error::NotALock { path: self.path.clone() });
        }
        owner_only(&self.file).map_err(failed("set the permissions of", &self.path))?;
        Ok(self)
    }

    fn length(&self) -> Result<u64, Error> {
        Ok(self.file.metadata().map_err(failed("look at the lock file", &self.path))?.len())
    }
}

impl Drop for Lock {
    /// Removes a file that was made here for nothing: it is still locked, and whoever waits for it finds that it has no name any
    /// more and makes another. Unlocks by word and not just by closing the file: a process that was forked off at this moment has
    /// it open too.
    fn drop(&mut self) {
        if self.unneeded && is_at(&self.file, &self.path) {
            let _ = fs::remove_file(&self.path);
        }
        let _ = self.file.unlock();
    }
}

/// The record of a number.
fn record(number: u64) -> [u8; RECORD] {
    let mut record = [0; RECORD];
    record[..16].copy_from_slice(START);
    record[16..24].copy_from_slice(&number.to_le_bytes());
    let checksum = crc64(&record[..24]);
    record[24..].copy_from_slice(&checksum.to_le_bytes());
    record
}

/// The number of a record, if it is whole.
fn number(bytes: &[u8]) -> Option<u64> {
    let (start, _) = bytes.split_at_checked(24)?;
    let found = u64::from_le_bytes(start[16..].try_into().ok()?);
    (bytes == record(found)).then_some(found)
}

/// Opens the lock file, made if there is none; also whether it was made. A symbolic link, another user's file and what is no file are refused, and nothing
/// is altered by that.
fn open(path: &Path) -> Result<(File, bool), Error> {
    let mut options = OpenOptions::new();
    options.read(true).write(true).mode(OWNER_ONLY).custom_flags(NO_FOLLOW | NO_WAIT);
    let file = step("open the lock file", || {
        loop {
            match options.open(path) {
                Err(error) if error.kind() == ErrorKind::NotFound => {}
                opened => return opened.map(|file| (file, false)),
            }
            match options.clone().create_new(true).open(path) {
                Err(error) if error.kind() == ErrorKind::AlreadyExists => {}
                made => return made.map(|file| (file, true)),
            }
        }
    });
    if path.is_symlink() {
        return Err(Error::NotAFile { path: path.to_path_buf() });
    }
    let (file, made) = file.map_err(failed("open the lock file", path))?;
    let metadata = file.metadata().map_err(failed("look at the lock file", path))?;
    if !metadata.is_file() {
        return Err(Error::NotAFile { path: path.to_path_buf() });
    }
    if metadata.uid() != system::user() {
        return Err(Error::OtherOwner { path: path.to_path_buf() });
    }
    Ok((file, made))
}

/// Locks an open file; an error is one of the system, or none where another process holds the lock for too long.
fn wait_for(file: &File, wait: Wait, start: Instant) -> Result<(), Option<io::Error>> {
    loop {
        if wait == Wait::Forever {
            match step("lock", || file.lock()) {
                Err(error) if error.kind() == ErrorKind::Interrupted => continue,
                locked => return locked.map_err(Some),
            }
        }
        match file.try_lock() {
            Ok(()) => return step("locked", || Ok(())).map_err(Some),
            Err(TryLockError::Error(error)) if error.kind() == ErrorKind::Interrupted => {}
            Err(TryLockError::Error(error)) => return Err(Some(error)),
            Err(TryLockError::WouldBlock) => match wait {
                Wait::AtMost(longest) if start.elapsed() < longest => sleep(Duration::from_millis(10)),
                _ => return Err(None),
            },
        }
    }
}

#[cfg(test)]
mod tests {
    use super::*;

    #[test]
    fn records_of_numbers() {
        for known in [0, 1, 256, u64::MAX] {
            assert_eq!(number(&record(known)), Some(known));
        }
        let good = record(5);
        for bit in 0..8 * RECORD {
            let mut bad = good;
            bad[bit / 8] ^= 1 << (bit % 8);
            assert_eq!(number(&bad), None, "bit {bit}");
        }
        assert_eq!(number(&[0; RECORD]), None);
        assert_eq!(number(&good[..RECORD - 1]), None);
    }
}
