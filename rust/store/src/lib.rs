//! A state file that is locked while it is used and replaced as a whole.
//!
//! A session's record must never be lost, used twice or half written: a record that went back to an earlier state would seal
//! a second message in the place of the first. So a program opens the file, which locks it, reads the bytes, works on them,
//! *commits* the new bytes, and only then lets anything out that belongs to them. Killed at any moment, or on a full disk,
//! the file holds either all of the old bytes or all of the new ones.
//!
//! ```
//! use pevghazo_store::{Presence, Store, Wait};
//!
//! # fn main() -> Result<(), pevghazo_store::Error> {
//! # let folder = std::env::temp_dir().join(format!("pevghazo-store-example-{}", std::process::id()));
//! # std::fs::create_dir_all(&folder).unwrap();
//! # let path = folder.join("office.state");
//! let mut store = Store::open(&path, Presence::MustBeNew, Wait::Forever)?;
//! assert_eq!(store.bytes(), None);
//! store.commit(b"the first state")?;
//! drop(store); // unlocks
//!
//! let store = Store::open(&path, Presence::MustExist, Wait::Never)?;
//! assert_eq!(store.bytes(), Some(&b"the first state"[..]));
//! # std::fs::remove_dir_all(&folder).unwrap();
//! # Ok(())
//! # }
//! ```
//!
//! # The files
//!
//! Beside the state file `NAME` there are, in its folder:
//!
//! * `NAME.lock`, which carries the lock and the number of the last commit. It is never replaced, and must not be removed while
//!   a program is running. One that is missing is made anew from the state file. An opening that is refused, and one that ends
//!   without a state file, removes the lock file that it made.
//! * `.NAME.pevghazo-` with 16 hexadecimal digits, only while a commit is on its way. One that a killed process left behind is
//!   overwritten and removed at the next opening, once the state file was found good, and only where it starts as a state file
//!   does.
//!
//! All three are readable and writable by their owner only, from the moment they are created. No other file is altered or
//! removed, whatever its name. A state file of another owner, and one in whose lock file's place something else stands, is
//! refused before anything is altered; where there is no state file but something else, no lock file is made.
//!
//! # A commit
//!
//! The new bytes are written to the temporary file, which is synced (brought to the disk itself and not just to the system's
//! memory), then renamed to `NAME`, which replaces the old file in one step, and then the folder is synced, so that the new
//! name is on the disk too. Then the commit's number, which the state file holds as well, is noted in the lock file. The folder
//! is also synced at opening: what is read is then safe, even if the process that wrote it was killed between its last steps.
//!
//! [`Store::commit_and_wipe`] exchanges the names of the two files instead, which is one step too, and last overwrites the old
//! file and removes it.
//!
//! # A state file that was copied back
//!
//! Every commit has a number one above that of the commit before. A state file with a lower number than the lock file's is an
//! older copy, and is refused ([`Error::Older`]); [`Store::restore`] takes it, and the next commit's number is above both. A
//! kill between the rename and the note leaves a state file with a higher number, which is taken, and noted at the next opening.
//! Until then the state before it would be taken too; but nothing of the new one has been let out then, since its commit has not
//! returned, so it is as if the kill had come before the rename. A copy with a name of its own has a lock file of its own, and
//! is not noticed.
//!
//! # What a caller has to do
//!
//! A kill between a commit and the handing out of what belongs to it leaves a state in which the message is sealed, but
//! nobody has the envelope. A caller that cannot seal it again keeps the envelope in the committed bytes, and hands it out
//! from there as often as it is asked to.
#![deny(unsafe_code)]

mod error;
pub mod fault;
mod file;
mod format;
mod lock;
pub mod new_file;
mod secret;
#[allow(unsafe_code)]
mod system;
mod temporary;

use std::fs::{self, File};
use std::io::{self, ErrorKind};
use std::path::{Path, PathBuf};
use std::time::Duration;

use error::failed;
pub use error::{Damage, Error, shown};
use fault::step;
use file::{
    beside, change_places, look, open_old, place_new, read, remove_leftovers, remove_second_names, resolve, wipe_old,
};
pub use format::{MAX_BYTES, VERSION};
use lock::Lock;
pub use secret::Secret;
pub use system::{random, wipe, wipe_stack};
use temporary::{Kind, Temporary, looks_temporary};

/// Whether a state file may, must or must not be there at opening.
#[derive(Clone, Copy, Debug, PartialEq, Eq)]
pub enum Presence {
    /// There must be one; otherwise [`Error::Missing`].
    MustExist,
    /// There must be none yet; otherwise [`Error::Exists`]. The first commit creates it.
    MustBeNew,
    /// There may be one; if not, the first commit creates it.
    MayExist,
}

/// What to do while another process has the file open.
#[derive(Clone, Copy, Debug, PartialEq, Eq)]
pub enum Wait {
    /// Wait until it is free.
    Forever,
    /// Wait so long at most, then [`Error::Busy`].
    AtMost(Duration),
    /// [`Error::Busy`] at once.
    Never,
}

/// An open state file. It is locked until this value is dropped, and its bytes are then set to zero.
#[derive(Debug)]
pub struct Store {
    path: PathBuf,
    folder: File,
    bytes: Option<Secret>,
    /// The number of the last commit.
    generation: u64,
    /// The number of the file itself.
    own_generation: u64,
    /// Unlocks when it is dropped, the last of the fields.
    lock: Lock,
}

impl Store {
    /// Opens and locks a state file and reads its bytes. A path that is a symbolic link stands for the file it leads to.
    pub fn open(path: impl AsRef<Path>, presence: Presence, wait: Wait) -> Result<Store, Error> {
        Store::open_as(path.as_ref(), presence, wait, false)
    }

    /// [`Store::open`] of a state file that must exist and may be an older copy. The next commit makes it the newest.
    pub fn restore(path: impl AsRef<Path>, wait: Wait) -> Result<Store, Error> {
        Store::open_as(path.as_ref(), Presence::MustExist, wait, true)
    }

    fn open_as(path: &Path, presence: Presence, wait: Wait, older: bool) -> Result<Store, Error> {
        let path = resolve(path)?;
        // Refused before a lock file is made where there is nothing to lock.
        look(&path, presence)?;
        let mut lock = Lock::take(&path, wait)?;
        let folder_path = path.parent().unwrap_or(Path::new("/"));
        let folder = File::open(folder_path).map_err(failed("open the folder", folder_path))?;
        let noted = |source| failed("note a number in the lock file of", &path)(source);
        if !look(&path, presence)? {
            let generation = lock.number().unwrap_or(0);
            if lock.number().is_none() {
                lock.note(generation).map_err(noted)?;
            }
            return Ok(Store { path, folder, bytes: None, generation, own_generation: 0, lock });
        }
        step("sync the folder at opening", || folder.sync_all()).map_err(failed("sync the folder", folder_path))?;
        remove_second_names(&path)?;
        let (own_generation, bytes) = read(&path)?;
        let mut generation = own_generation;
        match lock.number() {
            Some(last) if last > generation && !older => return Err(Error::Older { path, generation, last }),
            Some(last) if last >= generation => generation = last,
            _ => lock.note(generation).map_err(noted)?,
        }
        remove_leftovers(&path)?;
        lock.keep();
        Ok(Store { path, folder, bytes: Some(bytes), generation, own_generation, lock })
    }

    /// The bytes of the last commit, by whomever; none if there has been none yet.
    pub fn bytes(&self) -> Option<&[u8]> {
        self.bytes.as_deref()
    }

    /// The number of the last commit, also where the file is an older copy.
    pub fn generation(&self) -> u64 {
        self.generation
    }

    /// The number of the commit that the file is of: a lower one where it is an older copy; 0 if there is no file yet.
    pub fn own_generation(&self) -> u64 {
        self.own_generation
    }

    /// The file's path, with symbolic links resolved.
    pub fn path(&self) -> &Path {
        &self.path
    }

    /// Whether a path, with symbolic links resolved, is that of the state file or of its lock file, or one that a temporary file
    /// may have.
    pub fn is_own(&self, path: &Path) -> bool {
        path == self.path || path == beside(&self.path, ".lock") || looks_temporary(path, &self.path)
    }

    /// Replaces the file's bytes.
    ///
    /// Only after `Ok` are the new bytes certain to be on the disk. After [`Error::NotSynced`] the file holds the new bytes,
    /// but a power failure may bring the old ones back; after any other error it holds the old bytes. [`Store::bytes`] says
    /// which, and in both cases another commit may be tried.
    pub fn commit(&mut self, bytes: &[u8]) -> Result<(), Error> {
        self.replace(bytes, |new, path| fs::rename(new, path))
    }

    /// [`Store::commit`], and then sets the bytes of the old file, if there is one, to zero on the disk, as far as the file system
    /// writes them to the place where they were. They are overwritten only once the new file is certain to be on the disk. Until
    /// then the old file has a temporary name: where a kill or a failure comes before, the next opening overwrites it. On a file
    /// system that cannot exchange two names it has none, and then stays on the disk.
    pub fn commit_and_wipe(&mut self, bytes: &[u8]) -> Result<(), Error> {
        if self.bytes.is_none() {
            return self.commit(bytes);
        }
        let old = open_old(&self.path)?;
        let mut name = None;
        self.replace(bytes, |new, path| {
            name = change_places(new, path)?.then(|| new.to_path_buf());
            Ok(())
        })?;
        wipe_old(&old, name.as_deref()).map_err(|source| Error::NotWiped { path: self.path.clone(), source })
    }

    /// Replaces the file's bytes; `rename` gives the new file the place of the old one.
    fn replace(&mut self, bytes: &[u8], rename: impl FnOnce(&Path, &Path) -> io::Result<()>) -> Result<(), Error> {
        if bytes.len() > MAX_BYTES {
            return Err(Error::TooLarge { path: self.path.clone(), bytes: bytes.len() as u64 });
        }
        // Only a forged file has the highest number; it then stays.
        let generation = self.generation.saturating_add(1);
        let mut new = Temporary::create(&self.path, Kind::State, "create the new file")
            .map_err(failed("create a new file for", &self.path))?;
        let steps = ["write the first half", "write the second half", "sync the new file"];
        new.fill(&format::encode(generation, bytes), steps).map_err(failed("write the new file of", &self.path))?;
        let first = self.bytes.is_none();
        step("rename", || if first { place_new(&new.path, &self.path) } else { rename(&new.path, &self.path) })
            .map_err(|error| match error.kind() {
                ErrorKind::AlreadyExists => Error::Exists { path: self.path.clone() },
                _ => failed("replace the file", &self.path)(error),
            })?;
        new.renamed();
        self.bytes = Some(Secret::from(bytes));
        self.generation = generation;
        self.own_generation = generation;
        self.lock.keep();
        step("sync the folder", || self.folder.sync_all())
            .and_then(|()| self.lock.note(generation))
            .map_err(|source| Error::NotSynced { path: self.path.clone(), source })?;
        if first {
            // Of a first commit that was killed. At worst they stay until the next opening.
            let _ = remove_leftovers(&self.path);
        }
        Ok(())
    }
}
