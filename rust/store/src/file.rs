//! The state file itself, as it stands in its folder: finding, looking at, reading and wiping it.

use std::ffi::OsString;
use std::fs::{self, File, OpenOptions};
use std::io::{self, ErrorKind, Read};
use std::os::unix::fs::{FileExt, MetadataExt, OpenOptionsExt};
use std::path::{Path, PathBuf};

use crate::Presence;
use crate::error::{Damage, Error, failed};
use crate::fault::step;
use crate::format::{self, MAX_BYTES};
use crate::secret::Secret;
use crate::system::{self, NO_FOLLOW, NO_WAIT};
use crate::temporary::{self, Kind, is_at, owner_only, wipe_file};

/// Opens the state file for the overwriting of its bytes once another has taken its place.
pub(crate) fn open_old(path: &Path) -> Result<File, Error> {
    let for_writing = || OpenOptions::new().write(true).custom_flags(NO_FOLLOW | NO_WAIT).open(path);
    let old = match for_writing() {
        // One that its owner may only read.
        Err(error) if error.kind() == ErrorKind::PermissionDenied => {
            owner_only(&open(path)?).and_then(|()| for_writing())
        }
        old => old,
    };
    old.map_err(failed("open the old file", path))
}

/// Removes a leftover that starts as a state file does, and overwrites it before, as far as that works.
fn wipe_leftover(name: &Path) -> io::Result<()> {
    if let Ok(file) = OpenOptions::new().write(true).custom_flags(NO_FOLLOW | NO_WAIT).open(name)
        && is_at(&file, name)
    {
        let _ = wipe_behind_start(&file);
    }
    step("remove a leftover", || fs::remove_file(name))
}

/// Overwrites a state file that has a temporary name, and leaves its start: it stays known as a leftover.
fn wipe_behind_start(file: &File) -> io::Result<()> {
    wipe_file(file, format::START.len() as u64, 1)
}

/// Gives a temporary file the place of the state file. The old one gets the temporary name, and is a leftover until it is
/// overwritten and removed; gives whether it has that name, which not every file system is able to do.
pub(crate) fn change_places(new: &Path, path: &Path) -> io::Result<bool> {
    if system::exchange(new, path).is_ok() { Ok(true) } else { fs::rename(new, path).map(|()| false) }
}

/// Overwrites the old file, and removes the temporary name that it may have.
pub(crate) fn wipe_old(old: &File, name: Option<&Path>) -> io::Result<()> {
    match name {
        // Not the file that was opened: somebody has put another in its place.
        Some(name) if !is_at(old, name) => Err(ErrorKind::InvalidInput.into()),
        Some(name) => wipe_behind_start(old).and_then(|()| step("remove the old file", || fs::remove_file(name))),
        None => wipe_file(old, 0, 0),
    }
}

/// The path with an ending after its name.
pub(crate) fn beside(path: &Path, ending: &str) -> PathBuf {
    let mut name = OsString::from(path);
    name.push(ending);
    PathBuf::from(name)
}

/// The path with symbolic links resolved, so that all names of a file lead to one lock. The file itself need not exist.
pub(crate) fn resolve(path: &Path) -> Result<PathBuf, Error> {
    match fs::symlink_metadata(path) {
        Ok(metadata) if metadata.is_symlink() => fs::canonicalize(path).map_err(failed("follow the link", path)),
        _ => {
            let name = path.file_name().ok_or_else(|| Error::NotAFile { path: path.to_path_buf() })?;
            let folder = match path.parent() {
                Some(folder) if folder != Path::new("") => folder,
                _ => Path::new("."),
            };
            Ok(fs::canonicalize(folder).map_err(failed("find the folder", folder))?.join(name))
        }
    }
}

/// Whether there is a state file, as it may be, must be or must not be. What is there is looked at, and nothing is altered.
pub(crate) fn look(path: &Path, presence: Presence) -> Result<bool, Error> {
    let there = match fs::symlink_metadata(path) {
        Ok(_) => true,
        Err(error) if error.kind() == ErrorKind::NotFound => false,
        Err(error) => return Err(failed("look at the file", path)(error)),
    };
    if there {
        let file = open(path)?;
        if presence == Presence::MustBeNew {
            return Err(Error::Exists { path: path.to_path_buf() });
        }
        starts_as_state(&file, true)
            .map_err(failed("read the file", path))?
            .then_some(true)
            .ok_or_else(|| Error::Damaged { path: path.to_path_buf(), damage: Damage::Start })
    } else if presence == Presence::MustExist {
        Err(Error::Missing { path: path.to_path_buf() })
    } else {
        Ok(false)
    }
}

/// Opens the state file for reading, if it is a file of this user alone.
fn open(path: &Path) -> Result<File, Error> {
    let named = fs::symlink_metadata(path).map_err(failed("look at the file", path))?;
    if !named.is_file() {
        return Err(Error::NotAFile { path: path.to_path_buf() });
    }
    let file = OpenOptions::new().read(true).custom_flags(NO_FOLLOW | NO_WAIT).open(path);
    let file = file.map_err(failed("open the file", path))?;
    let metadata = file.metadata().map_err(failed("look at the file", path))?;
    if !metadata.is_file() {
        return Err(Error::NotAFile { path: path.to_path_buf() });
    }
    if metadata.uid() != system::user() {
        return Err(Error::OtherOwner { path: path.to_path_buf() });
    }
    Ok(file)
}

/// Whether a file starts as a state file does: with the whole start, or as far as it goes.
fn starts_as_state(file: &File, whole: bool) -> io::Result<bool> {
    let mut start = [0; format::START.len()];
    let mut length = 0;
    while length < start.len() {
        match file.read_at(&mut start[length..], length as u64)? {
            0 => break,
            got => length += got,
        }
    }
    Ok(format::starts_well(&start[..length]) && (!whole || length == start.len()))
}

/// Gives a temporary file the place of a state file that there is not yet: it takes the place of nothing.
pub(crate) fn place_new(new: &Path, path: &Path) -> io::Result<()> {
    match system::rename_to_new(new, path) {
        // The file system has no such rename, but it may have hard links.
        Err(error) if matches!(error.kind(), ErrorKind::InvalidInput | ErrorKind::Unsupported) => {
            fs::hard_link(new, path).and_then(|()| fs::remove_file(new))
        }
        placed => placed,
    }
}

/// Removes temporary names of the state file itself, which a kill between their link and their removal leaves.
pub(crate) fn remove_second_names(path: &Path) -> Result<(), Error> {
    for (name, file) in temporary::found(path, Kind::State).map_err(failed("look for leftovers of", path))? {
        if is_at(&file, path) {
            step("remove a second name", || fs::remove_file(&name)).map_err(failed("remove the leftover", &name))?;
        }
    }
    Ok(())
}

/// Removes what a killed process left behind of a commit. Only the holder of the lock calls this, and only once the state file
/// was found good.
pub(crate) fn remove_leftovers(path: &Path) -> Result<(), Error> {
    for (name, file) in temporary::found(path, Kind::State).map_err(failed("look for leftovers of", path))? {
        if starts_as_state(&file, false).map_err(failed("read the leftover", &name))? {
            wipe_leftover(&name).map_err(failed("remove the leftover", &name))?;
        }
    }
    Ok(())
}

/// Reads and checks the state file: its generation and its bytes.
pub(crate) fn read(path: &Path) -> Result<(u64, Secret), Error> {
    let file = open(path)?;
    let metadata = file.metadata().map_err(failed("look at the file", path))?;
    if metadata.nlink() != 1 {
        return Err(Error::SecondName { path: path.to_path_buf() });
    }
    if metadata.mode() & 0o077 != 0 {
        return Err(Error::OpenToOthers { path: path.to_path_buf() });
    }
    let most = format::encoded_length(MAX_BYTES);
    if metadata.len() > most {
        return Err(Error::TooLarge { path: path.to_path_buf(), bytes: metadata.len() });
    }
    let content =
        step("read", || Secret::read(file.take(most + 1), usize::MAX)).map_err(failed("read the file", path))?;
    let decoded = format::decode(&content).map_err(|damage| Error::Damaged { path: path.to_path_buf(), damage })?;
    Ok((decoded.0, Secret::from(decoded.1)))
}
