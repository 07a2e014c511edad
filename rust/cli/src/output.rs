//! Writing outputs: a file is written as a whole or not at all, and never takes the place of another.
//!
//! Files are made by the store's [`new_file`]: closed to others, and by a hard link, which is made only where nothing is. What is
//! not a file, as a pipe or a terminal, is written to directly.
//!
//! A file that is there already is left alone: it may be the output of a run that was killed after it had done everything, and
//! the next message in its place would be the loss of that one.

use std::fs::{self, File, Metadata, OpenOptions};
use std::io::{self, ErrorKind, IsTerminal, Write, stderr, stdout};
use std::os::unix::fs::{FileTypeExt, MetadataExt};
use std::path::{Path, PathBuf};

use pevghazo_store::fault::step;
use pevghazo_store::{Secret, new_file, shown};

use crate::arguments::Arguments;
use crate::failure::Failure;
use crate::input::{check_name, is_standard};
use crate::streams;

/// Prints a text on the standard output.
pub fn print(out: &mut dyn Write, text: &str) -> Result<(), Failure> {
    out.write_all(text.as_bytes()).and_then(|()| out.flush()).map_err(Failure::file("write to", Path::new(STANDARD)))
}

/// Refuses a standard output that is closed, before anything is altered.
pub fn check_standard() -> Result<(), Failure> {
    streams::check_output().map_err(Failure::file("write to", Path::new(STANDARD)))
}

/// Says what was done, to a person: on the standard error, where it is a terminal.
pub fn tell(line: &str) {
    if stderr().is_terminal() {
        let _ = stderr().write_all(format!("{line}\n").as_bytes());
    }
}

const STANDARD: &str = "standard output";

/// Where an output goes.
#[derive(Debug, PartialEq, Eq)]
pub enum Output {
    /// To the standard output.
    Standard,
    /// To a new file; its path, with links resolved.
    File(PathBuf),
    /// To a device, a pipe and the like.
    Direct(PathBuf),
}

/// Whether something is handed out for the first time.
#[derive(Clone, Copy, Debug, PartialEq, Eq)]
pub enum Time {
    /// A file must be new.
    First,
    /// A file that has just these bytes already is fine.
    Again,
}

impl Output {
    /// The output of an option, if it was given. What can be known of its place is checked here, before anything is altered;
    /// it is not one of the state file's `own` paths.
    pub fn of(arguments: &Arguments, option: &str, own: impl Fn(&Path) -> bool) -> Result<Option<Output>, Failure> {
        let Some(name) = arguments.value(option).map(Path::new) else { return Ok(None) };
        if is_standard(name) {
            check_standard()?;
            return Ok(Some(Output::Standard));
        }
        if fs::metadata(name).is_ok_and(|metadata| !metadata.is_file() && !metadata.is_dir()) {
            return Ok(Some(Output::Direct(name.to_path_buf())));
        }
        check_name(name)?;
        let path = place(name).map_err(Failure::file("find the place of", name))?;
        if own(&path) {
            return Err(Failure::Usage(format!("{} belongs to the state file: choose another output.", shown(name))));
        }
        if path.is_dir() {
            return Err(Failure::file("write to", name)(io::Error::from(ErrorKind::IsADirectory)));
        }
        Ok(Some(Output::File(path)))
    }

    /// Refuses a file that is there already. A second name of it, which a kill leaves, is removed.
    pub fn must_be_new(&self) -> Result<(), Failure> {
        match self {
            Output::File(path) if path.exists() => {
                new_file::remove_leftovers(path);
                Err(Failure::OutputExists(path.clone()))
            }
            _ => Ok(()),
        }
    }

    /// Whether two outputs are one, by whichever names. What goes to `/dev/null` does not mix.
    pub fn is_same(&self, other: &Output) -> bool {
        match (self.metadata(), other.metadata()) {
            (Ok(own), Ok(other)) if (own.dev(), own.ino()) == (other.dev(), other.ino()) => !is_null(&own),
            _ => self == other,
        }
    }

    /// What is known of the place where it goes, if there is something.
    fn metadata(&self) -> io::Result<Metadata> {
        match self {
            Output::Standard => streams::output()?.metadata(),
            Output::File(path) | Output::Direct(path) => fs::metadata(path),
        }
    }

    /// Whether it goes to a terminal.
    pub fn is_terminal(&self) -> bool {
        match self {
            Output::Standard => stdout().is_terminal(),
            Output::File(_) => false,
            Output::Direct(path) => {
                fs::metadata(path).is_ok_and(|metadata| metadata.file_type().is_char_device())
                    && OpenOptions::new().write(true).open(path).is_ok_and(|file| file.is_terminal())
            }
        }
    }

    /// Whether it goes to the standard output, which is then not free for other words.
    pub fn is_standard(&self) -> bool {
        *self == Output::Standard
    }

    /// Writes the bytes; `out` is the standard output.
    pub fn write(&self, bytes: &[u8], time: Time, out: &mut dyn Write) -> Result<(), Failure> {
        match self {
            Output::Standard => halves(out, bytes)
                .and_then(|()| step("flush the output", || out.flush()))
                .map_err(Failure::file("write to", Path::new(STANDARD))),
            Output::Direct(path) => step("open the output", || OpenOptions::new().write(true).open(path))
                .and_then(|mut file| halves(&mut file, bytes))
                .map_err(Failure::file("write to", path)),
            Output::File(path) => write_file(path, bytes, time),
        }
    }
}

/// The folder of an option, with links resolved; it must be there.
pub fn folder(arguments: &Arguments, option: &str) -> Result<PathBuf, Failure> {
    let name = Path::new(arguments.required(option)?);
    let path = fs::canonicalize(name).map_err(Failure::file("find the folder", name))?;
    if path.is_dir() { Ok(path) } else { Err(Failure::file("write to", name)(ErrorKind::NotADirectory.into())) }
}

/// Makes a file with these bytes, unless it is there again.
pub fn write_file(path: &Path, bytes: &[u8], time: Time) -> Result<(), Failure> {
    new_file::remove_leftovers(path);
    if time == Time::First || !has(path, bytes) {
        new_file::create(path, bytes).map_err(|error| match error.kind() {
            ErrorKind::AlreadyExists => Failure::OutputExists(path.to_path_buf()),
            _ => Failure::file("write", path)(error),
        })?;
    }
    new_file::sync_name(path).map_err(|source| Failure::NotSynced { path: path.to_path_buf(), source })
}

/// Whether it is `/dev/null`.
fn is_null(metadata: &Metadata) -> bool {
    metadata.file_type().is_char_device()
        && fs::metadata("/dev/null")
            .is_ok_and(|null| null.file_type().is_char_device() && null.rdev() == metadata.rdev())
}

/// Whether a file has just these bytes.
fn has(path: &Path, bytes: &[u8]) -> bool {
    let same_length =
        fs::metadata(path).is_ok_and(|metadata| metadata.is_file() && metadata.len() == bytes.len() as u64);
    let content = || File::open(path).and_then(|file| Secret::read(file, bytes.len() + 1));
    same_length && content().is_ok_and(|content| *content == *bytes)
}

/// A path with links resolved. The file itself need not exist, but a link must lead to one.
fn place(name: &Path) -> io::Result<PathBuf> {
    if fs::symlink_metadata(name).is_ok() {
        return fs::canonicalize(name);
    }
    let own = name.file_name().ok_or(ErrorKind::InvalidInput)?;
    let folder = name.parent().filter(|folder| *folder != Path::new("")).unwrap_or(Path::new("."));
    let folder = fs::canonicalize(folder)?;
    if folder.is_dir() { Ok(folder.join(own)) } else { Err(ErrorKind::NotADirectory.into()) }
}

/// Writes in two steps, so that tests can stop in the middle.
fn halves(out: &mut (impl Write + ?Sized), bytes: &[u8]) -> io::Result<()> {
    let (first, second) = bytes.split_at(bytes.len() / 2);
    step("write the output's first half", || out.write_all(first))?;
    step("write the output's second half", || out.write_all(second))
}
