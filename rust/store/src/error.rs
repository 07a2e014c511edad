//! Why a state file could not be used, each with a plain sentence.

use std::path::{Path, PathBuf};
use std::{fmt, io};

/// Why a state file could not be opened or committed. The display is one plain sentence.
#[derive(Debug)]
#[non_exhaustive]
pub enum Error {
    /// There is no state file.
    Missing {
        /// The state file.
        path: PathBuf,
    },
    /// There is a state file already.
    Exists {
        /// The state file.
        path: PathBuf,
    },
    /// Another process has it open.
    Busy {
        /// The state file.
        path: PathBuf,
    },
    /// The name belongs to something that is not a file.
    NotAFile {
        /// The name.
        path: PathBuf,
    },
    /// The file has a second name (a hard link), which would keep the old state after a commit.
    SecondName {
        /// The state file.
        path: PathBuf,
    },
    /// The file belongs to another user.
    OtherOwner {
        /// The state file, or its lock file.
        path: PathBuf,
    },
    /// There is a file in the place of the lock file that is none.
    NotALock {
        /// The lock file.
        path: PathBuf,
    },
    /// The state file is older than the last commit: a copy was put in its place.
    Older {
        /// The state file.
        path: PathBuf,
        /// Its number.
        generation: u64,
        /// The number of the last commit.
        last: u64,
    },
    /// The file's permissions let others in.
    OpenToOthers {
        /// The state file.
        path: PathBuf,
    },
    /// The state is larger than a state file may be.
    TooLarge {
        /// The state file.
        path: PathBuf,
        /// How large it is.
        bytes: u64,
    },
    /// The content is not that of a whole state file.
    Damaged {
        /// The state file.
        path: PathBuf,
        /// What is wrong with it.
        damage: Damage,
    },
    /// The system refused something. The state file is as it was.
    System {
        /// What was tried.
        what: &'static str,
        /// On which file.
        path: PathBuf,
        /// What the system said.
        source: io::Error,
    },
    /// The new state is in its place, but the old file's bytes were not overwritten.
    NotWiped {
        /// The state file.
        path: PathBuf,
        /// What the system said.
        source: io::Error,
    },
    /// The new state is in its place, but the disk did not confirm it.
    NotSynced {
        /// The state file.
        path: PathBuf,
        /// What the system said.
        source: io::Error,
    },
}

/// What is wrong with the content of a state file.
#[derive(Clone, Copy, Debug, PartialEq, Eq)]
pub enum Damage {
    /// It does not start as a state file does.
    Start,
    /// It was written in a version of the format that this program does not know.
    Version(u32),
    /// It is shorter or longer than it says.
    Length,
    /// Its checksum does not match.
    Checksum,
}

impl Error {
    /// Whether the new state of a commit is in its place all the same.
    pub fn is_committed(&self) -> bool {
        matches!(self, Error::NotSynced { .. } | Error::NotWiped { .. })
    }

    /// The file that the error is about.
    pub fn path(&self) -> &Path {
        match self {
            Error::Missing { path }
            | Error::Exists { path }
            | Error::Busy { path }
            | Error::NotAFile { path }
            | Error::SecondName { path }
            | Error::OtherOwner { path }
            | Error::NotALock { path }
            | Error::Older { path, .. }
            | Error::OpenToOthers { path }
            | Error::TooLarge { path, .. }
            | Error::Damaged { path, .. }
            | Error::System { path, .. }
            | Error::NotWiped { path, .. }
            | Error::NotSynced { path, .. } => path,
        }
    }
}

impl fmt::Display for Damage {
    fn fmt(&self, f: &mut fmt::Formatter<'_>) -> fmt::Result {
        match self {
            Damage::Start => write!(f, "it does not start as a state file does"),
            Damage::Version(version) => write!(f, "it has version {version} of the format, which is not known here"),
            Damage::Length => write!(f, "its length is not the one that it states"),
            Damage::Checksum => write!(f, "its checksum does not match"),
        }
    }
}

impl fmt::Display for Error {
    fn fmt(&self, f: &mut fmt::Formatter<'_>) -> fmt::Result {
        let path = shown(self.path());
        match self {
            Error::Missing { .. } => write!(f, "There is no state file {path}."),
            Error::Exists { .. } => write!(f, "There is a state file {path} already."),
            Error::Busy { .. } => write!(f, "Another program is using the state file {path}."),
            Error::NotAFile { .. } => write!(f, "{path} is not a file."),
            Error::SecondName { .. } => {
                write!(f, "The state file {path} has a second name, which would keep an old state: remove one of them.")
            }
            Error::OtherOwner { .. } => write!(f, "{path} belongs to another user, and only its owner may use it."),
            Error::NotALock { .. } => {
                write!(f, "{path} stands in the place of the lock file and is none: move it elsewhere.")
            }
            Error::Older { generation, last, .. } => write!(
                f,
                "The state file {path} is an older copy: it is of commit {generation}, and the last one was commit {last}."
            ),
            Error::OpenToOthers { .. } => {
                write!(f, "Others may read or write the state file {path}: take that away with chmod 600.")
            }
            Error::TooLarge { bytes, .. } => {
                write!(f, "The state file {path} would have {bytes} bytes, which is too many.")
            }
            Error::Damaged { damage, .. } => write!(f, "The state file {path} cannot be used: {damage}."),
            Error::System { what, source, .. } => write!(f, "Could not {what} {path}: {source}."),
            Error::NotWiped { source, .. } => {
                write!(
                    f,
                    "The new state is in {path}, but the bytes of the old one were not overwritten: {source}. The next command tries again."
                )
            }
            Error::NotSynced { source, .. } => write!(
                f,
                "The new state is in {path}, but the disk did not confirm it: {source}. Until the next command, a power failure may bring the old one back."
            ),
        }
    }
}

impl std::error::Error for Error {
    fn source(&self) -> Option<&(dyn std::error::Error + 'static)> {
        match self {
            Error::System { source, .. } | Error::NotWiped { source, .. } | Error::NotSynced { source, .. } => {
                Some(source)
            }
            _ => None,
        }
    }
}

/// A path as a sentence has it: control characters are escaped, so that none reaches a terminal.
pub fn shown(path: &Path) -> String {
    let mut text = String::new();
    for letter in path.to_string_lossy().chars() {
        if letter.is_control()
            || matches!(letter, '\u{2028}' | '\u{2029}' | '\u{202a}'..='\u{202e}' | '\u{2066}'..='\u{2069}')
        {
            text.extend(letter.escape_default());
        } else {
            text.push(letter);
        }
    }
    text
}

/// Makes an error of a failed operation of the system.
pub(crate) fn failed(what: &'static str, path: &Path) -> impl FnOnce(io::Error) -> Error {
    let path = path.to_path_buf();
    move |source| Error::System { what, path, source }
}
