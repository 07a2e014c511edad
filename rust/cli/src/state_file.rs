//! Opening, locking and committing a state file.

use std::path::Path;
use std::time::Duration;

use pevghazo_store::{Error, Presence, Store, Wait};

use crate::arguments::Arguments;
use crate::failure::Failure;
use crate::input::{check_name, is_standard};
use crate::state::State;

/// How many seconds to wait for another program that uses the state file.
pub const WAIT_SECONDS: u32 = 10;

/// A state file in use: it is locked until this value is dropped.
pub struct Used<S> {
    store: Store,
    /// The state, as it was read and perhaps altered since.
    pub state: S,
}

impl<S: State> Used<S> {
    /// Opens the state file of the option `--state`.
    pub fn open(arguments: &Arguments) -> Result<Used<S>, Failure> {
        let store = open(arguments, Presence::MustExist).map_err(|failure| match failure {
            Failure::State(error @ Error::Older { .. }) => Failure::Older(error, S::OLDER),
            failure => failure,
        })?;
        let bytes = store.bytes().unwrap_or_default();
        let content = |bad| Failure::Content { path: store.path().to_path_buf(), bad };
        let state = S::decode(bytes).map_err(content)?;
        Ok(Used { store, state })
    }

    /// Commits the state: it is on the disk after this, or the failure says how far it got. What the old file holds on the disk,
    /// which may be a message, is overwritten.
    pub fn commit(&mut self) -> Result<(), Error> {
        self.store.commit_and_wipe(&self.state.encode())
    }

    /// Commits the state if it differs from what the file holds.
    pub fn commit_if_altered(&mut self) -> Result<(), Error> {
        let bytes = self.state.encode();
        if self.store.bytes() == Some(&bytes[..]) { Ok(()) } else { self.store.commit_and_wipe(&bytes) }
    }

    /// Whether the file is an older copy, which `--restore` has taken.
    pub fn is_older(&self) -> bool {
        self.store.own_generation() < self.store.generation()
    }

    /// The number of the commit that the file is of.
    pub fn generation(&self) -> u64 {
        self.store.own_generation()
    }

    /// Whether a path is one that no output may take: the state file's, its lock file's, or one of its temporary files'.
    pub fn is_own(&self, path: &Path) -> bool {
        self.store.is_own(path)
    }
}

/// Creates the state file of the option `--state`; there must be none yet. Where a lock file shows that there was one, a kind that
/// knows nonces is refused.
pub fn create<S: State>(arguments: &Arguments, state: &S) -> Result<(), Failure> {
    let mut store = open(arguments, Presence::MustBeNew)?;
    if S::KNOWS_NONCES && store.generation() > 0 {
        return Err(Failure::Lost(store.path().to_path_buf()));
    }
    Ok(store.commit(&state.encode())?)
}

fn open(arguments: &Arguments, presence: Presence) -> Result<Store, Failure> {
    let seconds = arguments.number("wait")?.unwrap_or(WAIT_SECONDS);
    let wait = Wait::AtMost(Duration::from_secs(u64::from(seconds)));
    let path = Path::new(arguments.required("state")?);
    if is_standard(path) {
        return Err(Failure::Usage("A state file is never `-`: name a file.".to_string()));
    }
    check_name(path)?;
    Ok(if arguments.has("restore") && presence == Presence::MustExist {
        Store::restore(path, wait)?
    } else {
        Store::open(path, presence, wait)?
    })
}
