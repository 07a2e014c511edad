//! The state file: what is committed is read, and what cannot be used is refused.

mod common;

use std::fs;
use std::os::unix::fs::{PermissionsExt, symlink};

use common::{BUSY, Folder, get, put, run, second, steps};
use pevghazo_store::{Damage, Error, Presence, Store, Wait};

/// See the shared module.
#[test]
fn child() {
    common::child();
}

#[test]
fn what_is_committed_is_read() {
    let folder = Folder::new();
    let path = folder.state();
    for bytes in [&b""[..], b"x", &[0; 5_000], b"last"] {
        put(&path, bytes);
        assert_eq!(get(&path).as_deref(), Some(bytes));
        assert_eq!(folder.names(), ["office.state", "office.state.lock"]);
    }
}

#[test]
fn presence_is_asked_for() {
    let folder = Folder::new();
    let path = folder.state();
    assert!(matches!(Store::open(&path, Presence::MustExist, Wait::Never), Err(Error::Missing { .. })));
    assert_eq!(folder.names(), [""; 0], "nothing is made where nothing is");
    let mut store = Store::open(&path, Presence::MustBeNew, Wait::Never).unwrap();
    assert_eq!(store.bytes(), None);
    assert_eq!(folder.names(), ["office.state.lock"], "no state before the first commit");
    store.commit(b"1").unwrap();
    assert_eq!(store.bytes(), Some(&b"1"[..]));
    drop(store);
    assert!(matches!(Store::open(&path, Presence::MustBeNew, Wait::Never), Err(Error::Exists { .. })));
    assert!(Store::open(&path, Presence::MustExist, Wait::Never).is_ok());
    assert!(matches!(
        Store::open(folder.0.join("none/office.state"), Presence::MayExist, Wait::Never),
        Err(Error::System { .. })
    ));
}

#[test]
fn damaged_files_are_refused_and_left_alone() {
    let folder = Folder::new();
    let path = folder.state();
    put(&path, b"a state");
    let good = fs::read(&path).unwrap();
    let damage = |content: &[u8]| {
        fs::write(&path, content).unwrap();
        let error = Store::open(&path, Presence::MayExist, Wait::Never).unwrap_err();
        assert_eq!(fs::read(&path).unwrap(), content);
        assert!(error.to_string().contains("office.state"));
        match error {
            Error::Damaged { damage, .. } => damage,
            error => panic!("{error}"),
        }
    };
    assert_eq!(damage(b""), Damage::Start);
    assert_eq!(damage(&good[..good.len() - 1]), Damage::Length);
    assert_eq!(damage(&[&good[..], b"\n"].concat()), Damage::Length);
    let mut changed = good.clone();
    changed[40] ^= 0x40;
    assert_eq!(damage(&changed), Damage::Checksum);
    let mut newer = good.clone();
    newer[16] = 9;
    assert_eq!(damage(&newer), Damage::Version(9));
    fs::write(&path, &good).unwrap();
    assert_eq!(get(&path), Some(b"a state".to_vec()));
}

#[test]
fn files_that_others_can_reach_are_refused() {
    let folder = Folder::new();
    let path = folder.state();
    put(&path, b"a state");
    for mode in [0o640, 0o604, 0o620, 0o666] {
        fs::set_permissions(&path, fs::Permissions::from_mode(mode)).unwrap();
        assert!(matches!(Store::open(&path, Presence::MayExist, Wait::Never), Err(Error::OpenToOthers { .. })));
    }
    fs::set_permissions(&path, fs::Permissions::from_mode(0o600)).unwrap();
    let other = folder.0.join("copy.state");
    fs::hard_link(&path, &other).unwrap();
    assert!(matches!(Store::open(&path, Presence::MayExist, Wait::Never), Err(Error::SecondName { .. })));
    fs::remove_file(&other).unwrap();
    assert!(Store::open(&path, Presence::MayExist, Wait::Never).is_ok());
}

#[test]
fn all_names_of_a_file_share_one_lock() {
    let folder = Folder::new();
    let path = folder.state();
    put(&path, b"a state");
    let link = folder.0.join("link.state");
    symlink(&path, &link).unwrap();
    let mut store = Store::open(&link, Presence::MustExist, Wait::Never).unwrap();
    assert!(matches!(Store::open(&path, Presence::MustExist, Wait::Never), Err(Error::Busy { .. })));
    store.commit(b"by the link").unwrap();
    assert!(fs::symlink_metadata(&link).unwrap().is_symlink());
    // The file has been replaced since it was locked, and the lock still holds.
    assert!(matches!(Store::open(&path, Presence::MustExist, Wait::Never), Err(Error::Busy { .. })));
    assert_eq!(run(second("try", &path)).status.code(), Some(BUSY));
    assert_eq!(run(second("try", &link)).status.code(), Some(BUSY));
    assert_eq!(run(second("wait", &path)).status.code(), Some(BUSY));
    drop(store);
    assert_eq!(run(second("try", &path)).status.code(), Some(0));
    assert_eq!(get(&path), Some(b"by the link".to_vec()));
}

#[test]
fn a_link_that_leads_nowhere_is_refused() {
    let folder = Folder::new();
    symlink(folder.0.join("nowhere"), folder.state()).unwrap();
    assert!(matches!(Store::open(folder.state(), Presence::MayExist, Wait::Never), Err(Error::System { .. })));
}

#[test]
fn the_steps_come_in_their_order() {
    let folder = Folder::new();
    put(&folder.state(), b"before");
    assert_eq!(
        steps("commit 2000", &folder.state()),
        [
            "open the lock file",
            "lock",
            "sync the folder at opening",
            "read",
            "create the new file",
            "write the first half",
            "write the second half",
            "sync the new file",
            "rename",
            "sync the folder",
            "note the number",
            "sync the lock file",
        ]
    );
}

#[test]
fn errors_are_plain_sentences() {
    let folder = Folder::new();
    let path = folder.state();
    let missing = Store::open(&path, Presence::MustExist, Wait::Never).unwrap_err().to_string();
    assert!(missing.starts_with("There is no state file ") && missing.ends_with("office.state."), "{missing}");
    let store = Store::open(&path, Presence::MayExist, Wait::Never).unwrap();
    let busy = Store::open(&path, Presence::MayExist, Wait::Never).unwrap_err().to_string();
    assert!(busy.starts_with("Another program is using the state file "), "{busy}");
    assert_eq!(store.path().file_name().unwrap(), "office.state");
}
