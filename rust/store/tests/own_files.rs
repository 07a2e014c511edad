//! Files that are not the store's own: none of them is altered or removed.

mod common;

use std::fs;
use std::os::unix::fs::{PermissionsExt, symlink};
use std::path::Path;
use std::process::Command;

use common::{Folder, get, put};
use pevghazo_store::{Error, Presence, Store, Wait};

/// Files beside the state file that are not the store's own, whatever their names, and files that are no state files.
#[test]
fn no_other_file_is_removed_or_altered() {
    let folder = Folder::new();
    let path = folder.state();
    let others = [
        "office.state.new",
        ".office.state.new",
        ".office.state.17.new",
        ".office.state.pevghazo-",
        ".office.state.pevghazo-0123456789abcdef",
        ".office.state.pevghazo-0123456789ABCDEF",
        ".office.state.pevghazo-out-0123456789abcdef",
        ".other.state.pevghazo-0123456789abcdef",
    ];
    let write = |name: &str, text: &[u8]| {
        fs::write(folder.0.join(name), text).unwrap();
        fs::set_permissions(folder.0.join(name), fs::Permissions::from_mode(0o600)).unwrap();
    };
    for name in others {
        write(name, name.as_bytes());
    }
    let check = || {
        for name in others {
            assert_eq!(fs::read(folder.0.join(name)).unwrap(), name.as_bytes(), "{name}");
        }
    };
    assert!(Store::open(&path, Presence::MustExist, Wait::Never).is_err());
    check();
    put(&path, b"a state");
    assert_eq!(get(&path), Some(b"a state".to_vec()));
    check();
    // One that starts as a state file does is a leftover; but only beside a state file that is good.
    let leftover = ".office.state.pevghazo-00112233445566aa";
    let good = fs::read(&path).unwrap();
    for start in [0, 1, 15, 16, 20, good.len()] {
        write(leftover, &good[..start]);
        write("office.state", b"something else");
        assert!(Store::open(&path, Presence::MayExist, Wait::Never).is_err());
        write("office.state", &good[..good.len() - 1]);
        assert!(Store::open(&path, Presence::MayExist, Wait::Never).is_err());
        assert_eq!(fs::read(folder.0.join(leftover)).unwrap(), &good[..start]);
        write("office.state", &good);
        assert_eq!(get(&path), Some(b"a state".to_vec()));
        assert!(!folder.0.join(leftover).exists(), "{start} bytes");
        check();
    }
    symlink("office.state", folder.0.join(leftover)).unwrap();
    assert_eq!(get(&path), Some(b"a state".to_vec()));
    assert!(folder.0.join(leftover).is_symlink());
}

/// What is no state file gets no lock file, and what is beside it stays.
#[test]
fn where_no_state_file_is_nothing_is_left_behind() {
    let folder = Folder::new();
    fs::create_dir(folder.0.join("folder")).unwrap();
    fs::write(folder.0.join("text"), b"some text").unwrap();
    fs::write(folder.0.join("empty"), b"").unwrap();
    let made = Command::new("mkfifo").arg(folder.0.join("pipe")).status();
    assert!(made.unwrap().success());
    for name in ["folder", "text", "empty", "pipe", "/dev/null", "/dev/full", "none"] {
        let path = folder.0.join(name);
        for presence in [Presence::MustExist, Presence::MayExist, Presence::MustBeNew] {
            if name == "none" && presence != Presence::MustExist {
                continue;
            }
            assert!(Store::open(&path, presence, Wait::Never).is_err(), "{name}");
            assert!(!folder.0.join(format!("{name}.lock")).exists(), "{name}");
        }
    }
    assert!(matches!(
        Store::open(folder.0.join("folder"), Presence::MayExist, Wait::Never),
        Err(Error::NotAFile { .. })
    ));
    assert!(!Path::new("/dev/null.lock").exists() && !Path::new("/dev/full.lock").exists());
}

/// A state file, or a lock file, of another user. Only the superuser is able to make one.
#[test]
fn files_of_another_owner_are_refused() {
    use std::os::unix::fs::{MetadataExt, chown};
    let folder = Folder::new();
    let path = folder.state();
    put(&path, b"a state");
    let own = fs::metadata(&path).unwrap().uid();
    for name in ["office.state", "office.state.lock"] {
        let changed = folder.0.join(name);
        if chown(&changed, Some(own + 1), None).is_err() {
            eprintln!("not tried: this user is not able to give files away");
            return;
        }
        let before = fs::read(&changed).unwrap();
        let error = Store::open(&path, Presence::MayExist, Wait::Never).unwrap_err();
        assert!(matches!(error, Error::OtherOwner { .. }), "{error}");
        assert_eq!(fs::metadata(&changed).unwrap().uid(), own + 1);
        assert_eq!(fs::read(&changed).unwrap(), before);
        chown(&changed, Some(own), None).unwrap();
    }
    assert_eq!(get(&path), Some(b"a state".to_vec()));
    fs::remove_file(folder.0.join("office.state.lock")).unwrap();
    chown(&path, Some(own + 1), None).unwrap();
    assert!(Store::open(&path, Presence::MayExist, Wait::Never).is_err());
    assert_eq!(folder.names(), ["office.state"], "no lock file for another's state file");
}

#[test]
fn a_lock_file_that_is_none_is_refused_and_left_alone() {
    let folder = Folder::new();
    let path = folder.state();
    let lock = folder.0.join("office.state.lock");
    put(&path, b"a state");
    let known = fs::read(&lock).unwrap();
    fs::remove_file(&lock).unwrap();
    // A link to a file of the user's, to nothing, and to a good lock file.
    let other = folder.0.join("other");
    for target in ["other", "nothing", "good"] {
        fs::write(&other, b"the user's own").unwrap();
        fs::set_permissions(&other, fs::Permissions::from_mode(0o644)).unwrap();
        fs::write(folder.0.join("good"), &known).unwrap();
        symlink(target, &lock).unwrap();
        let error = Store::open(&path, Presence::MayExist, Wait::Never).unwrap_err();
        assert!(matches!(error, Error::NotAFile { .. }), "{error}");
        assert_eq!(fs::metadata(&other).unwrap().permissions().mode() & 0o777, 0o644);
        assert_eq!(fs::read(&other).unwrap(), b"the user's own");
        assert!(!folder.0.join("nothing").exists());
        fs::remove_file(&lock).unwrap();
    }
    // A file of the user's, by chance of this name.
    for text in [&b"my own notes"[..], &[b'x'; 2_000], &[0; 2_000]] {
        fs::write(&lock, text).unwrap();
        fs::set_permissions(&lock, fs::Permissions::from_mode(0o644)).unwrap();
        let error = Store::open(&path, Presence::MayExist, Wait::Never).unwrap_err();
        assert!(matches!(error, Error::NotALock { .. }), "{error}");
        assert_eq!(fs::read(&lock).unwrap(), text);
        assert_eq!(fs::metadata(&lock).unwrap().permissions().mode() & 0o777, 0o644);
    }
    fs::remove_file(&lock).unwrap();
    assert_eq!(get(&path), Some(b"a state".to_vec()));
}

/// A file that appears while the first commit is on its way keeps its place.
#[test]
fn the_first_commit_takes_the_place_of_nothing() {
    let folder = Folder::new();
    let path = folder.state();
    let mut store = Store::open(&path, Presence::MustBeNew, Wait::Never).unwrap();
    fs::write(&path, b"the user's own").unwrap();
    assert!(matches!(store.commit(b"a state"), Err(Error::Exists { .. })));
    assert_eq!(store.bytes(), None);
    assert_eq!(fs::read(&path).unwrap(), b"the user's own");
    fs::remove_file(&path).unwrap();
    store.commit(b"a state").unwrap();
    drop(store);
    assert_eq!(get(&path), Some(b"a state".to_vec()));
    // Where the commit is made by a link, a kill may leave the state file with a temporary name too.
    fs::hard_link(&path, folder.0.join(".office.state.pevghazo-0123456789abcdef")).unwrap();
    assert_eq!(get(&path), Some(b"a state".to_vec()));
    assert_eq!(folder.names(), ["office.state", "office.state.lock"]);
}
