//! State files that were copied back, older versions, and old files that are wiped.

mod common;

use std::fs;
use std::os::unix::fs::PermissionsExt;

use common::{Folder, get, put, run, second_after, steps};
use pevghazo_store::{Error, Presence, Store, Wait, fault};

/// See the shared module.
#[test]
fn child() {
    common::child();
}

/// An older copy in the place of the state file.
#[test]
fn a_state_file_that_was_copied_back_is_refused() {
    let folder = Folder::new();
    let path = folder.state();
    let mut copies = Vec::new();
    for number in 1..=5u64 {
        put(&path, &[number as u8]);
        assert_eq!(Store::open(&path, Presence::MustExist, Wait::Never).unwrap().generation(), number);
        copies.push(fs::read(&path).unwrap());
    }
    for (number, copy) in (1..).zip(&copies[..4]) {
        fs::write(&path, copy).unwrap();
        for presence in [Presence::MustExist, Presence::MayExist] {
            match Store::open(&path, presence, Wait::Never).unwrap_err() {
                Error::Older { generation, last, .. } => assert_eq!((generation, last), (number, 5)),
                error => panic!("{error}"),
            }
        }
        assert_eq!(&fs::read(&path).unwrap(), copy, "left alone");
    }
    fs::write(&path, &copies[4]).unwrap();
    assert_eq!(get(&path), Some(vec![5]));
    // A wanted restore: looking alters nothing, and a commit makes it the newest.
    fs::write(&path, &copies[1]).unwrap();
    assert_eq!(Store::restore(&path, Wait::Never).unwrap().bytes(), Some(&[2][..]));
    assert!(matches!(Store::open(&path, Presence::MustExist, Wait::Never), Err(Error::Older { .. })));
    Store::restore(&path, Wait::Never).unwrap().commit(b"on").unwrap();
    let store = Store::open(&path, Presence::MustExist, Wait::Never).unwrap();
    assert_eq!((store.bytes(), store.generation()), (Some(&b"on"[..]), 6));
    drop(store);
    for copy in &copies {
        fs::write(&path, copy).unwrap();
        assert!(matches!(Store::open(&path, Presence::MustExist, Wait::Never), Err(Error::Older { .. })));
    }
    // A state file that is made anew beside the old lock file goes on from its number.
    fs::remove_file(&path).unwrap();
    put(&path, b"new");
    assert_eq!(Store::open(&path, Presence::MustExist, Wait::Never).unwrap().generation(), 7);
    fs::write(&path, &copies[4]).unwrap();
    assert!(matches!(Store::open(&path, Presence::MustExist, Wait::Never), Err(Error::Older { .. })));
}

/// The lock file is removed, empty as in version 1, or damaged in one of its two records.
#[test]
fn a_lock_file_without_a_number_gets_that_of_the_state_file() {
    let folder = Folder::new();
    let path = folder.state();
    let lock = folder.0.join("office.state.lock");
    for number in 1..=4 {
        put(&path, &[number]);
    }
    let (old, good) = (fs::read(&path).unwrap(), fs::read(&lock).unwrap());
    for content in [None, Some(Vec::new()), Some(vec![0; 100]), Some(vec![0; good.len()])] {
        match content {
            Some(content) => fs::write(&lock, content).unwrap(),
            None => fs::remove_file(&lock).unwrap(),
        }
        assert_eq!(get(&path), Some(vec![4]));
        put(&path, &[4]);
        fs::write(&path, &old).unwrap();
        assert!(matches!(Store::open(&path, Presence::MustExist, Wait::Never), Err(Error::Older { .. })));
        fs::write(&lock, &good).unwrap();
    }
    // A write of the number that was cut short spoils one record; the other has the number before.
    for place in [0, 20, 31, 512, 530, 543] {
        let mut damaged = good.clone();
        damaged[place] ^= 1;
        fs::write(&lock, &damaged).unwrap();
        assert_eq!(get(&path), Some(vec![4]), "{place}");
    }
}

/// A file as version 1 wrote it: read, and written anew at the next commit.
#[test]
fn a_state_file_of_version_1_is_read() {
    let folder = Folder::new();
    let path = folder.state();
    let content = b"pevghazo-state\n\0\x01\0\0\0\x07\0\0\0\0\0\0\0a state\x7d\x25\x99\x46\x4e\xe3\xec\xeb";
    fs::write(&path, content).unwrap();
    fs::set_permissions(&path, fs::Permissions::from_mode(0o600)).unwrap();
    fs::write(folder.0.join("office.state.lock"), b"").unwrap();
    assert_eq!(get(&path), Some(b"a state".to_vec()));
    assert_eq!(fs::read(&path).unwrap(), content, "reading alters nothing");
    put(&path, b"another");
    assert_eq!(get(&path), Some(b"another".to_vec()));
    fs::write(&path, content).unwrap();
    assert!(matches!(Store::open(&path, Presence::MustExist, Wait::Never), Err(Error::Older { .. })));
}

/// Killed between the rename and the note of the number: nobody is locked out, and what is older is refused.
#[test]
fn killed_between_the_two_writes_the_new_state_is_taken() {
    for fault in ["abort", "fail"] {
        let folder = Folder::new();
        let path = folder.state();
        put(&path, b"first");
        let first = fs::read(&path).unwrap();
        put(&path, b"second");
        let names = steps("commit 10", &path);
        let noted = names.iter().position(|name| name == "note the number").unwrap() + 1;
        for n in noted - 2..=noted + 1 {
            let before = fs::read(&path).unwrap();
            let mut command = second_after("ulimit -c 0", "commit 10", &path);
            command.env(fault::VARIABLE, format!("{fault}@{n}"));
            assert!(!run(command).status.success());
            let now = fs::read(&path).unwrap();
            assert_eq!(now == before, n == noted - 2, "{fault} at step {n}");
            // Nobody is locked out.
            assert!(get(&path).is_some(), "{fault} at step {n}");
            // Once it was opened, every older one is refused.
            for older in [&first, &before] {
                if *older != now {
                    fs::write(&path, older).unwrap();
                    let opened = Store::open(&path, Presence::MustExist, Wait::Never);
                    assert!(matches!(opened, Err(Error::Older { .. })), "{fault} at step {n}");
                }
            }
            fs::write(&path, &now).unwrap();
        }
    }
}

/// The bytes of the old file are overwritten, and not those of the new one.
#[test]
fn an_old_file_can_be_wiped() {
    let folder = Folder::new();
    let path = folder.state();
    put(&path, &[7; 10_000]);
    let mut old = fs::File::open(&path).unwrap();
    Store::open(&path, Presence::MustExist, Wait::Never).unwrap().commit_and_wipe(b"short").unwrap();
    let mut content = Vec::new();
    std::io::Read::read_to_end(&mut old, &mut content).unwrap();
    assert!(content.len() > 10_000 && content[16..].iter().all(|byte| *byte == 0));
    assert_eq!(get(&path), Some(b"short".to_vec()));
    assert_eq!(folder.names(), ["office.state", "office.state.lock"]);
}
