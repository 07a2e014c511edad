//! State files that were copied back, and files that are not the program's own.

mod common;

use std::fs::{self, Permissions};
use std::os::unix::fs::{PermissionsExt, symlink};

use common::Folder;

#[test]
fn a_state_file_that_was_copied_back_is_refused() {
    let folder = Folder::pair(5);
    folder.write("text", b"20001");
    let copies = [folder.read("office").unwrap(), folder.read("group").unwrap()];
    folder.done("office --state office seal --group 5 --message text --out first");
    folder.done("group --state group open --in first --out opened");
    for (name, copy) in ["office", "group"].into_iter().zip(&copies) {
        let newest = folder.read(name).unwrap();
        folder.write(name, copy);
        let group = if name == "office" { " --group 5" } else { "" };
        for line in [
            "show".to_string(),
            format!("seal --message text --out second{group}"),
            format!("resend --out second{group}"),
        ] {
            let said = folder.fails(8, &format!("{name} --state {name} {line}"));
            assert!(said.contains(" is an older copy: ") && said.contains("`--restore`"), "{said}");
            assert_eq!(folder.read("second"), None);
            assert!(&folder.read(name).unwrap() == copy);
        }
        // Looking at it does not make it the newest.
        folder.done(&format!("{name} --state {name} show --restore"));
        let commit = if name == "office" { 3 } else { 1 };
        let shown = folder.done(&format!("{name} --state {name} show --restore --json"));
        assert!(shown.starts_with(&format!("{{\"commit\":{commit},")), "its own number: {shown}");
        folder.fails(8, &format!("{name} --state {name} show"));
        folder.write(name, &newest);
        folder.done(&format!("{name} --state {name} show"));
    }
    // A wanted restore at both ends, and what it means: another envelope in the place of the first.
    for (name, copy) in ["office", "group"].into_iter().zip(&copies) {
        folder.write(name, copy);
    }
    folder.done("office --state office seal --group 5 --message text --out second --restore");
    folder.done("office --state office show");
    assert_eq!(folder.read("first"), folder.read("second"));
    folder.done("group --state group open --in second --out opened-second --restore");
    folder.done("group --state group show");
    for (name, copy) in ["office", "group"].into_iter().zip(&copies) {
        folder.write(name, copy);
        folder.fails(8, &format!("{name} --state {name} show"));
    }
}

/// The lock file may be lost or removed: it is made anew, and the number goes on.
#[test]
fn a_lock_file_that_was_removed_is_made_anew() {
    let folder = Folder::pair(5);
    let copy = folder.read("office").unwrap();
    fs::remove_file(folder.0.join("office.lock")).unwrap();
    folder.done("office --state office day --allowance 7");
    folder.write("office", &copy);
    folder.fails(8, "office --state office show");
}

/// Names that the program might have taken for its own.
#[test]
fn no_file_of_the_user_is_removed_or_altered() {
    let folder = Folder::new();
    folder.write("report", b"a report");
    let others = ["report.new", "office.new", ".office.new", ".out.17.new", ".office.pevghazo-0123456789abcdef"];
    for name in others {
        folder.write(name, name.as_bytes());
    }
    folder.fails(3, "office --state report show");
    assert!(!folder.names().contains(&"report.lock".to_string()));
    folder.done("office --state office create");
    folder.done("office --state office day --allowance 100");
    folder.write("key", b"the secret key of group 5");
    folder.write("text", b"20001");
    folder.done("office --state office open-group --group 5 --key key");
    folder.done("office --state office seal --group 5 --message text --out out");
    for name in others {
        assert_eq!(folder.read(name).unwrap(), name.as_bytes(), "{name}");
    }
    // The state file may have any such name itself, and an output too.
    folder.done("office --state new.new create");
    folder.done("office --state office resend --group 5 --out out.new");
    // What is no state file is left without a lock file.
    fs::create_dir(folder.0.join("folder")).unwrap();
    let names = folder.names();
    for state in ["/dev/null", "/dev/full", "folder", "key", "nothing"] {
        folder.fails(3, &format!("office --state {state} show"));
        if state != "nothing" {
            folder.fails(3, &format!("office --state {state} create"));
        }
        assert!(!std::path::Path::new(&format!("{state}.lock")).exists());
    }
    assert_eq!(folder.names(), names);
}

/// Temporary files of outputs: what a kill leaves is removed, and what only looks like it stays.
#[test]
fn leftovers_of_outputs() {
    let folder = Folder::new();
    let others = [".key.pevghazo-out-0123456789abcdef", ".key.pevghazo-out-00000000"];
    for name in others {
        folder.write(name, name.as_bytes());
    }
    let temporaries = || -> Vec<String> {
        let names = folder.names().into_iter().filter(|name| name.contains(".pevghazo-"));
        names.filter(|name| !others.contains(&name.as_str())).collect()
    };
    let keygen = "keygen --out key";
    let log = folder.run_with("log", "keygen --out other").said;
    let step = |name: &str| 1 + log.lines().position(|line| line.ends_with(name)).unwrap();
    // Before the link there is a temporary file alone, and after it the key with a second name.
    for (name, made) in [("link the output", false), ("remove the temporary name", true)] {
        assert!(folder.run_with(&format!("abort@{}", step(name)), keygen).signal.is_some());
        let left = temporaries();
        assert_eq!((left.len(), folder.read("key").is_some()), (1, made));
        if made {
            assert!(folder.fails(4, keygen).contains("There is a file "));
        } else {
            // One that has another name, or is open to others, is not as this program leaves it.
            let path = folder.0.join(&left[0]);
            fs::hard_link(&path, folder.0.join("second")).unwrap();
            folder.done(keygen);
            assert_eq!(temporaries(), left);
            fs::remove_file(folder.0.join("second")).unwrap();
            fs::set_permissions(&path, Permissions::from_mode(0o644)).unwrap();
            folder.done_anew(keygen);
            assert_eq!(temporaries(), left);
            fs::set_permissions(&path, Permissions::from_mode(0o600)).unwrap();
            folder.done_anew(keygen);
            fs::remove_file(folder.0.join("key")).unwrap();
        }
        assert_eq!(temporaries(), [""; 0]);
    }
    for name in others {
        assert_eq!(folder.read(name).unwrap(), name.as_bytes(), "{name}");
    }
}

/// A lock file that was made for a command that is refused does not stay.
#[test]
fn a_refused_opening_leaves_no_lock_file() {
    let folder = Folder::new();
    folder.done("office --state office create");
    fs::hard_link(folder.0.join("office"), folder.0.join("second")).unwrap();
    for name in ["second", "office"] {
        assert!(folder.fails(3, &format!("office --state {name} show")).contains("has a second name"));
    }
    // Each step of a creation, as on a full disk; but what could not be locked may be another's.
    let log = folder.run_with("log", "office --state new create").said;
    let steps = log.lines().enumerate().filter(|(_, line)| !line.ends_with(": locked") && !line.ends_with(": end"));
    for n in steps.map(|(place, _)| place + 1) {
        let state = format!("new-{n}");
        assert_eq!(folder.run_with(&format!("fail@{n}"), &format!("office --state {state} create")).status, 3);
        let names = folder.names();
        assert_eq!(names.contains(&format!("{state}.lock")), names.contains(&state), "step {n}");
    }
    let names = folder.names();
    assert!(names.contains(&"office.lock".to_string()) && !names.contains(&"second.lock".to_string()));
}

#[test]
fn a_link_in_the_place_of_the_lock_file_is_refused() {
    let folder = Folder::pair(5);
    fs::remove_file(folder.0.join("office.lock")).unwrap();
    folder.write("precious", b"the user's own");
    fs::set_permissions(folder.0.join("precious"), Permissions::from_mode(0o644)).unwrap();
    symlink("precious", folder.0.join("office.lock")).unwrap();
    let before = folder.read("office");
    assert!(folder.fails(3, "office --state office day --allowance 1").contains("office.lock is not a file"));
    assert!(folder.read("office") == before);
    assert_eq!(folder.read("precious").unwrap(), b"the user's own");
    assert_eq!(fs::metadata(folder.0.join("precious")).unwrap().permissions().mode() & 0o777, 0o644);
}

#[test]
fn a_state_file_of_another_owner_is_refused() {
    use std::os::unix::fs::{MetadataExt, chown};
    let folder = Folder::pair(5);
    let path = folder.0.join("office");
    let own = fs::metadata(&path).unwrap().uid();
    if chown(&path, Some(own + 1), None).is_err() {
        eprintln!("not tried: this user is not able to give files away");
        return;
    }
    let before = folder.read("office");
    assert!(folder.fails(3, "office --state office day --allowance 1").contains("belongs to another user"));
    assert!(folder.read("office") == before);
    assert_eq!(fs::metadata(&path).unwrap().uid(), own + 1);
}
