//! New files: whole or not there, and never in the place of another.

mod common;

use std::fs;
use std::io::{BufRead, BufReader};

use common::{Folder, REFUSED, run, second, second_after, steps, temporaries};
use pevghazo_store::{fault, new_file};

/// See the shared module.
#[test]
fn child() {
    common::child();
}

/// Several processes make a file of one name: exactly one of them succeeds, and its bytes are there.
#[test]
fn of_several_new_files_of_one_name_one_is_made() {
    let folder = Folder::new();
    for turn in 0..25 {
        let path = folder.0.join(format!("new-{turn}"));
        let children = ["a", "b", "c"].map(|text| second(&format!("new {text}"), &path).spawn().unwrap());
        let made: Vec<bool> = children
            .into_iter()
            .map(|child| match child.wait_with_output().unwrap().status.code() {
                Some(0) => true,
                Some(REFUSED) => false,
                other => panic!("{other:?}"),
            })
            .collect();
        let winner = made.iter().position(|made| *made).unwrap();
        assert_eq!(made.iter().filter(|made| **made).count(), 1);
        assert_eq!(fs::read(&path).unwrap(), ["a", "b", "c"][winner].as_bytes());
    }
    assert_eq!(folder.names().len(), 25, "nothing is left behind");
}

/// Killed at any step, a new file is whole or not there; without hard links it is made all the same.
#[test]
fn a_new_file_is_whole_or_not_there() {
    let folder = Folder::new();
    let names = steps("new text", &folder.0.join("log"));
    let made = names.iter().position(|name| name == "link the output").unwrap() + 1;
    for n in 1..=names.len() {
        for fault in ["abort", "fail", "deny"] {
            let path = folder.0.join(format!("{fault}-{n}"));
            let mut command = second_after("ulimit -c 0", "new text", &path);
            command.env(fault::VARIABLE, format!("{fault}@{n}"));
            let success = run(command).status.success();
            assert_eq!(success, fault == "deny" && n == made, "{fault} at step {n}");
            assert_eq!(fs::read(&path).ok().as_deref(), (n > made || success).then_some(&b"text"[..]), "{fault}@{n}");
            new_file::remove_leftovers(&path);
            assert!(temporaries(&folder.0).is_empty(), "{fault} at step {n}");
        }
    }
    // One that a process still holds is no leftover.
    let path = folder.0.join("held");
    let mut command = second("new text", &path);
    let mut child = command.env(fault::VARIABLE, format!("pause@{made}")).spawn().unwrap();
    let mut said = BufReader::new(child.stderr.take().unwrap()).lines().map_while(Result::ok);
    assert!(said.any(|line| line.starts_with("paused")));
    new_file::remove_leftovers(&path);
    assert_eq!(temporaries(&folder.0).len(), 1);
    child.kill().unwrap();
    child.wait().unwrap();
    new_file::remove_leftovers(&path);
    assert!(temporaries(&folder.0).is_empty());
}

/// A name of the greatest length leaves room for its temporary one.
#[test]
fn a_new_file_may_have_a_long_name() {
    let folder = Folder::new();
    for length in [1, 200, 201, 255] {
        let path = folder.0.join("n".repeat(length));
        new_file::create(&path, b"text").unwrap();
        assert_eq!(fs::read(&path).unwrap(), b"text");
    }
    let path = folder.0.join("s".repeat(250));
    for text in [&b"one"[..], b"two"] {
        common::put(&path, text);
        assert_eq!(common::get(&path).as_deref(), Some(text));
    }
}
