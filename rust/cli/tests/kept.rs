//! Forgetting what is kept, and showing a state file to scripts.

mod common;

use std::fs::{self, File};
use std::io::{Read, Seek, SeekFrom};
use std::os::unix::fs::PermissionsExt;

use common::Folder;

const OFFICE_SHOWS: &str = "office --state office show --json";
const GROUP_SHOWS: &str = "group --state group show --json";

/// Whether bytes hold these.
fn holds(bytes: &[u8], these: &[u8]) -> bool {
    bytes.windows(these.len()).any(|window| window == these)
}

#[test]
fn forget_removes_the_last_message() {
    let folder = Folder::pair(5);
    folder.write("text", b"20001 to 20100");
    folder.done("office --state office seal --group 5 --message text --out to");
    folder.done("group --state group open --in to --out opened");
    folder.done("group --state group seal --message text --out from");
    folder.done("office --state office open --in from --out opened-too");
    for (state, group) in [("office", " --group 5"), ("group", "")] {
        assert!(holds(&folder.read(state).unwrap(), b"20001 to 20100"));
        folder.done(&format!("{state} --state {state} forget{group}"));
        assert!(!holds(&folder.read(state).unwrap(), b"20001 to 20100"));
        let said = folder.fails(5, &format!("{state} --state {state} reread{group} --out again"));
        assert!(said.ends_with(" none was opened, or it was forgotten.\n"), "{said}");
        // A second time there is nothing to do.
        let before = folder.read(state);
        folder.done(&format!("{state} --state {state} forget{group}"));
        assert!(folder.read(state) == before);
    }
    // The envelope is kept, until that is given up too.
    folder.done("group --state group resend --out from");
    folder.done("group --state group forget --envelope");
    assert!(folder.fails(5, "group --state group resend --out from").ends_with(" or it was forgotten.\n"));
    // The sessions go on.
    folder.done_anew("office --state office seal --group 5 --message text --out to");
    folder.done_anew("group --state group open --in to --out opened");
    folder.fails(13, "office --state office forget --group 32");
}

/// Every file that held the message is overwritten: those that commits replace, and what a kill or a failure leaves.
#[test]
fn no_replaced_file_keeps_the_message() {
    let folder = Folder::pair(5);
    let message = b"20001 to 20100";
    folder.write("text", message);
    folder.done("office --state office seal --group 5 --message text --out to");
    let open = "group --state group open --in to --out /dev/full";
    let content = |mut file: &File| {
        let mut bytes = Vec::new();
        file.seek(SeekFrom::Start(0)).unwrap();
        file.read_to_end(&mut bytes).unwrap();
        bytes
    };
    // A kill before the rename leaves the new file, and the next command overwrites and removes it.
    let log = folder.copy().run_with("log", open).said;
    let step = |name: &str| 1 + log.lines().position(|line| line.ends_with(name)).unwrap();
    assert!(folder.run_with(&format!("abort@{}", step(": rename")), open).signal.is_some());
    let left = folder.names().into_iter().find(|name| name.starts_with(".group.pevghazo-")).unwrap();
    let file = File::open(folder.0.join(left)).unwrap();
    assert!(holds(&content(&file), message));
    folder.done("group --state group show");
    assert!(content(&file)[16..].iter().all(|byte| *byte == 0));
    assert!(!folder.names().iter().any(|name| name.contains("pevghazo-")));
    // The commits of an opening, of the note that it was handed out, and of forgetting.
    let mut files = vec![File::open(folder.0.join("group")).unwrap()];
    for line in [open, "group --state group reread --out opened", "group --state group forget"] {
        folder.run(line);
        files.push(File::open(folder.0.join("group")).unwrap());
    }
    let last = files.pop().unwrap();
    assert!(!holds(&content(&last), message) && !content(&last).is_empty());
    for file in &files {
        assert!(content(file).len() > 16 && content(file)[16..].iter().all(|byte| *byte == 0));
    }
    // A state file that its owner may only read is replaced too.
    fs::set_permissions(folder.0.join("group"), fs::Permissions::from_mode(0o400)).unwrap();
    folder.done("group --state group seal --message text --out from");
    assert!(content(&last)[16..].iter().all(|byte| *byte == 0));
}

/// A kill or a failure between the commit and the overwriting: the next command overwrites the old file.
#[test]
fn a_disturbed_forget_leaves_no_message() {
    let folder = Folder::pair(5);
    let message = b"20001 to 20100";
    folder.write("text", message);
    folder.done("office --state office seal --group 5 --message text --out to");
    folder.done("group --state group open --in to --out opened");
    let forget = "group --state group forget";
    let log = folder.copy().run_with("log", forget).said;
    let steps: Vec<&str> = log.lines().filter(|line| !line.ends_with(": end")).collect();
    for n in 1..=steps.len() {
        for fault in ["abort", "fail"] {
            let copy = folder.copy();
            let mut file = File::open(copy.0.join("group")).unwrap();
            let run = copy.run_with(&format!("{fault}@{n}"), forget);
            assert!(run.signal.is_some() || run.status == 3, "{}", steps[n - 1]);
            copy.done(forget);
            let mut old = Vec::new();
            file.read_to_end(&mut old).unwrap();
            assert!(!holds(&old, message), "{fault} at {}", steps[n - 1]);
            assert!(!copy.names().iter().any(|name| name.contains("pevghazo-")), "{fault} at {}", steps[n - 1]);
        }
    }
}

#[test]
fn what_was_not_handed_out_is_not_forgotten() {
    let folder = Folder::pair(5);
    folder.write("text", b"20001 to 20100");
    folder.run("office --state office seal --group 5 --message text --out /dev/full");
    let said = folder.fails(5, "office --state office forget --group 5 --envelope");
    assert!(said.contains("`pevghazo office resend --state office --group 5 --out FILE`"), "{said}");
    folder.done("office --state office forget --group 5");
    folder.done("office --state office resend --group 5 --out to");
    folder.run("group --state group open --in to --out /dev/full");
    let said = folder.fails(5, "group --state group forget");
    assert!(said.contains("`pevghazo group reread --state group --out FILE`"), "{said}");
    folder.done("group --state group reread --out opened");
    assert_eq!(folder.read("opened"), folder.read("text"));
}

#[test]
fn show_for_scripts() {
    let folder = Folder::pair(5);
    folder.write("text", b"20001");
    let session = |envelope: &str, message: &str, index: u32, toggle: u32| {
        format!(
            "\"group\":5,\"open\":true,\"index\":{index},\"toggle\":{toggle},\"envelope\":\"{envelope}\",\"message\":\"{message}\""
        )
    };
    let at_office = |session: String, count: u32| {
        format!("\"groups\":[{{{session},\"count\":{count},\"left\":{}}}]}}\n", 1_000_000 - count)
    };
    assert_eq!(
        folder.done(OFFICE_SHOWS),
        format!("{{\"commit\":3,\"keys\":1,\"allowance\":1000000,{}", at_office(session("none", "none", 0, 0), 1))
    );
    assert_eq!(folder.done(GROUP_SHOWS), format!("{{\"commit\":1,\"keys\":1,{}}}\n", session("none", "none", 0, 0)));
    folder.run("office --state office seal --group 5 --message text --out /dev/full");
    assert!(folder.done(OFFICE_SHOWS).ends_with(&at_office(session("waiting", "none", 4, 1), 8)));
    folder.done("office --state office resend --group 5 --out to");
    assert!(folder.done(OFFICE_SHOWS).ends_with(&at_office(session("handed-out", "none", 4, 1), 8)));
    folder.done("group --state group open --in to --out opened");
    assert_eq!(
        folder.done(GROUP_SHOWS),
        format!("{{\"commit\":3,\"keys\":1,{}}}\n", session("none", "handed-out", 4, 1))
    );
    folder.done("office --state empty create");
    assert_eq!(
        folder.done("office --state empty show --json"),
        "{\"commit\":1,\"keys\":0,\"allowance\":0,\"groups\":[]}\n"
    );
}
