//! The state file of a pool: copies, damage, other kinds, several processes, and what a terminal shows.

mod common;

use std::fs::OpenOptions;
use std::io::Write;
use std::process::Command;

use common::{Folder, PROGRAM, Run, additions_that_fail, until_blocked};
use pevghazo_store::{Presence, Store, Wait};

const ADD: &str = "pool --state pool add --in lines";

/// A pool with one run.
fn pool() -> Folder {
    let folder = Folder::new();
    folder.done("pool --state pool create");
    folder.write("lines", b"7,C,12001,12100,20250304\n");
    assert_eq!(folder.done(ADD), "added 1 of 1 lines, 100 rings\n");
    folder.write("lines", b"7,D,1,5,20250304\n");
    folder
}

/// All commands on the state file `pool`.
const COMMANDS: [&str; 4] =
    [ADD, "pool --state pool show", "pool --state pool show --json", "pool --state pool find C 12001"];

/// All commands fail with this status and such a sentence, and the file stays as it is.
fn all_fail(folder: &Folder, status: i32, sentence: &str) {
    let before = folder.read("pool");
    for line in COMMANDS {
        let said = folder.fails(status, line);
        assert!(said.contains(sentence), "{line}: {said}");
    }
    let created = folder.fails(3, "pool --state pool create");
    assert!(created.starts_with("pevghazo: There is a state file "), "{created}");
    assert!(folder.read("pool") == before);
}

#[test]
fn a_pool_is_created_once() {
    let folder = pool();
    let before = folder.read("pool");
    folder.fails(3, "pool --state pool create");
    folder.fails(3, "pool --state pool create --wait 0");
    assert!(folder.read("pool") == before);
    folder.fails(3, "pool --state nothing show");
    folder.fails(3, "pool --state nothing add --in lines");
    assert!(folder.read("nothing").is_none() && folder.read("nothing.lock").is_none());
}

#[test]
fn a_damaged_state_file_is_refused() {
    let folder = pool();
    let whole = folder.read("pool").unwrap();
    for place in 0..whole.len() {
        let mut bytes = whole.clone();
        bytes[place] ^= 1 << (place % 8);
        folder.write("pool", &bytes);
        let run = folder.run(ADD);
        assert_eq!((run.status, run.printed), (3, vec![]), "byte {place}: {}", run.said);
        assert!(folder.read("pool").unwrap() == bytes);
    }
    for length in [0, 1, whole.len() / 2, whole.len() - 1] {
        folder.write("pool", &whole[..length]);
        all_fail(&folder, 3, "pool");
    }
    folder.write("pool", &whole);
    folder.done(ADD);
}

/// Files with the right checksum, whose content no pool has.
#[test]
fn a_content_that_no_list_of_lines_leaves_is_refused() {
    let folder = Folder::new();
    folder.done("pool --state pool create");
    let commit = |runs: &[(u8, u32, u32)], count: u32| {
        let mut bytes = b"pool---1".to_vec();
        bytes.extend(count.to_le_bytes());
        for (size, first, last) in runs {
            bytes.push(*size);
            bytes.extend(first.to_le_bytes());
            bytes.extend(last.to_le_bytes());
        }
        Store::open(folder.0.join("pool"), Presence::MustExist, Wait::Never).unwrap().commit(&bytes).unwrap();
    };
    let many: Vec<(u8, u32, u32)> = (0..257).map(|place| (b'A', 1 + 2 * place, 1 + 2 * place)).collect();
    commit(&many[..256], 256);
    assert!(folder.done("pool --state pool show").contains("\ntotal   256        256\n"));
    folder.write("lines", b"7,D,1,5,20250304\n");
    for (runs, count) in [
        (&many[..], 257),
        (&many[..2], 1),
        (&many[..2], 3),
        (&[(b'C', 1, 5), (b'C', 6, 9)], 2),
        (&[(b'C', 1, 5), (b'C', 5, 9)], 2),
        (&[(b'C', 7, 9), (b'C', 1, 5)], 2),
        (&[(b'D', 1, 5), (b'C', 1, 5)], 2),
        (&[(b'C', 1, 5), (b'C', 1, 5)], 2),
        (&[(b'C', 6, 5)], 1),
        (&[(b'C', 0, 5)], 1),
        (&[(b'C', 1, 100_000_000)], 1),
        (&[(b'I', 1, 5)], 1),
        (&[(b'c', 1, 5)], 1),
        (&[(0, 0, 0)], 1),
        (&[], u32::MAX),
    ] {
        commit(runs, count);
        all_fail(&folder, 3, "its content does not follow the format");
    }
    commit(&[(b'C', 1, 5), (b'C', 7, 9), (b'D', 6, 6)], 3);
    folder.done("pool --state pool find C 9");
}

#[test]
fn state_files_of_other_kinds_are_refused() {
    let folder = Folder::pair(5);
    folder.write("lines", b"7,D,1,5,20250304\n");
    folder.done("sane --state sane start --group 5 --key key --counter 1");
    for (state, kind) in [("office", "the office's"), ("group", "a group's"), ("sane", "a SANE session's")] {
        let before = folder.read(state);
        for line in COMMANDS {
            let said = folder.fails(3, &line.replace("--state pool", &format!("--state {state}")));
            assert!(said.ends_with(&format!(" cannot be used: it is {kind} and not a pool's.\n")), "{said}");
        }
        folder.fails(3, &format!("pool --state {state} create"));
        assert!(folder.read(state) == before);
    }
    folder.done("pool --state pool create");
    let before = folder.read("pool");
    for (line, kind) in
        [("office show", "the office's"), ("group show", "a group's"), ("sane show", "a SANE session's")]
    {
        let said = folder.fails(3, &format!("{line} --state pool"));
        assert!(said.ends_with(&format!(" cannot be used: it is a pool's and not {kind}.\n")), "{said}");
    }
    folder.write("text", b"not a state file at all");
    folder.fails(3, "pool --state text show");
    folder.fails(3, "pool --state text create");
    assert_eq!(folder.read("text").unwrap(), b"not a state file at all");
    assert!(folder.read("pool") == before);
}

#[test]
fn a_newer_state_file_is_refused() {
    let folder = pool();
    folder.forge("pool", 7, b"2");
    all_fail(&folder, 3, "its content has version 2, which only a newer program reads");
}

/// An older copy is refused, with what that means for a pool; `--restore` takes it, and only adding makes it the newest.
#[test]
fn an_older_copy_is_refused() {
    let folder = pool();
    let older = folder.read("pool").unwrap();
    folder.done(ADD);
    folder.write("pool", &older);
    for line in COMMANDS {
        let said = folder.fails(8, line);
        assert!(
            said.contains(" is an older copy: ") && said.contains(" What was added since is not in it. "),
            "{said}"
        );
        assert!(!said.contains("sealed"), "{said}");
    }
    for line in &COMMANDS[1..] {
        folder.done(&format!("{line} --restore"));
        folder.fails(8, line);
    }
    assert!(folder.read("pool").unwrap() == older);
    assert_eq!(folder.done(&format!("{ADD} --restore")), "added 1 of 1 lines, 5 rings\n");
    folder.done("pool --state pool find D 5");
}

/// An older copy that adding took is the newest afterwards, also where no line was added.
#[test]
fn adding_nothing_makes_an_older_copy_the_newest() {
    for (lines, all, status) in [
        ("", "", 0),
        ("", " --all-or-none", 0),
        ("nothing\n", "", 23),
        ("7,C,12001,12001,20250304\n", "", 24),
        ("7,E,1,1,20250304\nnothing\n", " --all-or-none", 23),
    ] {
        let folder = pool();
        let older = folder.read("pool").unwrap();
        folder.done(ADD);
        folder.write("pool", &older);
        folder.write("lines", lines.as_bytes());
        folder.fails(8, &format!("{ADD}{all}"));
        assert_eq!(folder.run(&format!("{ADD}{all} --restore")).status, status, "{lines}");
        assert_eq!(folder.done("pool --state pool show --runs --csv"), "size,first,last,rings\nC,12001,12100,100\n");
        assert!(folder.done("pool --state pool show --json").starts_with("{\"commit\":4,"));
        // With the newest one, it alters nothing.
        let newest = folder.read("pool");
        assert_eq!(folder.run(&format!("{ADD}{all} --restore")).status, status, "{lines}");
        assert!(folder.read("pool") == newest);
    }
}

#[test]
fn a_state_file_in_use_is_waited_for() {
    let folder = pool();
    let store = Store::open(folder.0.join("pool"), Presence::MustExist, Wait::Never).unwrap();
    for line in COMMANDS {
        let said = folder.fails(3, &format!("{line} --wait 0"));
        assert!(said.contains("Another program is using the state file "), "{said}");
    }
    let waiting = folder.command(&format!("{ADD} --wait 60")).spawn().unwrap();
    until_blocked(&waiting);
    drop(store);
    assert!(waiting.wait_with_output().unwrap().status.success());
}

/// While the input is waited for, the state file is free: it is a pipe, of which a part has come.
#[test]
fn the_state_file_is_free_while_the_input_is_read() {
    let folder = pool();
    assert!(Command::new("mkfifo").arg(folder.0.join("pipe")).status().unwrap().success());
    let child = folder.command("pool --state pool add --in pipe --wait 0").spawn().unwrap();
    // This waits until the command opens it too.
    let mut pipe = OpenOptions::new().write(true).open(folder.0.join("pipe")).unwrap();
    pipe.write_all(b"7,D,6,6,20250304\n7,D").unwrap();
    until_blocked(&child);
    folder.done("pool --state pool show --wait 0");
    assert_eq!(folder.done(&format!("{ADD} --wait 0")), "added 1 of 1 lines, 5 rings\n");
    pipe.write_all(b",7,9,20250304\n").unwrap();
    drop(pipe);
    let run = Run::from(child.wait_with_output().unwrap());
    assert_eq!((run.status, &run.printed[..], run.said.as_str()), (0, &b"added 2 of 2 lines, 4 rings\n"[..], ""));
    folder.done("pool --state pool find D 1");
}

/// Where the commit fails, nothing is listed, and a sentence says whether the lines are in the pool.
#[test]
fn a_commit_that_fails() {
    let first = pool();
    first.write("lines", b"nothing\n7,D,1,5,20250304\n");
    additions_that_fail(&first, ADD, "D 1", 23);
}

/// Two processes add at the same time: all lines are in the pool, and one that both have was accepted once.
#[test]
fn two_processes_add_at_once() {
    let folder = pool();
    for turn in 0..10 {
        for (process, name) in ["a", "b"].into_iter().enumerate() {
            let own: String =
                (0..10).map(|n| format!("7,E,{0},{0},20250304\n", 1 + 1_000 * turn + 2 * n + process)).collect();
            folder.write(name, format!("{own}7,F,{0},{0},20250304\n", 1 + turn).as_bytes());
        }
        let lines = ["a", "b"].map(|name| format!("pool --state pool add --in {name} --wait 60"));
        let children = lines.map(|line| folder.command(&line).spawn().unwrap());
        let mut statuses = children.map(|child| Run::from(child.wait_with_output().unwrap()).status);
        statuses.sort();
        assert_eq!(statuses, [0, 24], "turn {turn}");
    }
    let runs = folder.done("pool --state pool show --runs --csv");
    let expected: String = (0..10).map(|turn| format!("E,{},{},20\n", 1 + 1_000 * turn, 20 + 1_000 * turn)).collect();
    assert_eq!(runs, format!("size,first,last,rings\nC,12001,12100,100\n{expected}F,1,10,10\n"));
}

/// The input is read before the state file is locked: it may come from a command on the same one.
#[test]
fn lines_may_come_from_a_command_on_the_same_pool() {
    let folder = pool();
    let script = "\"$0\" pool --state pool show --runs --csv | sed -n 's/^\\(.\\),\\([0-9]*\\),\\([0-9]*\\),.*/7,D,\\2,\\3,20250304/p' | \
                  \"$0\" pool --state pool add --in -";
    let mut command = Command::new("sh");
    command.args(["-c", script, PROGRAM]).current_dir(&folder.0);
    let run = Run::of(command);
    assert_eq!((run.status, &run.printed[..], run.said.as_str()), (0, &b"added 1 of 1 lines, 100 rings\n"[..], ""));
}

/// The lines of an envelope go from the office into the pool, as the manual has it.
#[test]
fn lines_may_come_from_an_envelope() {
    let folder = Folder::pair(7);
    folder.write("returned.txt", b"7,C,12001,12100,20250304\n7,C,12101,12150,20250304\n4,E,500,599,20250305\n");
    folder.done("group --state group seal --message returned.txt --out returned.env");
    folder.done("pool --state pool.state create");
    let manual = include_str!("../../../docs/COMMANDS.md");
    let line = manual.lines().find(|line| line.contains(" --out - | pevghazo pool add ")).unwrap();
    let script = line.trim().replace("pevghazo ", "\"$0\" ").replace("office.state", "office");
    for (printed, status) in [("added 3 of 3 lines, 250 rings\n", 0), ("added 0 of 0 lines, 0 rings\n", 0)] {
        let mut command = Command::new("sh");
        command.args(["-c", &script, PROGRAM]).current_dir(&folder.0);
        let run = Run::of(command);
        assert_eq!((String::from_utf8(run.printed).unwrap().as_str(), run.status), (printed, status), "{}", run.said);
    }
    let again = folder.done("office --state office reread --group 7 --out -");
    assert!(again.as_bytes() == folder.read("returned.txt").unwrap());
}

/// 50,000 rings, a line for each.
fn many_lines() -> String {
    (1..=50_000).map(|number| format!("7,C,{number},{number},20250304\n")).collect()
}

#[test]
fn no_progress_is_shown_in_a_pipe() {
    let folder = Folder::new();
    folder.done("pool --state pool create");
    folder.write("lines", many_lines().as_bytes());
    assert_eq!(folder.done(ADD), "added 50000 of 50000 lines, 50000 rings\n");
}

/// At a terminal the progress of a long input is shown, and taken away before anything else is.
#[test]
fn progress_is_shown_at_a_terminal() {
    let folder = Folder::new();
    folder.done("pool --state pool create");
    folder.write("lines", format!("{}nothing\n", many_lines()).as_bytes());
    let run = folder.run_at_terminal(ADD);
    let told = String::from_utf8(run.printed).unwrap();
    let shown: Vec<&str> = told.split("\r\u{1b}[K").collect();
    assert_eq!(&shown[..4], ["", "16384 lines, 31 %", "32768 lines, 64 %", "49152 lines, 98 %"], "{told:?}");
    assert!(shown[4].starts_with("line 50001: number 13: ") && shown.len() == 5, "{told:?}");
    assert!(shown[4].contains("\r\nadded 50000 of 50001 lines, 50000 rings\r\n"), "{told:?}");
    assert_eq!(run.status, 23, "{told:?}");
}

/// So it is where a long list of refused lines follows.
#[test]
fn progress_is_taken_away_before_many_refusals() {
    let folder = Folder::new();
    folder.done("pool --state pool create");
    folder.write("lines", "nothing\n".repeat(17_000).as_bytes());
    let told = String::from_utf8(folder.run_at_terminal(ADD).printed).unwrap();
    let shown: Vec<&str> = told.split("\r\u{1b}[K").collect();
    assert_eq!((shown.len(), &shown[..2]), (3, &["", "16384 lines, 96 %"][..]));
    let lines: Vec<&str> = shown[2].split("\r\n").collect();
    let is_listed = |(place, line): (usize, &&str)| line.starts_with(&format!("line {}: number 13: ", place + 1));
    assert!(lines[..17_000].iter().enumerate().all(is_listed));
    assert_eq!(lines[17_000], "added 0 of 17000 lines, 0 rings");
}
