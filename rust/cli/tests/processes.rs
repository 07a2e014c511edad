//! Several processes at once, and disks with no room.

mod common;

use std::process::{Command, Stdio};
use std::time::{Duration, Instant};

use common::{Folder, PROGRAM, Run, VARIABLE};
use pevghazo_store::{Presence, Store, Wait};

/// Two processes seal for one group at the same time: every envelope is made of another state, and all of them open, in one
/// order.
#[test]
fn two_processes_seal_at_once() {
    const EACH: usize = 10;
    let folder = Folder::pair(5);
    std::thread::scope(|scope| {
        for name in ["a", "b"] {
            let folder = &folder;
            scope.spawn(move || {
                for number in 0..EACH {
                    let name = format!("{name}{number}");
                    folder.write(&format!("text-{name}"), name.as_bytes());
                    folder.done(&format!(
                        "office --state office seal --group 5 --message text-{name} --out {name} --wait 60"
                    ));
                }
            });
        }
    });
    // The next of each process, in turn: one of the two is the next of the session.
    let mut next = [0, 0];
    for _ in 0..2 * EACH {
        let mut opens = |process: usize| {
            let name = format!("{}{}", ["a", "b"][process], next[process]);
            let opened = next[process] < EACH
                && folder.run(&format!("group --state group open --in {name} --out opened-{name}")).status == 0;
            if opened {
                assert_eq!(folder.read(&format!("opened-{name}")).unwrap(), name.as_bytes());
                next[process] += 1;
            }
            opened
        };
        assert!(opens(0) || opens(1));
    }
    assert_eq!(next, [EACH, EACH]);
}

/// Two processes start with one counter at the same time: one has it.
#[test]
fn two_processes_start_with_one_counter() {
    let folder = Folder::new();
    folder.write("key", b"the secret key of group 5");
    for counter in 0..8 {
        let replace = if counter == 0 { "" } else { " --replace" };
        let line = format!("sane start --state sane --group 5 --key key --counter {counter}{replace}");
        let children = [(); 2].map(|()| folder.command(&line).spawn().unwrap());
        let mut statuses = children.map(|child| Run::from(child.wait_with_output().unwrap()).status);
        statuses.sort();
        assert_eq!(statuses, [0, if counter == 0 { 3 } else { 7 }], "{counter}");
    }
}

/// An office and a group seal at the same time to one output: one says done, the other is refused, and nothing is lost.
#[test]
fn two_processes_seal_to_one_output() {
    let folder = Folder::pair(5);
    folder.write("key-6", b"the secret key of group 6");
    folder.done("office --state office open-group --group 6 --key key-6");
    // The one message is the same for both, and so are their envelopes of it.
    for (turn, text) in (0..60).map(|turn| (turn, if turn == 0 { "same" } else { "other" })) {
        folder.write("text", b"same");
        folder.write("other", text.as_bytes());
        let lines = [
            format!("office --state office seal --group 5 --message text --out out-{turn}"),
            format!("group --state group seal --message other --out out-{turn}"),
        ];
        let runs = lines.map(|line| folder.command(&line).spawn().unwrap());
        let runs = runs.map(|child| Run::from(child.wait_with_output().unwrap()));
        let mut statuses = [runs[0].status, runs[1].status];
        statuses.sort();
        assert_eq!(statuses, [0, 4], "turn {turn}: {} {}", runs[0].said, runs[1].said);
        let refused = runs.iter().find(|run| run.status == 4).unwrap();
        assert!(refused.said.contains("There is a file "), "{}", refused.said);
        // What was sealed and not handed out is kept.
        let again = ["office --state office resend --group 5", "group --state group resend"];
        for (place, run) in runs.iter().enumerate() {
            let sealed = run.status == 0 || run.said.contains("is kept in the state file");
            let had = folder.run(&format!("{} --out again-{place}-{turn}", again[place])).status == 0;
            assert!(had || !sealed, "turn {turn}");
            if run.status == 0 {
                assert_eq!(folder.read(&format!("again-{place}-{turn}")), folder.read(&format!("out-{turn}")));
            }
        }
    }
    assert_eq!(folder.names().iter().filter(|name| name.contains(".pevghazo-")).count(), 0);
}

/// Two processes open the same envelope at the same time: one is accepted, the other refused.
#[test]
fn two_processes_open_one_envelope() {
    let folder = Folder::pair(5);
    for turn in 0..8 {
        folder.write("text", format!("turn {turn}").as_bytes());
        folder.done_anew("office --state office seal --group 5 --message text --out envelope");
        let lines = ["a", "b"].map(|name| format!("group --state group open --in envelope --out {name}-{turn}"));
        let children = lines.map(|line| folder.command(&line).spawn().unwrap());
        let mut statuses = children.map(|child| Run::from(child.wait_with_output().unwrap()).status);
        statuses.sort();
        assert_eq!(statuses, [0, 21]);
        let opened = ["a", "b"].map(|name| folder.read(&format!("{name}-{turn}")));
        assert_eq!(opened.into_iter().flatten().collect::<Vec<_>>(), [folder.read("text").unwrap()]);
    }
}

#[test]
fn a_state_file_in_use_is_waited_for() {
    let folder = Folder::pair(5);
    let store = Store::open(folder.0.join("office"), Presence::MustExist, Wait::Never).unwrap();
    for wait in ["--wait 0", "--wait=1"] {
        let start = Instant::now();
        let said = folder.fails(3, &format!("office --state office show {wait}"));
        assert!(said.contains("Another program is using the state file "), "{said}");
        assert_eq!(start.elapsed() >= Duration::from_secs(1), wait == "--wait=1");
    }
    let waiting = folder.command("office --state office show").spawn().unwrap();
    std::thread::sleep(Duration::from_millis(100));
    drop(store);
    assert!(waiting.wait_with_output().unwrap().status.success());
}

/// A process that stands still in the middle is killed from outside, and lets the next one in.
#[test]
fn a_killed_process_lets_the_next_one_in() {
    let folder = Folder::pair(5);
    folder.write("text", b"20001");
    let line = "office --state office seal --group 5 --message text --out envelope";
    let mut holder = folder.command(line).env(VARIABLE, "pause@13").spawn().unwrap();
    let busy = || Store::open(folder.0.join("office"), Presence::MustExist, Wait::Never).is_err();
    while !busy() {
        std::thread::sleep(Duration::from_millis(5));
    }
    folder.fails(3, &format!("{line} --wait 0"));
    let waiting = folder.command(line).spawn().unwrap();
    std::thread::sleep(Duration::from_millis(50));
    holder.kill().unwrap();
    holder.wait().unwrap();
    let run = Run::from(waiting.wait_with_output().unwrap());
    assert!([0, 5].contains(&run.status), "{}", run.said);
    if run.status == 5 {
        folder.done("office --state office resend --group 5 --out envelope");
    }
    folder.done("group --state group open --in envelope --out opened");
    assert_eq!(folder.read("opened"), folder.read("text"));
}

/// No file may grow beyond a limit: as an error of the write, and as the signal that ends a process by default.
#[test]
fn with_no_room_for_the_state_nothing_happens() {
    let folder = Folder::pair(5);
    folder.write("text", &[7; 16_000]);
    let seal = "office --state office seal --group 5 --message text --out envelope";
    let before = folder.read("office");
    let run = Run::of(folder.command_after("trap '' XFSZ; ulimit -f 10", seal));
    assert_eq!(run.status, 3, "{}", run.said);
    assert!(run.said.contains("Could not write the new file "), "{}", run.said);
    assert!(!run.said.contains("is kept"), "{}", run.said);
    assert!(folder.read("office") == before && folder.read("envelope").is_none());
    let run = Run::of(folder.command_after("ulimit -c 0; ulimit -f 10", seal));
    assert!(run.signal.is_some());
    assert!(folder.read("office") == before && folder.read("envelope").is_none());
    folder.done(seal);
    let before = folder.read("group");
    let open = "group --state group open --in envelope --out opened";
    let run = Run::of(folder.command_after("trap '' XFSZ; ulimit -f 10", open));
    assert_eq!((run.status, run.printed), (3, Vec::new()), "{}", run.said);
    assert!(folder.read("group") == before && folder.read("opened").is_none());
    folder.done(open);
    assert_eq!(folder.read("opened"), folder.read("text"));
    assert_eq!(folder.names().iter().filter(|name| name.contains(".pevghazo-")).count(), 0);
}

/// A small file system, where the system lets one make it: once for the outputs, once for the state file.
#[test]
fn on_a_full_file_system_nothing_is_lost() {
    let folder = Folder::pair(5);
    folder.write("text", &[7; 16_000]);
    folder.write("small-text", b"20001");
    std::fs::create_dir(folder.0.join("small")).unwrap();
    let inside = |script: &str| {
        let mut command = Command::new("unshare");
        let mount = "set -e; mount -t tmpfs -o size=12k tmpfs small";
        command.args(["-rm", "sh", "-c", &format!("{mount}\n{script}"), PROGRAM]);
        command.current_dir(&folder.0).env_remove(VARIABLE).stdin(Stdio::null());
        Run::of(command)
    };
    if inside("true").status != 0 {
        eprintln!("not tried: this system does not let the test mount a small file system");
        return;
    }
    // The envelope does not fit where it is to go; it is kept, and handed out elsewhere.
    let script = r#"
        "$0" office --state office seal --group 5 --message text --out small/envelope || echo status $?
        ls -A small
        "$0" office --state office seal --group 5 --message text --out other || echo status $?
        "$0" office --state office resend --group 5 --out small/envelope || echo status $?
        ls -A small
        "$0" office --state office resend --group 5 --out envelope
    "#;
    let run = inside(script);
    let printed = String::from_utf8(run.printed).unwrap();
    assert_eq!(printed, "status 4\nstatus 5\nstatus 4\n", "{}", run.said);
    // Nor does the message.
    let script = r#"
        "$0" group --state group open --in envelope --out small/opened || echo status $?
        ls -A small
        "$0" group --state group reread --out opened
    "#;
    let run = inside(script);
    let printed = String::from_utf8(run.printed).unwrap();
    assert_eq!(printed, "status 4\n", "{}", run.said);
    assert_eq!(folder.read("opened"), folder.read("text"));
    // The state file is on the small file system: a long message is refused room, a short one is sealed.
    let script = r#"
        cp group small/group
        "$0" group --state small/group seal --message text --out back || echo status $?
        cmp group small/group
        ls -A small
        "$0" group --state small/group seal --message small-text --out back > told || { cat told; echo status $?; }
    "#;
    folder.write("group-text", b"");
    folder.done("office --state office seal --group 5 --message group-text --out next");
    folder.done("group --state group open --in next --out empty");
    let run = inside(script);
    let printed = String::from_utf8(run.printed).unwrap();
    assert_eq!(printed, "status 3\ngroup\ngroup.lock\n", "{}", run.said);
    folder.done("office --state office open --in back --out opened-back");
    assert_eq!(folder.read("opened-back"), folder.read("small-text"));
}
