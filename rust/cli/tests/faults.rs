//! Kills and failures between any two steps of every command that alters a state file, and the way back.
//!
//! A command with an output goes through three states: *before*, *waiting* (the call is made, and what belongs to it is kept)
//! and *after* (it was handed out). Whatever happens, the file holds one of these; an output is whole, and is there only from
//! *waiting* on; and a person who follows the manual ends with the output and the state of an undisturbed run.

mod common;

use std::process::Stdio;
use std::time::Duration;

use common::{Folder, Run};
use pevghazo_reference::random::Random;

/// A command under test, in a folder that holds the state before it.
struct Case {
    folder: Folder,
    /// The state file.
    state: &'static str,
    line: &'static str,
    /// The outputs.
    outputs: &'static [&'static str],
    /// The command that hands out what is kept, or nothing.
    again: &'static str,
    /// The status of an undisturbed run.
    status: i32,
}

impl Case {
    /// A command with an office and a group 5, and some commands before it.
    fn new(prepare: &[&str], state: &'static str, line: &'static str) -> Case {
        let folder = Folder::pair(5);
        folder.write("text", b"20001 to 20100");
        folder.write("new-key", b"another key of group 5");
        for line in prepare {
            folder.done(line);
        }
        Case { folder, state, line, outputs: &[], again: "", status: 0 }
    }

    fn outputs(self, outputs: &'static [&'static str], again: &'static str) -> Case {
        for name in outputs {
            let _ = std::fs::remove_file(self.folder.0.join(name));
        }
        Case { outputs, again, ..self }
    }

    /// The contents of the outputs in a folder.
    fn read_outputs(&self, folder: &Folder) -> Vec<Option<Vec<u8>>> {
        self.outputs.iter().map(|name| folder.read(name)).collect()
    }

    /// Runs the command in a copy of the folder with each of its steps killed, then with each failing.
    fn every_step(&self) {
        let undisturbed = self.folder.copy();
        let run = undisturbed.run_with("log", self.line);
        assert_eq!(run.status, self.status, "{}: {}", self.line, run.said);
        assert!(self.folder.read(self.state) != undisturbed.read(self.state), "{}", self.line);
        let named = run.said.lines().filter_map(|line| line.strip_prefix("step ")?.split_once(": "));
        let steps: Vec<&str> = named.map(|(_, name)| name).filter(|name| *name != "end").collect();
        assert_eq!(steps.iter().filter(|name| **name == "link the output").count(), self.outputs.len());
        for fault in ["abort", "fail"] {
            let waited = (1..=steps.len()).filter(|n| self.disturbed(fault, *n, steps[n - 1], &undisturbed)).count();
            assert_eq!(waited > 0, !self.again.is_empty(), "{}", self.line);
        }
    }

    /// Disturbs one step and goes the way back. Gives whether something waited to be handed out.
    fn disturbed(&self, fault: &str, n: usize, step: &str, undisturbed: &Folder) -> bool {
        let at = format!("{}: {fault} at step {n}, {step}", self.line);
        let folder = self.folder.copy();
        let run = folder.run_with(&format!("{fault}@{n}"), self.line);
        if fault == "abort" {
            assert!(run.signal.is_some(), "{at}");
        } else {
            assert!([3, 4].contains(&run.status), "{at}: {}", run.said);
            assert!(run.said.contains(&format!("step {n} was made to fail")), "{at}: {}", run.said);
            assert_eq!(run.printed, b"", "{at}");
            // Where the new state is in its place, the old one may wait for the next command, which overwrites it.
            if !run.said.contains("The new state is in ") {
                self.nothing_left_behind(&folder, &at);
            }
        }
        let (before, after) = (self.folder.read(self.state), undisturbed.read(self.state));
        let (held, whole) = (folder.read(self.state), self.read_outputs(undisturbed));
        // Only whole outputs, and only of a state that is safe.
        for (output, whole) in self.read_outputs(&folder).into_iter().zip(&whole) {
            assert!(output == *whole || output.is_none(), "{at}");
            let waited_before = self.line.contains(" resend ") || self.line.contains(" reread ");
            assert!(output != *whole || held != before || waited_before, "{at}: handed out before the state was safe");
        }
        // The way back.
        let waits = held != before && held != after;
        if held == before {
            assert_eq!(folder.run(self.line).status, self.status, "{at}");
        } else if waits {
            let said = folder.fails(5, self.line);
            assert!(said.contains(" before and not handed out: "), "{at}: {said}");
            assert!(folder.done(&format!("{} --state {0} show", self.state)).contains("WAITING"), "{at}");
            folder.done(self.again);
        }
        assert!(folder.read(self.state) == after, "{at}");
        assert!(self.read_outputs(&folder) == whole, "{at}");
        let end = self.line.split(' ').next().unwrap_or_default();
        folder.done(&format!("{end} --state {} show", self.state));
        assert!(folder.read(self.state) == after, "{at}");
        self.nothing_left_behind(&folder, &at);
        waits
    }

    fn nothing_left_behind(&self, folder: &Folder, at: &str) {
        let left: Vec<String> = folder.names().into_iter().filter(|name| name.contains(".pevghazo-")).collect();
        assert_eq!(left, [""; 0], "{at}");
    }
}

const OFFICE_SEALS: &str = "office --state office seal --group 5 --message text --metadata-text size --out envelope";
const GROUP_SEALS: &str = "group --state group seal --message text --metadata-text size --out envelope";
const OFFICE_OPENS: &str = "office --state office open --in envelope --out opened --metadata-out metadata";
const GROUP_OPENS: &str = "group --state group open --in envelope --out opened --metadata-out metadata";
const OFFICE_RESENDS: &str = "office --state office resend --group 5 --out envelope";
const GROUP_RESENDS: &str = "group --state group resend --out envelope";
const OFFICE_REREADS: &str = "office --state office reread --group 5 --out opened --metadata-out metadata";
const GROUP_REREADS: &str = "group --state group reread --out opened --metadata-out metadata";
/// The two ends of a session in SANE are the state files `sane` and `other`.
const SANE_STARTS: &str = "sane --state sane start --group 5 --key new-key --counter 1";
const OTHER_STARTS: &str = "sane --state other start --group 5 --key new-key --counter 1";
const SANE_SEALS: &str = "sane --state sane seal --message text --metadata-text size --out envelope";
const OTHER_SEALS: &str = "sane --state other seal --message text --metadata-text size --out envelope";
const SANE_OPENS: &str = "sane --state sane open --in envelope --out opened --metadata-out metadata";
const SANE_RESENDS: &str = "sane --state sane resend --out envelope";
const SANE_REREADS: &str = "sane --state sane reread --out opened --metadata-out metadata";
const POOL_CREATES: &str = "pool --state pool create";
const POOL_ADDS: &str = "pool --state pool add --in lines";

#[test]
fn create_day_and_open() {
    Case::new(&[], "new", "office --state new create").every_step();
    Case::new(&[], "office", "office --state office day --allowance 7").every_step();
    Case::new(&[], "office", "office --state office open-group --group 6 --key new-key").every_step();
    Case::new(&[OFFICE_SEALS], "office", "office --state office open-group --group 5 --key new-key --replace")
        .every_step();
}

#[test]
fn start() {
    Case::new(&[], "new", "group --state new start --group 6 --key key").every_step();
    Case::new(&[GROUP_SEALS], "group", "group --state group start --group 5 --key new-key --replace").every_step();
}

/// The lines of an input are in the pool together, or none is; a second run finds out which.
#[test]
fn pool_create_and_add() {
    Case::new(&[], "pool", POOL_CREATES).every_step();
    let case = Case::new(&[POOL_CREATES], "pool", POOL_ADDS);
    case.folder.write("lines", b"7,C,12001,12100,20250304\n7,D,1,5,20250304\n11,C,12101,12150,20250305\n");
    case.every_step();
    // To a pool that has some.
    let case = Case::new(&[POOL_CREATES], "pool", POOL_ADDS);
    case.folder.write("lines", b"7,C,12151,12160,20250304\n");
    case.folder.done(POOL_ADDS);
    case.folder.write("lines", b"7,C,12001,12100,20250304\n7,D,1,5,20250304\n11,C,12101,12150,20250305\n");
    case.every_step();
}

/// A start in SANE that did not come to its end has used no counter up, and one that did has.
#[test]
fn sane_start() {
    Case::new(&[], "sane", SANE_STARTS).every_step();
    let replaces = "sane --state sane start --group 5 --key new-key --counter 2 --replace";
    Case::new(&[SANE_STARTS, SANE_SEALS], "sane", replaces).every_step();
}

/// A start of an old session; `sae_faults.rs` has the opening of its letters.
#[test]
fn sae_start() {
    let start = "sae --state old start --group 5 --key new-key --counter 1";
    Case::new(&[], "old", start).every_step();
    let replaces = "sae --state old start --group 5 --key new-key --counter 2 --replace";
    Case::new(&[start], "old", replaces).every_step();
}

/// No message is sealed twice in SANE, where two of them would share keystream.
#[test]
fn sane_seal_and_open() {
    Case::new(&[SANE_STARTS], "sane", SANE_SEALS).outputs(&["envelope"], SANE_RESENDS).every_step();
    Case::new(&[SANE_STARTS, OTHER_STARTS, OTHER_SEALS], "sane", SANE_OPENS)
        .outputs(&["opened", "metadata"], SANE_REREADS)
        .every_step();
}

#[test]
fn seal() {
    Case::new(&[], "office", OFFICE_SEALS).outputs(&["envelope"], OFFICE_RESENDS).every_step();
    Case::new(&[], "group", GROUP_SEALS).outputs(&["envelope"], GROUP_RESENDS).every_step();
    // In the place of an envelope that was handed out.
    Case::new(&[OFFICE_SEALS], "office", OFFICE_SEALS).outputs(&["envelope"], OFFICE_RESENDS).every_step();
}

#[test]
fn office_opens() {
    let outputs = &["opened", "metadata"];
    Case::new(&[GROUP_SEALS], "office", OFFICE_OPENS).outputs(outputs, OFFICE_REREADS).every_step();
}

#[test]
fn group_opens() {
    let outputs = &["opened", "metadata"];
    Case::new(&[OFFICE_SEALS], "group", GROUP_OPENS).outputs(outputs, GROUP_REREADS).every_step();
}

#[test]
fn office_refuses_a_wrong_tag() {
    let case = Case::new(&[GROUP_SEALS], "office", OFFICE_OPENS);
    let mut damaged = case.folder.read("envelope").unwrap();
    *damaged.last_mut().unwrap() ^= 1;
    case.folder.write("envelope", &damaged);
    Case { status: 21, ..case }.every_step();
}

/// The folder is that of a command which was killed before it handed anything out.
#[test]
fn resend_and_reread() {
    for (prepare, killed, state, line, outputs) in [
        (&[][..], OFFICE_SEALS, "office", OFFICE_RESENDS, &["envelope"][..]),
        (&[], GROUP_SEALS, "group", GROUP_RESENDS, &["envelope"]),
        (&[GROUP_SEALS], OFFICE_OPENS, "office", OFFICE_REREADS, &["opened", "metadata"]),
        (&[OFFICE_SEALS], GROUP_OPENS, "group", GROUP_REREADS, &["opened", "metadata"]),
        (&[SANE_STARTS], SANE_SEALS, "sane", SANE_RESENDS, &["envelope"]),
        (&[SANE_STARTS, OTHER_STARTS, OTHER_SEALS], SANE_OPENS, "sane", SANE_REREADS, &["opened", "metadata"]),
    ] {
        let case = Case::new(prepare, state, line).outputs(outputs, "");
        // The step after the first commit.
        assert!(case.folder.run_with("abort@13", killed).signal.is_some());
        assert!(case.folder.fails(5, killed).contains("not handed out"));
        case.every_step();
    }
}

/// What waits is not given up by a new session either, unless it is worth nothing without the old one.
#[test]
fn a_waiting_message_outlives_its_session_and_an_envelope_does_not() {
    let replace = "office --state office open-group --group 5 --key new-key --replace";
    let start = "group --state group start --group 5 --key new-key --replace";
    let folder = Case::new(&[GROUP_SEALS], "", "").folder;
    assert!(folder.run_with("abort@13", OFFICE_OPENS).signal.is_some());
    folder.fails(5, replace);
    folder.done(OFFICE_REREADS);
    assert_eq!((folder.read("opened"), folder.read("metadata")), (folder.read("text"), Some(b"size".to_vec())));
    folder.done(replace);
    folder.fails(5, OFFICE_REREADS);
    folder.write("new-key", b"a third key of group 5");
    let seal = "office --state office seal --group 5 --message text --out new-envelope";
    assert!(folder.run_with("abort@13", seal).signal.is_some());
    folder.done(replace);
    folder.fails(5, "office --state office resend --group 5 --out new-envelope");

    let folder = Case::new(&[OFFICE_SEALS], "", "").folder;
    assert!(folder.run_with("abort@13", GROUP_OPENS).signal.is_some());
    folder.fails(5, start);
    folder.done(GROUP_REREADS);
    folder.done(start);
}

/// The standard output cannot be taken back, but what did not go out whole is still kept.
#[test]
fn standard_output_that_fails() {
    let folder = Case::new(&[], "", "").folder;
    let full = |line: &str| {
        let run = Run::of(folder.command_after("exec >/dev/full", line));
        assert_eq!(run.status, 4, "{}", run.said);
        run.said
    };
    let sentence = "The envelope is kept in the state file: hand it out with `pevghazo office resend --state office --group 5 --out FILE`.\n";
    assert!(full("office --state office seal --group 5 --message text --out -").ends_with(sentence));
    assert!(full("office --state office resend --group 5 --out -").ends_with(sentence));
    folder.fails(5, "office --state office seal --group 5 --message text --out -");
    folder.done(OFFICE_RESENDS);
    let sentence =
        "The message is kept in the state file: hand it out with `pevghazo group reread --state group --out FILE`.\n";
    assert!(full("group --state group open --in envelope --out -").ends_with(sentence));
    assert!(full("group --state group reread --out -").ends_with(sentence));
    folder.done(GROUP_REREADS);
    assert_eq!(folder.read("opened"), folder.read("text"));
    assert_eq!(Run::of(folder.command_after("exec >/dev/full", "group --state group show")).status, 4);
    assert_eq!(Run::of(folder.command_after("exec >/dev/full", "--help")).status, 4);
    // A device as the output's file.
    assert_eq!(folder.run("office --state office seal --group 5 --message text --out /dev/full").status, 4);
    folder.done_anew(OFFICE_RESENDS);
    // Only the line that says what was done is lost here.
    std::fs::remove_file(folder.0.join("opened")).unwrap();
    std::fs::remove_file(folder.0.join("metadata")).unwrap();
    assert_eq!(Run::of(folder.command_after("exec >/dev/full", GROUP_OPENS)).status, 0);
}

/// Kills commands at moments of no choice, goes the way back each time, and loses and doubles nothing.
#[test]
fn killed_at_any_moment_every_message_arrives_once() {
    let folder = Case::new(&[], "", "").folder;
    let mut random = Random::new(11);
    let mut killed = 0;
    let mut one = |line: &str, again: &str| {
        let mut child = folder.command(line).stdout(Stdio::null()).spawn().unwrap();
        std::thread::sleep(Duration::from_micros(random.below(2_500) as u64));
        child.kill().unwrap();
        if child.wait().unwrap().success() {
            return;
        }
        killed += 1;
        let run = folder.run(line);
        match run.status {
            0 => {}
            5 => drop(folder.done(again)),
            // Everything was done already.
            4 => assert!(run.said.contains("There is a file "), "{}", run.said),
            _ => panic!("{line}: {}", run.said),
        }
    };
    for number in 0..60 {
        folder.write("text", format!("number {number}").as_bytes());
        one(OFFICE_SEALS, OFFICE_RESENDS);
        one(GROUP_OPENS, GROUP_REREADS);
        assert_eq!(folder.read("opened"), folder.read("text"), "number {number}");
        for name in ["envelope", "opened", "metadata"] {
            std::fs::remove_file(folder.0.join(name)).unwrap();
        }
    }
    assert!(killed > 5, "{killed} kills");
}
