//! Kills and failures between any two steps of charging. Whatever happens, the same command afterwards charges the lines once, or says that
//! they were charged, and then the receipt is to be had, byte for byte that of an undisturbed run; and no other receipt takes its place
//! before it was handed out.

mod common;

use std::process::Stdio;
use std::time::Duration;

use common::Folder;
use common::tills::{CHARGE, RECEIPT, SHOW, folder};
use pevghazo_reference::random::Random;

/// What a run charges: one line of three is refused.
const LINES: &[u8] = b"7,C,12101,12103,20250304\n7,D,1,5,20250304\n11,A,1,1,20250305\n";

/// The status of an undisturbed run.
const STATUS: i32 = 29;

/// A command that charges, with its output.
const TO_FILE: &str = "till --state till charge --prices prices --in lines --out receipt";

/// The steps of a run, by its log.
fn steps(log: &str) -> Vec<String> {
    let named = log.lines().filter_map(|line| line.strip_prefix("step ")?.split_once(": "));
    named.map(|(_, name)| name.to_string()).filter(|name| name != "end").collect()
}

/// Nothing of a commit or of an output is left behind.
fn nothing_left_behind(folder: &Folder, at: &str) {
    let left: Vec<String> = folder.names().into_iter().filter(|name| name.contains(".pevghazo-")).collect();
    assert_eq!(left, [""; 0], "{at}");
}

/// How far a run got.
#[derive(Clone, Copy, Debug, PartialEq, Eq, PartialOrd, Ord)]
enum Stage {
    /// Nothing was charged.
    Before,
    /// The lines were charged, and their receipt waits.
    Waiting,
    /// It was handed out, and that is noted.
    Noted,
}

/// How far the till of a folder got, which had one receipt at first.
fn stage(folder: &Folder, at: &str) -> Stage {
    let shown = folder.done(SHOW);
    let stages = [
        ("receipts       1\nlast receipt   handed out\n", Stage::Before),
        ("receipts       2\nlast receipt   WAITING\n", Stage::Waiting),
        ("receipts       2\nlast receipt   handed out\n", Stage::Noted),
    ];
    let stage = stages.into_iter().find(|(start, _)| shown.starts_with(start));
    stage.unwrap_or_else(|| panic!("{at}: {shown}")).1
}

/// What a failure says is so: that nothing was charged, that lines were charged and how to get the receipt, or that it is there.
fn said_right(said: &str, stage: Stage, at: &str) {
    let charged = said
        .ends_with(" The lines were charged all the same: `pevghazo till receipt --state till` gives the receipt.\n");
    let handed_out = said.contains("pevghazo: Everything was handed out");
    let right = match stage {
        Stage::Before => !charged && !handed_out,
        Stage::Waiting => charged != handed_out,
        Stage::Noted => handed_out && !said.contains("could not be noted"),
    };
    assert!(right, "{at}: {stage:?}: {said}");
}

/// While the last receipt waits nothing is charged, be it the same lines or others; then it is handed out.
fn is_handed_out_first(folder: &Folder, line: &str, at: &str) {
    let before = folder.read("till");
    folder.write("others", b"7,H,1,2,20250304\n");
    for line in [line.to_string(), format!("{line} --again"), line.replace("--in lines", "--in others")] {
        let said = folder.fails(5, &line);
        assert!(said.starts_with("pevghazo: Receipt 2, ") && said.contains(" was not handed out: "), "{at}: {said}");
    }
    assert!(folder.read("till") == before, "{at}");
    let out = if line.contains("--out") { " --out receipt" } else { "" };
    folder.done(&format!("{RECEIPT}{out}"));
}

/// Disturbs one step of a run, looks at what is there, and mends it. Gives how far the run got.
fn disturbed(first: &Folder, line: &str, fault: &str, n: usize, undisturbed: &Folder) -> Stage {
    let at = format!("{line}: {fault} at step {n}");
    let folder = first.copy();
    let run = folder.run_with(&format!("{fault}@{n}"), line);
    let receipt = folder.read("receipt");
    let stage = stage(&folder, &at);
    assert!(receipt.is_none() || (stage > Stage::Before && receipt == undisturbed.read("receipt")), "{at}");
    assert!(receipt.is_some() || stage < Stage::Noted || !line.contains("--out"), "{at}");
    if fault == "abort" {
        assert!(run.signal.is_some(), "{at}");
    } else {
        assert!([3, 4].contains(&run.status), "{at}: {}", run.said);
        assert!(run.said.contains(&format!("step {n} was made to fail")), "{at}: {}", run.said);
        said_right(&run.said, stage, &at);
    }
    // The same command again, which does not ask for a second charge.
    let line = &line.replace(" --again", "");
    if stage == Stage::Before {
        assert_eq!(folder.run(line).status, STATUS, "{at}");
    } else if stage == Stage::Waiting {
        is_handed_out_first(&folder, line, &at);
    }
    is_as_undisturbed(&folder, line, undisturbed, &at);
    stage
}

/// The lines are charged once, and the receipt is to be had, as after an undisturbed run.
fn is_as_undisturbed(folder: &Folder, line: &str, undisturbed: &Folder, at: &str) {
    assert!(folder.read("till") == undisturbed.read("till"), "{at}");
    assert!(folder.fails(5, line).contains(" already, as receipt 2: "), "{at}");
    for format in ["text", "csv", "html"] {
        let again = format!("{RECEIPT} --format {format}");
        assert_eq!(folder.done(&again), undisturbed.done(&again), "{at}");
    }
    assert!(folder.read("receipt") == undisturbed.read("receipt"), "{at}");
    nothing_left_behind(folder, at);
}

/// Disturbs every step of a run that charges.
fn every_step(first: &Folder, line: &str) {
    let undisturbed = first.copy();
    let run = undisturbed.run_with("log", line);
    assert_eq!(run.status, STATUS, "{}", run.said);
    let steps = steps(&run.said);
    assert_eq!(steps.iter().filter(|step| *step == "rename").count(), 2, "{steps:?}");
    for fault in ["abort", "fail"] {
        let stages: Vec<Stage> = (1..=steps.len()).map(|n| disturbed(first, line, fault, n, &undisturbed)).collect();
        assert!(stages.is_sorted(), "{fault}: {stages:?}");
        for stage in [Stage::Before, Stage::Waiting, Stage::Noted] {
            assert!(stages.contains(&stage), "{fault}: {stages:?}");
        }
    }
}

/// A till with a receipt, and lines for the next one.
fn till() -> Folder {
    let folder = folder();
    folder.done(CHARGE);
    folder.write("lines", LINES);
    folder
}

#[test]
fn every_step_of_charging() {
    let folder = till();
    every_step(&folder, CHARGE);
    every_step(&folder, TO_FILE);
    every_step(&folder, &format!("{TO_FILE} --again"));
}

/// Kills and failures while a receipt that waits is handed out: it waits still, or that it was handed out is noted.
#[test]
fn every_step_of_handing_out() {
    let (first, line) = (till(), format!("{RECEIPT} --out receipt"));
    assert_eq!(first.run(&format!("{CHARGE} --out /dev/full")).status, 4);
    let undisturbed = first.copy();
    let steps = steps(&undisturbed.run_with("log", &line).said);
    assert_eq!(steps.iter().filter(|step| *step == "rename").count(), 1, "{steps:?}");
    for (n, fault) in (1..=steps.len()).flat_map(|n| [(n, "abort"), (n, "fail")]) {
        let at = format!("{fault} at step {n}");
        let folder = first.copy();
        let run = folder.run_with(&format!("{fault}@{n}"), &line);
        assert!(run.signal.is_some() || [3, 4].contains(&run.status), "{at}: {}", run.said);
        match stage(&folder, &at) {
            Stage::Before => panic!("{at}"),
            Stage::Waiting => is_handed_out_first(&folder, TO_FILE, &at),
            Stage::Noted => assert!(run.signal.is_some() || run.said.contains(" Everything was handed out. "), "{at}"),
        }
        is_as_undisturbed(&folder, CHARGE, &undisturbed, &at);
    }
}

#[test]
fn every_step_of_creating() {
    let first = Folder::new();
    let create = "till --state till create";
    let log = first.copy().run_with("log", create).said;
    for (n, step) in (1..).zip(steps(&log)) {
        for fault in ["abort", "fail"] {
            let folder = first.copy();
            folder.run_with(&format!("{fault}@{n}"), create);
            let run = folder.run(create);
            assert!([0, 3].contains(&run.status), "{fault} at {step}: {}", run.said);
            assert_eq!(folder.totals(), (0, 0, 0), "{fault} at {step}");
        }
    }
}

/// The state with the receipt is safe on the disk before anything of the receipt is written, and that it was handed out is noted only then.
#[test]
fn the_commit_comes_before_the_receipt() {
    let log = till().run_with("log", TO_FILE).said;
    let (committed, written) = log.split_once(": create the output\n").unwrap_or_else(|| panic!("{log}"));
    assert!(committed.contains(": rename\n") && !committed.contains("output"), "{log}");
    let (_, noted) = written.rsplit_once("output").unwrap_or_else(|| panic!("{log}"));
    assert_eq!((written.matches(": rename\n").count(), noted.matches(": rename\n").count()), (1, 1), "{log}");
}

/// Where nothing is booked, nothing is committed.
#[test]
fn no_commit_without_a_charge() {
    let folder = till();
    for (lines, options) in [(LINES, " --all-or-none"), (b"", ""), (b"nothing\n", ""), (b"7,D,1,5,20250304\n", "")] {
        folder.write("lines", lines);
        let log = folder.run_with("log", &format!("{TO_FILE}{options}")).said;
        assert!(!log.contains(": rename\n") && !log.contains("output"), "{log}");
    }
}

/// Kills the command at moments of no choice, and mends it as it says: each line is charged once, and no receipt is lost.
#[test]
fn killed_at_any_moment_every_line_is_charged_once() {
    let folder = folder();
    let mut random = Random::new(17);
    for turn in 1..=60 {
        folder.write("lines", format!("7,B,{turn},{turn},20250304\n").as_bytes());
        let mut child = folder.command(CHARGE).stdout(Stdio::null()).spawn().unwrap();
        std::thread::sleep(Duration::from_micros(random.below(5_000) as u64));
        child.kill().unwrap();
        if !child.wait().unwrap().success() {
            assert!([0, 5].contains(&folder.run(CHARGE).status), "turn {turn}");
        }
        assert!(folder.done(RECEIPT).starts_with(&format!("Receipt {turn}, ")));
        assert!(folder.fails(5, CHARGE).contains(&format!(" already, as receipt {turn}: ")), "turn {turn}");
        assert_eq!(folder.totals(), (turn, 2 * turn, 150 * turn));
    }
    assert!(folder.done(SHOW).starts_with("receipts       60\n"));
}
