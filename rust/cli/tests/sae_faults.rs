//! Kills and failures between any two steps of opening a box of old letters. Whatever happens, the same command afterwards ends with every
//! message in its file and the session behind the last letter, as an undisturbed run does.

mod common;

use std::os::unix::process::ExitStatusExt;
use std::process::Stdio;
use std::time::Duration;

use common::Folder;
use common::letters::{OPEN, OldBox};
use pevghazo_reference::random::Random;

/// How many letters a state file says that were opened.
fn letters(folder: &Folder) -> usize {
    let shown = folder.done("sae show --state old");
    let line = shown.lines().next().unwrap();
    line.rsplit(' ').next().unwrap().parse().unwrap()
}

/// The outputs that are there, whose temporary names are others.
fn outputs(folder: &Folder) -> Vec<String> {
    folder.names_in("out").into_iter().filter(|name| !name.starts_with('.')).collect()
}

/// Every output is as in the undisturbed run.
fn outputs_are_whole(folder: &Folder, undisturbed: &Folder, at: &str) {
    for name in outputs(folder).iter().map(|name| format!("out/{name}")) {
        assert!(folder.read(&name) == undisturbed.read(&name), "{at}: {name}");
    }
}

/// Disturbs one step of opening all letters, looks at what is there, and runs the command again.
fn disturbed(old: &OldBox, fault: &str, n: usize, step: &str, undisturbed: &Folder) {
    let (at, line) = (format!("{fault} at step {n}, {step}"), format!("{OPEN} 1 2 3 4"));
    let folder = old.folder.copy();
    let run = folder.run_with(&format!("{fault}@{n}"), &line);
    outputs_are_whole(&folder, undisturbed, &at);
    let opened = letters(&folder);
    let messages = outputs(&folder).iter().filter(|name| name.ends_with(".message")).count();
    assert!(opened == messages || opened + 1 == messages, "{at}: {opened} {messages}");
    if fault == "abort" {
        assert!(run.signal.is_some() && run.printed.is_empty(), "{at}");
    } else {
        assert!([3, 4].contains(&run.status), "{at}: {}", run.said);
        assert!(run.said.contains(&format!("step {n} was made to fail")), "{at}: {}", run.said);
        // Before the first letter nothing is reported; then all is as it was said.
        let stopped = run.said.contains("Stopped at letter ");
        assert!(stopped != run.printed.is_empty() && (stopped || opened == 0), "{at}: {}", run.said);
        assert!(!stopped || run.said.contains(&format!(" Letters opened: {opened}. ")), "{at}: {}", run.said);
    }
    folder.done(&line);
    assert_eq!(folder.names_in("out"), undisturbed.names_in("out"), "{at}");
    outputs_are_whole(&folder, undisturbed, &at);
    assert!(folder.read("old") == undisturbed.read("old"), "{at}");
    assert_eq!(folder.names(), undisturbed.names(), "{at}");
}

#[test]
fn every_step_of_opening_a_box() {
    let old = OldBox::of_four();
    let undisturbed = old.folder.copy();
    let log = undisturbed.run_with("log", &format!("{OPEN} 1 2 3 4")).said;
    let steps: Vec<&str> =
        log.lines().filter_map(|line| line.strip_prefix("step ")?.split_once(": ")).map(|step| step.1).collect();
    // Two of the four letters have metadata.
    assert_eq!(steps.iter().filter(|step| **step == "link the output").count(), 6);
    assert_eq!(steps.iter().filter(|step| **step == "rename").count(), 4);
    for fault in ["abort", "fail"] {
        for (n, step) in (1..).zip(&steps).filter(|(_, step)| **step != "end") {
            disturbed(&old, fault, n, step, &undisturbed);
        }
    }
}

/// Message and metadata are in their files, and those are safe on the disk, before the state says that the letter was opened.
#[test]
fn messages_are_written_before_the_commit() {
    let old = OldBox::of_four();
    let log = old.folder.copy().run_with("log", &format!("{OPEN} 1")).said;
    let (written, committed) = log.split_once(": create the new file\n").unwrap_or_else(|| panic!("{log}"));
    assert_eq!(written.matches(": sync the output's folder\n").count(), 2, "{log}");
    assert!(!committed.contains("output") && committed.contains(": rename\n"), "{log}");
}

/// Kills the command at moments of no choice, again and again, until it comes to its end.
#[test]
fn killed_at_any_moment_every_letter_is_opened_once() {
    let (mut random, mut killed) = (Random::new(9), 0);
    let files = (1..=20).map(|place| place.to_string()).collect::<Vec<_>>().join(" ");
    for _ in 0..12 {
        let old = OldBox::new(&(0..20).map(|place| (place % 3 * 10, place * 37)).collect::<Vec<_>>());
        let line = format!("{OPEN} {files}");
        loop {
            let mut child = old.folder.command(&line).stdout(Stdio::null()).spawn().unwrap();
            std::thread::sleep(Duration::from_micros(random.below(2_500) as u64));
            child.kill().unwrap();
            let status = child.wait().unwrap();
            if status.success() {
                break;
            }
            assert!(status.signal().is_some(), "{status}");
            killed += 1;
        }
        old.holds(&files);
        let report = old.opens(&files);
        assert!(
            report.ends_with("\nopened 0, opened before 20, not opened 0, not tried 0 of 20 letters\n"),
            "{report}"
        );
    }
    assert!(killed > 5, "{killed} kills");
}
