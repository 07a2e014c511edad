//! The files of a till: its state file, with copies, damage and other kinds; and the outputs of its receipts.

mod common;

use std::fs::OpenOptions;
use std::io::Write;
use std::process::Command;

use common::tills::{CHARGE, RECEIPT, SHOW, folder};
use common::{Folder, Run, until_blocked};
use pevghazo_store::{Presence, Store, Wait};

/// A till with one receipt, and a line for the next one.
fn till() -> Folder {
    let folder = folder();
    folder.charges("7,C,12101,12103,20250304\n");
    folder.write("lines", b"7,A,1,1,20250304\n");
    folder
}

/// All commands on the state file `till`.
const COMMANDS: [&str; 4] = [CHARGE, SHOW, RECEIPT, "till --state till receipt --format csv"];

/// All commands fail with this status and such a sentence, and the file stays as it is.
fn all_fail(folder: &Folder, status: i32, sentence: &str) {
    let before = folder.read("till");
    for line in COMMANDS {
        let said = folder.fails(status, line);
        assert!(said.contains(sentence), "{line}: {said}");
    }
    let created = folder.fails(3, "till --state till create");
    assert!(created.starts_with("pevghazo: There is a state file "), "{created}");
    assert!(folder.read("till") == before);
}

#[test]
fn a_till_is_created_once() {
    let folder = till();
    let before = folder.read("till");
    folder.fails(3, "till --state till create");
    assert!(folder.read("till") == before);
    for line in COMMANDS {
        folder.fails(3, &line.replace("--state till", "--state nothing"));
    }
    assert!(folder.read("nothing").is_none() && folder.read("nothing.lock").is_none());
    let said = folder.fails(2, "till --state - show");
    assert_eq!(said, "pevghazo: A state file is never `-`: name a file.\n");
}

#[test]
fn a_damaged_state_file_is_refused() {
    let folder = till();
    let whole = folder.read("till").unwrap();
    for place in 0..whole.len() {
        let mut bytes = whole.clone();
        bytes[place] ^= 1 << (place % 8);
        folder.write("till", &bytes);
        let run = folder.run(CHARGE);
        assert_eq!((run.status, run.printed), (3, vec![]), "byte {place}: {}", run.said);
        assert!(folder.read("till").unwrap() == bytes);
    }
    for length in [0, 1, whole.len() / 2, whole.len() - 1] {
        folder.write("till", &whole[..length]);
        all_fail(&folder, 3, "till");
    }
    folder.write("till", &whole);
    folder.done(CHARGE);
}

/// The content of a state file: lines, total charged and exact total; how many receipts; whether the last one was handed out, and what
/// it is worked out from.
struct Content {
    totals: [u64; 3],
    receipts: u32,
    handed_out: u8,
    before: [u64; 3],
    prices: [u32; 8],
    lines: Vec<&'static [u8]>,
}

/// The content after one line of three rings at 250, the second receipt.
fn content() -> Content {
    let lines = vec![&b"7,C,12101,12103,20250304\n"[..], b"7,D,1,1,20250304\n", b"7"];
    Content {
        totals: [3, 258, 25_750],
        receipts: 2,
        handed_out: 1,
        before: [2, 250, 25_000],
        prices: [0, 0, 250, 0, 0, 0, 0, 0],
        lines,
    }
}

impl Content {
    /// The bytes of the file.
    fn bytes(&self) -> Vec<u8> {
        let mut bytes = b"till---1".to_vec();
        self.totals.iter().for_each(|total| bytes.extend(total.to_le_bytes()));
        bytes.extend(self.receipts.to_le_bytes());
        bytes.push(self.handed_out);
        self.before.iter().for_each(|total| bytes.extend(total.to_le_bytes()));
        self.prices.iter().for_each(|price| bytes.extend(price.to_le_bytes()));
        bytes.extend((self.lines.len() as u32).to_le_bytes());
        for line in &self.lines {
            bytes.push(line.len() as u8);
            bytes.extend_from_slice(line);
        }
        bytes
    }
}

/// Commits bytes as the content of the state file.
fn commit(folder: &Folder, bytes: &[u8]) {
    Store::open(folder.0.join("till"), Presence::MustExist, Wait::Never).unwrap().commit(bytes).unwrap();
}

/// Files with the right checksum, whose content no list of lines leaves.
#[test]
fn a_content_that_no_charges_leave_is_refused() {
    let folder = till();
    commit(&folder, &content().bytes());
    assert_eq!(folder.totals(), (3, 258, 25_750));
    assert!(folder.done(RECEIPT).starts_with("Receipt 2, "));
    let wrong: [fn(&mut Content); 21] = [
        |content| content.totals[0] = 2,
        |content| content.totals[1] = 257,
        |content| content.totals[2] = 25_751,
        |content| content.totals[0] = 65_537,
        |content| content.before[0] = 3,
        |content| content.before = [65_537, 250, 25_000],
        |content| content.before[1] = 251,
        |content| (content.before, content.totals) = ([0, 0, 0], [1, 8, 750]),
        |content| content.receipts = 1,
        |content| content.receipts = 4,
        |content| content.receipts = u32::MAX,
        |content| content.handed_out = 2,
        |content| content.handed_out = 255,
        |content| content.prices[2] = 251,
        |content| content.prices[0] = 1_000_001,
        |content| content.lines = vec![b"7,C,12101,12104,20250304\n"],
        |content| content.lines.insert(0, b""),
        |content| content.lines.insert(0, b"no line feed"),
        |content| content.lines.insert(0, b"two\nlines\n"),
        |content| content.lines.insert(0, b"a piece that is longer than any has"),
        |content| (content.totals, content.lines) = (content.before, vec![&b"nothing is charged\n"[..]]),
    ];
    for (place, wrong) in wrong.into_iter().enumerate() {
        let mut changed = content();
        wrong(&mut changed);
        commit(&folder, &changed.bytes());
        let said = folder.fails(3, SHOW);
        assert!(said.ends_with(" cannot be used: its content does not follow the format.\n"), "{place}: {said}");
    }
    let bytes = content().bytes();
    commit(&folder, &[&bytes[..], b"x"].concat());
    all_fail(&folder, 3, "its content does not follow the format");
    commit(&folder, &bytes[..bytes.len() - 1]);
    all_fail(&folder, 3, "its content does not follow the format");
    // Without receipts nothing follows their number.
    for more in [&b"\0"[..], b"\x01"] {
        commit(&folder, &[b"till---1", &[0; 28][..], more].concat());
        all_fail(&folder, 3, "its content does not follow the format");
    }
    commit(&folder, b"till---2");
    all_fail(&folder, 3, "its content has version 2, which only a newer program reads");
    // A receipt that waits: nothing else is charged before it is handed out, and that is noted once.
    commit(&folder, &Content { handed_out: 0, ..content() }.bytes());
    assert!(folder.fails(5, CHARGE).starts_with("pevghazo: Receipt 2, "));
    folder.done(RECEIPT);
    let noted = folder.read("till").unwrap();
    assert!(noted.windows(bytes.len()).any(|part| part == bytes));
    folder.done(RECEIPT);
    assert!(folder.read("till").unwrap() == noted);
    folder.done(CHARGE);
}

#[test]
fn state_files_of_other_kinds_are_refused() {
    let folder = till();
    folder.done("pool --state pool create");
    for line in COMMANDS {
        let said = folder.fails(3, &line.replace("--state till", "--state pool"));
        assert!(said.ends_with(" cannot be used: it is a pool's and not a till's.\n"), "{said}");
    }
    let said = folder.fails(3, "pool --state till show");
    assert!(said.ends_with(" cannot be used: it is a till's and not a pool's.\n"), "{said}");
}

/// What is said of an older copy.
const OLDER: &str = " What was charged since is not in it, nor are its receipts, whose numbers are given again. `--restore` takes it all the same: \
                     then charge those lines again.\n";

/// An older copy is refused, with what that means for a till; `--restore` takes it, and only charging makes it the newest.
#[test]
fn an_older_copy_is_refused() {
    let folder = till();
    let older = folder.read("till").unwrap();
    let receipt = folder.done(CHARGE);
    folder.write("till", &older);
    for line in COMMANDS {
        let said = folder.fails(8, line);
        assert!(said.contains(" is an older copy: ") && said.contains(OLDER), "{said}");
    }
    for line in &COMMANDS[1..] {
        folder.done(&format!("{line} --restore"));
        folder.fails(8, line);
    }
    // Where nothing is charged it stays an older copy.
    folder.charges_with(23, b"nothing\n", "--restore");
    folder.fails(8, SHOW);
    // What is to be typed for its receipt takes the copy too.
    folder.write("lines", b"7,C,12101,12103,20250304\n");
    let said = folder.fails(5, &format!("{CHARGE} --restore"));
    assert!(said.contains("`pevghazo till receipt --state till --restore` gives that receipt again"), "{said}");
    folder.write("lines", b"7,A,1,1,20250304\n7,C,12101,12103,20250304\n");
    let run = folder.run(&format!("{CHARGE} --restore"));
    assert!(
        run.status == 5 && run.said.contains("`pevghazo till receipt --state till --restore` gives"),
        "{}",
        run.said
    );
    assert!(folder.read("till").unwrap() == older);
    folder.write("lines", b"7,A,1,1,20250304\n");
    assert_eq!(folder.done(&format!("{CHARGE} --restore")), receipt);
    assert_eq!(folder.totals(), (2, 9, 899));
}

/// An older copy whose receipt waits: the command that hands it out takes the copy too, and that makes it the newest.
#[test]
fn an_older_copy_with_a_receipt_that_waits() {
    let folder = till();
    assert_eq!(folder.run(&format!("{CHARGE} --out /dev/full")).status, 4);
    let older = folder.read("till").unwrap();
    folder.done(RECEIPT);
    folder.charges("7,A,2,2,20250304\n");
    folder.write("till", &older);
    folder.done(&format!("{SHOW} --restore"));
    let said = folder.fails(5, &format!("{CHARGE} --restore"));
    assert!(said.contains(" do that first, with `pevghazo till receipt --state till --restore`. "), "{said}");
    assert!(folder.read("till").unwrap() == older);
    assert!(folder.done(&format!("{RECEIPT} --restore")).starts_with("Receipt 2, "));
    assert!(folder.done(CHARGE).starts_with("Receipt 3, "));
    // A copy is the newest once a charge is committed, also where its receipt waits then.
    folder.write("till", &older);
    folder.done(&format!("{RECEIPT} --restore"));
    let older = folder.read("till").unwrap();
    folder.charges("7,A,4,4,20250304\n");
    folder.write("till", &older);
    let run = folder.run(&format!("{CHARGE} --restore --out /dev/full"));
    assert!(run.said.ends_with(": `pevghazo till receipt --state till` gives the receipt.\n"), "{}", run.said);
    assert!(folder.done(RECEIPT).starts_with("Receipt 3, "));
}

#[test]
fn a_state_file_in_use_is_waited_for() {
    let folder = till();
    let store = Store::open(folder.0.join("till"), Presence::MustExist, Wait::Never).unwrap();
    for line in COMMANDS {
        let said = folder.fails(3, &format!("{line} --wait 0"));
        assert!(said.contains("Another program is using the state file "), "{said}");
    }
    let waiting = folder.command(&format!("{CHARGE} --wait 60")).spawn().unwrap();
    until_blocked(&waiting);
    drop(store);
    assert!(waiting.wait_with_output().unwrap().status.success());
}

/// While the input is waited for, the state file is free: it is a pipe, of which a part has come.
#[test]
fn the_state_file_is_free_while_the_input_is_read() {
    let folder = till();
    assert!(Command::new("mkfifo").arg(folder.0.join("pipe")).status().unwrap().success());
    let line = "till --state till charge --prices prices --in pipe --format csv --wait 0";
    let child = folder.command(line).spawn().unwrap();
    // This waits until the command opens it too.
    let mut pipe = OpenOptions::new().write(true).open(folder.0.join("pipe")).unwrap();
    pipe.write_all(b"7,B,6,6,20250304\n7,B").unwrap();
    until_blocked(&child);
    folder.done(&format!("{CHARGE} --wait 0"));
    pipe.write_all(b",7,9,20250304\n").unwrap();
    drop(pipe);
    let run = Run::from(child.wait_with_output().unwrap());
    assert_eq!((run.status, run.said.as_str()), (0, ""));
    assert!(String::from_utf8(run.printed).unwrap().contains("\n3,2,7,B,7,9,3,20250304,150,5,0.05,\n"));
    assert_eq!(folder.totals(), (4, 8 + 1 + 2 + 5, 750 + 149 + 150 + 450));
}

/// A receipt is handed out, and that is noted, before another process charges: it waits while the output is slow, and is not refused.
#[test]
fn another_process_waits_for_the_receipt() {
    let folder = till();
    assert!(Command::new("mkfifo").arg(folder.0.join("pipe")).status().unwrap().success());
    let slow = folder.command(&format!("{CHARGE} --out pipe")).spawn().unwrap();
    until_blocked(&slow);
    folder.write("more", b"7,A,2,2,20250304\n");
    let said = folder.fails(3, "till --state till charge --prices prices --in more --wait 0");
    assert!(said.contains("Another program is using the state file "), "{said}");
    let next = folder.command("till --state till charge --prices prices --in more --wait 60").spawn().unwrap();
    until_blocked(&next);
    assert!(folder.read("pipe").unwrap().starts_with(b"Receipt 2, "));
    assert!(slow.wait_with_output().unwrap().status.success());
    let run = Run::from(next.wait_with_output().unwrap());
    assert!(run.status == 0 && run.printed.starts_with(b"Receipt 3, "), "{}", run.said);
    // A receipt that was handed out before is given again with the state file free.
    let slow = folder.command(&format!("{RECEIPT} --out pipe")).spawn().unwrap();
    until_blocked(&slow);
    folder.done(&format!("{SHOW} --wait 0"));
    assert!(folder.read("pipe").unwrap().starts_with(b"Receipt 3, "));
    assert!(slow.wait_with_output().unwrap().status.success());
}

/// Two processes charge at the same time: all lines are charged, each under a receipt of its own.
#[test]
fn two_processes_charge_at_once() {
    let folder = folder();
    for turn in 1..=10 {
        for name in ["A", "B"] {
            folder.write(name, format!("7,{name},{turn},{turn},20250304\n").as_bytes());
        }
        let lines = ["A", "B"].map(|name| format!("till --state till charge --prices prices --in {name} --wait 60"));
        let children = lines.map(|line| folder.command(&line).spawn().unwrap());
        let mut numbers = children.map(|child| {
            let run = Run::from(child.wait_with_output().unwrap());
            assert_eq!(run.status, 0, "{}", run.said);
            String::from_utf8(run.printed).unwrap().split([' ', ',']).nth(1).unwrap().parse::<u32>().unwrap()
        });
        numbers.sort();
        assert_eq!(numbers, [2 * turn - 1, 2 * turn]);
    }
    assert_eq!(folder.totals(), (20, 10 + 20, 10 * (149 + 150)));
}

/// An output is checked before anything is booked: it is new, and none of the state file's own.
#[test]
fn outputs_that_cannot_be() {
    let folder = till();
    let before = folder.read("till");
    folder.write("receipt", b"mine");
    for (output, status) in [
        ("receipt", 4),
        ("prices", 4),
        ("till", 2),
        ("till.lock", 2),
        (".", 4),
        ("nothing/receipt", 4),
        ("receipts/", 2),
    ] {
        folder.fails(status, &format!("{CHARGE} --out {output}"));
        folder.fails(status, &format!("{RECEIPT} --out {output}"));
        assert!(folder.read("till") == before, "{output}");
    }
    assert_eq!(folder.read("receipt").unwrap(), b"mine");
    let run = Run::of(folder.command_after("exec >&-", CHARGE));
    assert!(run.status == 4 && folder.read("till") == before, "{}", run.said);
    for line in ["--format pdf", "--format", "--again=1", "--windows f", "more"] {
        folder.fails(2, &format!("{CHARGE} {line}"));
    }
    for line in
        ["till charge", "till --state till charge --in lines", "till --state till charge --prices prices", "till"]
    {
        folder.fails(2, line);
    }
    assert!(folder.read("till") == before);
    // Of an input that cannot be read nothing is charged.
    folder.fails(4, "till --state till charge --prices prices --in nothing");
    folder.fails(4, "till --state till charge --prices prices --in .");
    assert!(folder.read("till") == before);
}

/// The last receipt, of this number, waits: nothing is charged before it is handed out, be it the same lines, others, or none.
fn waits(folder: &Folder, number: u32) {
    let before = folder.read("till");
    let expected = format!(
        "pevghazo: Receipt {number}, for lines that were charged before, was not handed out: do that first, with `pevghazo till receipt --state till`. \
         Nothing was charged now.\n"
    );
    let same = folder.read("lines").unwrap();
    for lines in [&same[..], b"7,H,5,6,20250304\n", b"nothing\n", b""] {
        folder.write("lines", lines);
        for options in ["", "--again", "--all-or-none", "--out receipt", "--out prices"] {
            assert_eq!(folder.fails(5, &format!("{CHARGE} {options}")), expected);
        }
    }
    assert!(folder.done(SHOW).starts_with(&format!("receipts       {number}\nlast receipt   WAITING\n")));
    let json = folder.done(&format!("{SHOW} --json"));
    assert!(json.contains(&format!("\"receipts\":{number},\"receipt\":\"waiting\",")), "{json}");
    assert!(folder.read("till") == before && folder.read("receipt").is_none());
}

/// A receipt that could not be written waits until it is handed out, and the lines are charged once.
#[test]
fn outputs_that_fail() {
    let folder = till();
    let again = "The lines were charged all the same: `pevghazo till receipt --state till` gives the receipt.\n";
    let run = Run::of(folder.command_after("exec >/dev/full", CHARGE));
    assert!(run.status == 4 && run.said.ends_with(again), "{}", run.said);
    waits(&folder, 2);
    assert_eq!(Run::of(folder.command_after("exec >/dev/full", RECEIPT)).status, 4);
    assert_eq!(Run::of(folder.command_after("exec >&-", RECEIPT)).status, 4);
    folder.fails(4, &format!("{RECEIPT} --out prices"));
    waits(&folder, 2);
    folder.write("lines", b"7,A,1,1,20250304\n");
    assert!(folder.done(RECEIPT).starts_with("Receipt 2, "));
    assert!(folder.fails(5, CHARGE).contains(" already, as receipt 2: "));
    folder.write("lines", b"7,A,2,2,20250304\n");
    let run = folder.run(&format!("{CHARGE} --out /dev/full"));
    assert!(run.status == 4 && run.said.ends_with(again), "{}", run.said);
    waits(&folder, 3);
    folder.done(&format!("{RECEIPT} --out receipt --format html"));
    assert_eq!(folder.totals(), (3, 10, 750 + 2 * 149));
    // Where nothing is charged, nothing is said of charging.
    folder.write("lines", b"nothing\n");
    let run = Run::of(folder.command_after("exec >/dev/full", CHARGE));
    assert!(run.status == 4 && !run.said.contains("charged"), "{}", run.said);
}

/// What was done is told at a terminal alone, and a receipt's file is closed to others.
#[test]
fn at_a_terminal() {
    let folder = till();
    let run = folder.run_at_terminal(&format!("{CHARGE} --out receipt"));
    let told = String::from_utf8(run.printed).unwrap();
    assert_eq!((told.as_str(), run.status), ("Charged 1 of 1 lines with 0.01 pounds, as receipt 2.\r\n", 0));
    let run = folder.run_at_terminal(&format!("{RECEIPT} --format csv --out table"));
    assert_eq!(String::from_utf8(run.printed).unwrap(), "Wrote receipt 2.\r\n");
    let run = folder.run_at_terminal("till --state new create");
    assert_eq!(String::from_utf8(run.printed).unwrap(), "Created: a till in which nothing is booked.\r\n");
    let mode =
        |name: &str| std::os::unix::fs::PermissionsExt::mode(&folder.0.join(name).metadata().unwrap().permissions());
    assert_eq!(mode("receipt") & 0o777, 0o600);
}
