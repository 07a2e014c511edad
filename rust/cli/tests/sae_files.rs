//! The files of a box of old letters: messages and metadata, folders that do not take them, odd names, and the report.

mod common;

use std::ffi::OsStr;
use std::fs;
use std::io::Read;
use std::os::unix::ffi::OsStrExt;
use std::os::unix::fs::{MetadataExt, symlink};

use common::letters::{OPEN, OldBox, START};
use common::{Folder, Run};

/// No output takes the place of a file. One that has just the bytes of the message is taken for it, as after a kill.
#[test]
fn files_that_are_there_already() {
    let old = OldBox::of_four();
    for name in ["0002-2.message", "0003-3.metadata"] {
        old.folder.write(&format!("out/{name}"), b"something else");
    }
    for (stop, name) in [("2", "0002-2.message"), ("3", "0003-3.metadata")] {
        let (report, said) = old.stops(4, "1 2 3 4");
        assert!(report.contains(&format!("  STOPPED            -  {stop}\n")), "{report}");
        let sentence = format!("/out/{name} already: remove it or choose another output. Letters opened: ");
        assert!(
            said.starts_with(&format!("pevghazo: Stopped at letter {stop} of 4, {stop}. There is a file ")),
            "{said}"
        );
        assert!(said.contains(&sentence), "{said}");
        assert_eq!(old.folder.read(&format!("out/{name}")), Some(b"something else".to_vec()));
        fs::remove_file(old.folder.0.join("out").join(name)).unwrap();
    }
    old.opens("1 2 3 4");
    old.holds("1 2 3 4");
    // Read again from the start, into the same folder: all files have the right bytes, and are left as they are.
    let numbers =
        || old.folder.names_in("out").iter().map(|name| inode(&old.folder, &format!("out/{name}"))).collect::<Vec<_>>();
    let before = numbers();
    old.folder.done(&format!("{START} old --replace"));
    assert!(old.opens("1 2 3 4").ends_with("\nopened 4, opened before 0, not opened 0, not tried 0 of 4 letters\n"));
    assert_eq!(numbers(), before);
    old.holds("1 2 3 4");
}

/// The number of a file on its disk.
fn inode(folder: &Folder, name: &str) -> u64 {
    fs::metadata(folder.0.join(name)).unwrap().ino()
}

/// A folder that does not take the messages leaves all as it was, and another one may be named then.
#[test]
fn folders_that_take_no_files() {
    let old = OldBox::of_four();
    old.folder.write("file", b"");
    let state = old.folder.read("old");
    for (folder, sentence) in [
        ("none", "pevghazo: Could not find the folder none: "),
        ("file", "pevghazo: Could not write to file: "),
        ("/proc", "pevghazo: Stopped at letter 1 of 2, 1. Could not write /proc/0001-1.metadata: "),
    ] {
        let run = old.folder.run(&format!("sae open 1 2 --state old --out-dir {folder}"));
        assert!(run.status == 4 && run.said.starts_with(sentence), "{}", run.said);
        assert!(old.folder.read("old") == state && old.folder.read("none").is_none());
    }
    // No file may grow beyond a limit: the metadata of the first letter fit, and the message of the second does not.
    let large = OldBox::new(&[(20, 20), (20, 16_000)]);
    let run = Run::of(large.folder.command_after("trap '' XFSZ; ulimit -f 10", &format!("{OPEN} 1 2")));
    assert_eq!(run.status, 4, "{}", run.said);
    assert!(run.said.contains("Stopped at letter 2 of 2, 2. Could not write "), "{}", run.said);
    assert!(run.said.ends_with("Letters opened: 1. Opened before: 0. Not tried: 0.\n"), "{}", run.said);
    assert!(large.folder.read("out/0002-2.message").is_none());
    large.opens("1 2");
    large.holds("1 2");
    // Messages may go to several folders, in turn.
    fs::create_dir(old.folder.0.join("more")).unwrap();
    old.opens("1 2");
    old.folder.done("sae open 1 2 3 4 --state old --out-dir more/");
    assert_eq!(old.folder.names_in("more"), ["0003-3.message", "0003-3.metadata", "0004-4.message"]);
}

/// Files of one name in two folders do not get into each other's way, nor does the folder of the letters itself, or a link to it.
#[test]
fn names_that_repeat() {
    let old = OldBox::of_four();
    for (folder, place) in [("a", 0), ("b", 1), ("c", 2)] {
        fs::create_dir(old.folder.0.join(folder)).unwrap();
        old.folder.write(&format!("{folder}/letter.env"), &old.letters[place].bytes);
    }
    old.opens("a/letter.env ./b/letter.env c//letter.env");
    old.holds("letter.env letter.env letter.env");
    symlink("a", old.folder.0.join("link")).unwrap();
    old.folder.write("a/4", &old.letters[3].bytes);
    old.folder.done("sae open a/4 --state old --out-dir link");
    assert_eq!(old.folder.names_in("a"), ["0004-4.message", "4", "letter.env"]);
}

/// Names of any bytes and of the greatest length. In the report control characters are escaped.
#[test]
fn odd_names() {
    let old = OldBox::of_four();
    let names = [&b"line\nfeed"[..], b"b\xffd", &[b'x'; 255], b"a, \"b\" c"];
    let mut command = old.folder.command(OPEN);
    for (name, letter) in names.iter().zip(&old.letters) {
        fs::write(old.folder.0.join(OsStr::from_bytes(name)), &letter.bytes).unwrap();
        command.arg(OsStr::from_bytes(name));
    }
    command.args(["--format", "csv"]);
    let run = Run::of(command);
    let long = "x".repeat(255);
    let expected = format!(
        "letter,file,from,group,metadata,message,result,number,place,output\n\
         1,line\\nfeed,0,5,6,11,opened,,1,0001-line\\nfeed.message\n\
         2,b\u{fffd}d,0,5,0,100,opened,,2,0002-b\u{fffd}d.message\n\
         3,{long},0,5,48,0,opened,,3,0003-{}.message\n\
         4,\"a, \"\"b\"\" c\",0,5,0,0,opened,,4,\"0004-a, \"\"b\"\" c.message\"\n",
        &long[..200]
    );
    assert_eq!((run.status, String::from_utf8(run.printed).unwrap()), (0, expected), "{}", run.said);
    for (place, name) in names.iter().enumerate() {
        let output = [format!("000{}-", place + 1).as_bytes(), &name[..name.len().min(200)], b".message"].concat();
        let message = fs::read(old.folder.0.join("out").join(OsStr::from_bytes(&output))).unwrap();
        assert_eq!(message, old.letters[place].message);
    }
}

/// Messages are closed to others.
#[test]
fn messages_are_for_their_owner() {
    let old = OldBox::of_four();
    let run = Run::of(old.folder.command_after("umask 0", &format!("{OPEN} 1 2 3 4")));
    assert_eq!(run.status, 0, "{}", run.said);
    for name in old.folder.names_in("out") {
        let mode = fs::metadata(old.folder.0.join("out").join(&name)).unwrap().mode();
        assert_eq!(mode & 0o777, 0o600, "{name}");
    }
}

#[test]
fn the_report_as_a_table() {
    let old = OldBox::of_four();
    let table = |files: &str| {
        let run = old.folder.run(&format!("{OPEN} --format csv {files}"));
        (run.status, String::from_utf8(run.printed).unwrap())
    };
    let head = "letter,file,from,group,metadata,message,result,number,place,output\n";
    let first = "1,1,0,5,6,11,opened,,1,0001-1.message\n";
    let refused = "2,3,0,5,48,0,refused,11,,\n3,2,0,5,0,100,not-tried,,,\n";
    assert_eq!(table("1 3 2"), (21, format!("{head}{first}{refused}")));
    old.folder.write("S", b"S,5,0,0,01234567890123456789012345678901");
    let before = first.replace("opened,,1,0001-1.message", "opened-before,,1,");
    assert_eq!(table("1 S"), (6, format!("{head}{before}2,S,0,5,0,0,stopped,,,\n")));
    assert_eq!(old.opens("--format text 1"), old.opens("1"));
    let said = old.folder.fails(2, &format!("{OPEN} --format html 1"));
    assert_eq!(said, "pevghazo: The option --format needs one of these words: text, csv.\n");
}

/// Where the report cannot be printed, the letters are opened all the same, and the next report has them. A refusal is told rather than that.
#[test]
fn a_report_that_cannot_be_printed() {
    let old = OldBox::of_four();
    let state = old.folder.read("old");
    let run = Run::of(old.folder.command_after("exec >&-", &format!("{OPEN} 1 2")));
    assert_eq!((run.status, run.said.as_str()), (4, "pevghazo: Could not write to standard output: it is closed.\n"));
    assert!(old.folder.read("old") == state);
    let full = |files: &str| Run::of(old.folder.command_after("exec >/dev/full", &format!("{OPEN} {files}")));
    let run = full("1 2");
    assert_eq!(run.status, 4, "{}", run.said);
    let same = " The letters were opened all the same: the same command reports them as opened before.\n";
    assert!(
        run.said.starts_with("pevghazo: Could not write to standard output: ") && run.said.ends_with(same),
        "{}",
        run.said
    );
    old.holds("1 2");
    let run = full("1 2");
    assert!(run.status == 4 && !run.said.contains("all the same"), "{}", run.said);
    let run = full("1 2 4 3");
    assert_eq!(run.status, 21, "{}", run.said);
    assert!(run.said.starts_with("pevghazo: Stopped at letter 3 of 4, 4. "), "{}", run.said);
}

/// Where the report is read slowly, nobody is kept waiting: it is longer than a pipe holds, and the state file is free.
#[test]
fn a_slow_reader_of_the_report_keeps_nobody_waiting() {
    let old = OldBox::of_four();
    let mut child = old.folder.command(&format!("{OPEN} 1 2 3 4{}", " 1".repeat(4_000))).spawn().unwrap();
    let mut output = child.stdout.take().unwrap();
    let mut first = [0; 7];
    output.read_exact(&mut first).unwrap();
    assert_eq!(&first, b"letter ");
    old.folder.done("sae show --state old --wait 0");
    let mut rest = Vec::new();
    output.read_to_end(&mut rest).unwrap();
    assert!(
        rest.len() > 1 << 17
            && rest.ends_with(b"\nopened 4, opened before 4000, not opened 0, not tried 0 of 4004 letters\n")
    );
    assert!(child.wait().unwrap().success());
}

/// At a terminal the progress is shown and taken away again, and people are told what was done.
#[test]
fn progress_at_a_terminal() {
    let old = OldBox::of_four();
    let run = old.folder.run_at_terminal(&format!("{OPEN} 1 2 3 4 > report"));
    let told = String::from_utf8(run.printed).unwrap();
    assert_eq!(run.status, 0, "{told}");
    let progress: String = (1..=4).map(|place| format!("\r\x1b[K{place} of 4 letters")).collect();
    let (shown, rest) = told.split_at(progress.len());
    let index = old.session.index;
    assert_eq!(shown, progress);
    assert_eq!(rest, format!("\r\x1b[KOpened 4 letters of group 5, and 0 had been before: index {index}.\r\n"));
    assert!(old.folder.read("report").unwrap().starts_with(b"letter group "));
    old.holds("1 2 3 4");
}
