//! Issue seasons: additions to a pool inside them.

mod common;

use common::seasons::{WINDOWS, file_of, folder};
use common::{Folder, Run, additions_that_fail};

const ADD: &str = "pool --state pool add --in lines --windows windows";

const BAD_LINE: &str =
    "This is not an issue line: it must be group,size,first,last,day, as 7,C,12001,12100,20250304, and a line feed.";
const POOLED: &str = "A number of this line is in the pool already, in its size.";
const POOL_FULL: &str = "The pool is full: with this line it would need more than 256 runs.";
const NO_DAY: &str = "The day does not exist: days are those of the years 1900 to 2199.";
const RETURN: &str = " It ends with carriage return and line feed: take the carriage return away.";

/// What is said of a day outside a window.
fn outside(size: char, window: &str, then: &str) -> String {
    let window = window.replace(',', " to ");
    format!("The line's day is outside the window of size {size}, {window}. {then}")
}

/// The line alone is refused with this number and reason, and every byte of the state file stays.
fn refused(folder: &Folder, line: &str, number: i32, reason: &str) {
    folder.write("lines", line.as_bytes());
    let (names, before) = (folder.names(), folder.read("pool"));
    for all in ["", " --all-or-none"] {
        let run = folder.run(&format!("{ADD}{all}"));
        let printed = format!("line 1: number {number}: {reason}\nadded 0 of 1 lines, 0 rings\n");
        assert_eq!(String::from_utf8(run.printed).unwrap(), printed, "{line}");
        let said =
            format!("pevghazo: Refused, number {number}, at line 1: {reason} Lines refused: 1. Lines added: 0.\n");
        assert!(run.said.ends_with(&said), "{line}: {}", run.said);
        assert_eq!(run.status, 10 + number, "{line}");
    }
    assert!(folder.names() == names && folder.read("pool") == before, "{line}");
}

/// The lines are added by the command, one and all.
fn added(folder: &Folder, lines: &str) {
    folder.write("lines", lines.as_bytes());
    let run = folder.run(ADD);
    assert_eq!(run.status, 0, "{lines}: {}", run.said);
    let count = lines.lines().count();
    assert!(String::from_utf8(run.printed).unwrap().starts_with(&format!("added {count} of {count} lines, ")));
}

/// The checks are made in the order 13, 16, 17, 14, 15: each line meets the conditions of several.
#[test]
fn the_order_of_the_checks() {
    let folder = folder();
    added(&folder, "7,B,1,5,20250101\n7,F,1,5,20250304\n");
    let later = outside('F', "0301,0930", "The first permitted day is 20260301.");
    for (line, number, reason) in [
        // No line, with a day that does not exist, or outside, and numbers that are pooled.
        ("7,F,1,5,20250230", 13, BAD_LINE),
        ("07,F,1,5,20251001\n", 13, BAD_LINE),
        ("7,F,1,5,2025101\n", 13, BAD_LINE),
        ("7,F,5,1,20251001\n", 13, BAD_LINE),
        // No day, and pooled.
        ("7,F,1,5,20250230\n", 16, NO_DAY),
        ("7,F,5,9,20250431\n", 16, NO_DAY),
        // Outside, and pooled.
        ("7,F,1,5,20251001\n", 17, &later),
        ("7,F,5,5,20251231\n", 17, &later),
        // Pooled alone, and outside alone.
        ("7,F,1,5,20250930\n", 14, POOLED),
        ("7,F,6,6,20251001\n", 17, &later),
    ] {
        refused(&folder, line, number, reason);
    }
    let with_return = format!("{BAD_LINE}{RETURN}");
    refused(&folder, "7,F,1,5,20251001\r\n", 13, &with_return);
    added(&folder, "7,F,6,6,20250930\n");
}

/// In a full pool 16 and 17 come before 15, and so does 14.
#[test]
fn the_order_of_the_checks_in_a_full_pool() {
    let folder = folder();
    let lines: String = (0..256).map(|place| format!("7,H,{0},{0},20250304\n", 1 + 2 * place)).collect();
    added(&folder, &lines);
    refused(&folder, "7,F,1,1,20250931\n", 16, NO_DAY);
    refused(&folder, "7,F,1,1,20250101\n", 17, &outside('F', "0301,0930", "The first permitted day is 20250301."));
    refused(&folder, "7,H,1,2,20250304\n", 14, POOLED);
    refused(&folder, "7,F,1,1,20250301\n", 15, POOL_FULL);
    added(&folder, "7,H,2,2,20250304\n7,F,1,1,20250301\n");
}

/// A window with a date that no year has refuses the lines of its own size, whatever their day, and no others.
#[test]
fn a_window_with_a_date_that_no_year_has() {
    let folder = folder();
    added(&folder, "7,F,1,5,20250304\n");
    for (window, wrong) in [
        ("0230,0930", "Size F opens on 0230, which no year has."),
        ("0301,0431", "Size F closes on 0431, which no year has."),
        ("1301,0000", "Size F opens on 1301 and closes on 0000, which no year has."),
    ] {
        let mut windows = WINDOWS;
        windows[5] = window;
        folder.write("windows", file_of(windows).as_bytes());
        refused(&folder, "7,F,1,5,2025030\n", 13, BAD_LINE);
        // Inside and outside the rest of the window, and pooled or not.
        for line in ["7,F,1,5,20250304\n", "7,F,6,6,20250304\n", "7,F,6,6,20251231\n"] {
            refused(&folder, line, 16, wrong);
        }
        refused(&folder, "7,F,6,6,20250229\n", 16, &format!("{NO_DAY} {wrong}"));
        refused(&folder, "7,H,1,1,20250229\n", 16, NO_DAY);
        refused(&folder, "7,B,1,1,20250106\n", 17, &outside('B', "0101,0105", "The first permitted day is 20260101."));
    }
    added(&folder, "7,H,1,1,20250304\n7,B,1,1,20250105\n");
}

/// Days at the edges of windows and of the years.
#[test]
fn edges_of_windows() {
    let folder = folder();
    added(
        &folder,
        "0,A,1,1,20240229\n0,B,1,1,20250105\n0,C,1,1,20251231\n0,C,2,2,20250101\n0,D,1,1,20240228\n0,D,2,2,20240301\n\
         0,E,1,1,20240229\n0,E,2,2,20230228\n0,F,1,1,20230930\n0,G,1,1,20230228\n0,G,2,2,20240229\n0,G,3,3,20231001\n\
         0,H,1,1,19000101\n0,H,2,2,21991231\n0,G,4,4,19000228\n0,G,5,5,20000229\n",
    );
    for (line, size, window, then) in [
        ("0,A,9,9,20240228\n", 'A', "0229,0229", "The first permitted day is 20240229."),
        ("0,A,9,9,20960301\n", 'A', "0229,0229", "The first permitted day is 21040229."),
        ("0,A,9,9,21960301\n", 'A', "0229,0229", "No later day up to 21991231 is permitted."),
        ("0,B,9,9,21990201\n", 'B', "0101,0105", "No later day up to 21991231 is permitted."),
        ("0,C,9,9,20250102\n", 'C', "1231,0101", "The first permitted day is 20251231."),
        ("0,D,9,9,20240229\n", 'D', "0301,0228", "The first permitted day is 20240301."),
        ("0,F,9,9,20230228\n", 'F', "0301,0930", "The first permitted day is 20230301."),
        ("0,G,9,9,20230301\n", 'G', "1001,0229", "The first permitted day is 20231001."),
        ("0,G,9,9,20240301\n", 'G', "1001,0229", "The first permitted day is 20241001."),
    ] {
        refused(&folder, line, 17, &outside(size, window, then));
    }
    for day in [
        "18991231", "22000101", "19000229", "21000229", "20230229", "20250001", "20251301", "20250100", "00000000",
        "99999999",
    ] {
        refused(&folder, &format!("0,H,9,9,{day}\n"), 16, NO_DAY);
    }
}

/// Without windows, days are not looked at.
#[test]
fn without_windows_it_is_as_before() {
    let folder = folder();
    folder.write("lines", b"7,F,1,5,20251001\n7,F,6,6,20250230\n7,F,7,7,99999999\n7,F,7,7,20250304\n");
    let run = folder.run("pool --state pool add --in lines");
    let printed = format!("line 4: number 14: {POOLED}\nadded 3 of 4 lines, 7 rings\n");
    assert_eq!((String::from_utf8(run.printed).unwrap(), run.status), (printed, 24));
}

/// Accepted lines are added and refused ones listed, and the status is that of the first.
#[test]
fn refused_lines_among_others() {
    let folder = folder();
    let lines = "7,F,1,5,20250304\n7,F,6,9,20251001\n7,F,10,10,20251002\n7,B,1,1,20250102\nnothing\n7,F,5,5,20250229\n\
                 7,F,3,6,20250305\n7,C,1,1,20250101\n";
    folder.write("lines", lines.as_bytes());
    let later = outside('F', "0301,0930", "The first permitted day is 20260301.");
    let list = format!(
        "line 2: number 17: {later}\nline 3: number 17: {later}\nline 5: number 13: {BAD_LINE}\nline 6: number 16: {NO_DAY}\n\
         line 7: number 14: {POOLED}\n"
    );
    let before = folder.read("pool");
    let run = folder.run(&format!("{ADD} --all-or-none"));
    assert_eq!(
        (String::from_utf8(run.printed).unwrap(), run.status),
        (format!("{list}added 0 of 8 lines, 0 rings\n"), 27)
    );
    assert!(folder.read("pool") == before);
    let run = folder.run(ADD);
    assert_eq!(
        (String::from_utf8(run.printed).unwrap(), run.status),
        (format!("{list}added 3 of 8 lines, 7 rings\n"), 27)
    );
    assert_eq!(
        run.said,
        format!("pevghazo: Refused, number 17, at line 2: {later} Lines refused: 5. Lines added: 3.\n")
    );
    assert_eq!(
        folder.done("pool --state pool show --runs --csv"),
        "size,first,last,rings\nB,1,1,1\nC,1,1,1\nF,1,5,5\n"
    );
    // The refused ones again, from the standard input: the first is another.
    let run = folder.run_on(&ADD.replace("lines", "-"), b"7,F,5,5,20250229\n7,F,6,9,20251001\n");
    assert_eq!(run.status, 26, "{}", run.said);
    assert!(run.said.ends_with(" Lines refused: 2. Lines added: 0.\n"), "{}", run.said);
}

/// Lines that follow each other with one number have their own reasons: another first day, another size, another fault.
#[test]
fn each_line_has_its_own_reason() {
    let folder = folder();
    let mut windows = WINDOWS;
    windows[6] = "0230,0229";
    folder.write("windows", file_of(windows).as_bytes());
    let lines =
        "7,F,1,1,20251001\n7,F,1,1,20241001\n7,B,1,1,20241001\n7,G,1,1,20251001\n7,H,1,1,20250229\n7,G,1,1,20250229\n";
    folder.write("lines", lines.as_bytes());
    let [later, earlier] = ["20260301", "20250301"].map(|day| format!("The first permitted day is {day}."));
    let wrong = "Size G opens on 0230, which no year has.";
    let reasons = [
        (17, outside('F', "0301,0930", &later)),
        (17, outside('F', "0301,0930", &earlier)),
        (17, outside('B', "0101,0105", "The first permitted day is 20250101.")),
        (16, wrong.to_string()),
        (16, NO_DAY.to_string()),
        (16, format!("{NO_DAY} {wrong}")),
    ];
    let line = |(place, (number, reason)): (u32, &(u32, String))| format!("line {place}: number {number}: {reason}\n");
    let list: String = (1..).zip(&reasons).map(line).collect();
    let run = folder.run(ADD);
    assert_eq!(
        (String::from_utf8(run.printed).unwrap(), run.status),
        (format!("{list}added 0 of 6 lines, 0 rings\n"), 27)
    );
}

/// A windows file that is not taken leaves everything as it is: an older copy, a state file in use, and the place of a missing one.
#[test]
fn a_wrong_windows_file_is_told_before_the_state_file_is_opened() {
    let folder = folder();
    let older = folder.read("pool").unwrap();
    added(&folder, "7,H,1,1,20250304\n");
    folder.write("pool", &older);
    folder.write("wrong", b"A,0101,1231\n");
    let names = folder.names();
    for line in [
        "pool --state pool add --in lines --windows wrong --restore",
        "pool --state nothing add --in lines --windows wrong",
        "pool --state pool add --in nothing --windows wrong",
    ] {
        assert!(
            folder.fails(4, line).starts_with("pevghazo: wrong ends after line 1 and has no line for B, "),
            "{line}"
        );
    }
    assert!(folder.names() == names && folder.read("pool").unwrap() == older);
    // Taken from a good one, the older copy is the newest afterwards.
    folder.fails(8, ADD);
    folder.write("lines", b"7,F,6,9,20251001\n");
    assert_eq!(folder.run(&format!("{ADD} --restore")).status, 27);
    assert!(folder.done("pool --state pool show --json").starts_with("{\"commit\":3,\"runs\":0,"));
}

/// Where the commit fails, nothing is listed, and a sentence says whether the lines are in the pool.
#[test]
fn a_commit_that_fails() {
    let first = folder();
    first.write("lines", b"7,F,1,5,20251001\n7,H,1,5,20250304\n");
    additions_that_fail(&first, ADD, "H 1", 27);
}

/// A closed output is noticed before anything is added.
#[test]
fn a_closed_output() {
    let folder = folder();
    let before = folder.read("pool");
    let run = Run::of(folder.command_after("exec >&-", ADD));
    assert_eq!((run.status, run.said.as_str()), (4, "pevghazo: Could not write to standard output: it is closed.\n"));
    assert!(folder.read("pool") == before);
}
