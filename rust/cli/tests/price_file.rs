//! The price file: what it may be, and what is said of every other one, by each command that reads it.

mod common;

use common::tills::{CHARGE, PRICES, file_of, folder};
use common::{Folder, Run};

const A_LINE: &str = "A line is size,price, the price of a hundred rings in whole pence, at most 1000000, as C,250, or 0 where none are sold.";
const A_FILE: &str = "A price file has one line for each size, A to H, as C,250.";

/// All commands that read a price file.
const COMMANDS: [&str; 3] =
    [CHARGE, "till prices --prices prices", "till --state till charge --prices prices --in lines --out receipt"];

/// With this file, every command says so, prints nothing, and writes nothing.
fn wrong(folder: &Folder, bytes: &[u8], said: &str) {
    folder.write("prices", bytes);
    let (names, till) = (folder.names(), folder.read("till"));
    for line in COMMANDS {
        assert_eq!(folder.fails(4, line), format!("pevghazo: {said}\n"), "{line}: {}", String::from_utf8_lossy(bytes));
    }
    assert!(folder.names() == names && folder.read("till") == till, "{said}");
}

/// A file whose third line is this one.
fn with_third(line: &[u8]) -> Vec<u8> {
    let text = file_of(PRICES);
    let mut lines: Vec<&[u8]> = text.lines().map(str::as_bytes).collect();
    lines[2] = line;
    [&lines.join(&b'\n')[..], b"\n"].concat()
}

#[test]
fn a_line_that_is_none() {
    let folder = folder();
    for (line, what) in [
        ("", "it is empty"),
        ("C", "it has one field and not two"),
        ("C 250", "it has one field and not two"),
        ("# sizes", "it has one field and not two"),
        ("C,250,", "it has 3 fields and not two"),
        ("C,1,000", "it has 3 fields and not two"),
        ("C,0301,0930", "it has 3 fields and not two"),
        ("7,C,1,5,20250304", "it has 5 fields and not two"),
        ("I,250", "the size is \"I\", and sizes are A to H"),
        ("c,250", "the size is \"c\", and sizes are A to H"),
        ("CC,250", "the size is \"CC\", and sizes are A to H"),
        (" C,250", "the size is \" C\", and sizes are A to H"),
        (",250", "the size is \"\", and sizes are A to H"),
        ("250,C", "the size is \"250\", and sizes are A to H"),
        ("C,", "the price is \"\", and not a number in digits"),
        ("C,2.50", "the price is \"2.50\", and not a number in digits"),
        ("C,-1", "the price is \"-1\", and not a number in digits"),
        ("C,+250", "the price is \"+250\", and not a number in digits"),
        ("C, 250", "the price is \" 250\", and not a number in digits"),
        ("C,250 ", "the price is \"250 \", and not a number in digits"),
        ("C,250p", "the price is \"250p\", and not a number in digits"),
        ("C,0x10", "the price is \"0x10\", and not a number in digits"),
        ("C,1e3", "the price is \"1e3\", and not a number in digits"),
        ("C,not sold", "the price is \"not sold\", and not a number in digits"),
        ("C,two pounds and fifty pence", "the price is \"two pounds and fifty\" .., and not a number in digits"),
        ("C,0250", "the price is \"0250\", and starts with a zero"),
        ("C,00", "the price is \"00\", and starts with a zero"),
        ("C,1000001", "the price is \"1000001\", and prices are in pence and at most 1000000"),
        ("C,4294967295", "the price is \"4294967295\", and prices are in pence and at most 1000000"),
        ("C,4294967296", "the price is \"4294967296\", and prices are in pence and at most 1000000"),
        ("C,4294967546", "the price is \"4294967546\", and prices are in pence and at most 1000000"),
        (
            "C,999999999999999999999999",
            "the price is \"99999999999999999999\" .., and prices are in pence and at most 1000000",
        ),
    ] {
        wrong(&folder, &with_third(line.as_bytes()), &format!("prices, line 3: {what}. {A_LINE}"));
    }
}

#[test]
fn bytes_that_are_no_text() {
    let folder = folder();
    for (line, byte) in [
        (&b"C,250\xff"[..], "ff"),
        (b"C,\xc2\xa3250", "c2"),
        (b"\0,250", "00"),
        (b"C,\t250", "09"),
        (b"C,2\r50", "0d"),
        (b"C,250\r\r", "0d"),
    ] {
        let said = format!("prices, line 3: it has the byte 0x{byte}, which is no plain text. {A_LINE}");
        wrong(&folder, &with_third(line), &said);
    }
    let text = file_of(PRICES);
    let said = |line, byte| format!("prices, line {line}: it has the byte 0x{byte}, which is no plain text. {A_LINE}");
    wrong(&folder, format!("\u{feff}{text}").as_bytes(), &said(1, "ef"));
    wrong(&folder, format!("{}\r", text.trim_end()).as_bytes(), &said(8, "0d"));
}

#[test]
fn a_size_that_is_given_twice() {
    let folder = folder();
    let said = |line, size, before| {
        format!("prices, line {line}: size {size} has its price in line {before} already. {A_FILE}")
    };
    wrong(&folder, &with_third(b"A,149"), &said(3, 'A', 1));
    wrong(&folder, &with_third(b"H,1"), &said(8, 'H', 3));
    // The first thing that is wrong is told.
    wrong(&folder, b"D,1\nD,1\nnothing\n", &said(2, 'D', 1));
}

#[test]
fn too_few_and_too_many_lines() {
    let folder = folder();
    let text = file_of(PRICES);
    let lines: Vec<&str> = text.split_inclusive('\n').collect();
    let said = |end: &str, missing: &str| format!("prices {end} and has no line for {missing}. {A_FILE}");
    wrong(&folder, b"", &said("is empty", "A, B, C, D, E, F, G, H"));
    wrong(&folder, lines[..7].concat().as_bytes(), &said("ends after line 7", "H"));
    wrong(&folder, [lines[7], lines[2], lines[4]].concat().as_bytes(), &said("ends after line 3", "A, B, D, F, G"));
    for more in ["\n", "\r\n", "A,1\n", "I,1", " "] {
        let said = format!("prices, line 9: there are more than eight lines. {A_FILE}");
        wrong(&folder, format!("{text}{more}").as_bytes(), &said);
    }
    wrong(&folder, &[b'x'; 1_025], &format!("prices is too long: it has more than 1024 bytes. {A_FILE}"));
}

#[test]
fn a_file_that_cannot_be_read() {
    let folder = folder();
    let before = folder.read("till");
    for line in COMMANDS {
        let said = folder.fails(4, &line.replace("--prices prices", "--prices nothing"));
        assert_eq!(said, "pevghazo: Could not open nothing: No such file or directory (os error 2).\n");
        let said = folder.fails(4, &line.replace("--prices prices", "--prices ."));
        assert_eq!(said, "pevghazo: Could not read .: Is a directory (os error 21).\n");
        let said = folder.fails(2, &line.replace("--prices prices", ""));
        assert_eq!(said, "pevghazo: The option --prices is missing.\n");
    }
    assert!(folder.read("till") == before);
}

/// The lines may be in any order, end as on other systems, and the last one may have no end.
#[test]
fn files_that_are_taken() {
    let folder = folder();
    let shown = "size    pence  pounds for 100 rings\n\
                 A         149      1.49\n\
                 B         150      1.50\n\
                 C         250      2.50\n\
                 D           0  not sold\n\
                 E         151      1.51\n\
                 F          99      0.99\n\
                 G           1      0.01\n\
                 H     1000000  10000.00\n";
    let text = file_of(PRICES);
    let mut lines: Vec<&str> = text.lines().collect();
    for turn in 0..8 {
        lines.rotate_left(1);
        for file in [lines.join("\n"), lines.join("\r\n"), lines.join("\n") + "\n", lines.join("\r\n") + "\r\n"] {
            folder.write("prices", file.as_bytes());
            assert_eq!(folder.done("till prices --prices prices"), shown, "turn {turn}");
            assert_eq!(folder.run_on("till prices --prices -", file.as_bytes()).printed, shown.as_bytes());
        }
    }
    // Nothing is sold at all, and everything at the highest price.
    folder.write("prices", file_of([0; 8]).as_bytes());
    assert_eq!(folder.done("till prices --prices prices").matches("  not sold\n").count(), 8);
    folder.write("prices", file_of([1_000_000; 8]).as_bytes());
    assert_eq!(folder.done("till prices --prices prices").matches(" 10000.00\n").count(), 8);
}

/// Prices may come from the standard input, or lines, but not both.
#[test]
fn one_standard_input() {
    let folder = folder();
    let charge = "till --state till charge --prices - --in lines";
    let run = folder.run_on(charge, file_of([100; 8]).as_bytes());
    assert!(run.status == 0 && folder.totals() == (1, 100, 10_000), "{}", run.said);
    let run = folder.run_on("till --state till charge --prices prices --in -", b"7,C,1,2,20250304\n");
    assert!(run.status == 0 && folder.totals() == (2, 105, 10_500), "{}", run.said);
    let said = folder.fails(2, "till --state till charge --prices - --in -");
    assert_eq!(said, "pevghazo: Only one input may be `-`, the standard input.\n");
    let run = folder.run_on(charge, b"nothing");
    assert_eq!((run.status, run.printed), (4, vec![]));
    assert!(run.said.starts_with("pevghazo: standard input, line 1: it has one field and not two. "), "{}", run.said);
    let run = Run::of(folder.command_after("exec <&-", charge));
    assert_eq!(run.status, 4, "{}", run.said);
    assert_eq!(folder.totals(), (2, 105, 10_500));
}
