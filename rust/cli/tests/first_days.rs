//! The first permitted day: of a size and a day that are typed, and of the lines of an input.

mod common;

use common::seasons::{WINDOWS, file_of, folder, open_on};
use common::{Folder, Run};
use pevghazo_reference::days::length_of;

const ASK: &str = "season first-day --windows windows --in lines";

const BAD_LINE: &str =
    "This is not an issue line: it must be group,size,first,last,day, as 7,C,12001,12100,20250304, and a line feed.";
const NO_DAY: &str = "The day does not exist: days are those of the years 1900 to 2199.";

/// A size, a day, and the first permitted day from it on.
const FIRST: [(char, &str, &str); 31] = [
    ('A', "20960301", "21040229"),
    ('A', "21960301", "none"),
    ('A', "21960229", "21960229"),
    ('A', "19000101", "19040229"),
    ('A', "20240229", "20240229"),
    ('B', "21990201", "none"),
    ('B', "21990105", "21990105"),
    ('B', "20250106", "20260101"),
    ('B', "20250105", "20250105"),
    ('C', "20250101", "20250101"),
    ('C', "20250102", "20251231"),
    ('C', "20251231", "20251231"),
    ('C', "21990102", "21991231"),
    ('D', "20240228", "20240228"),
    ('D', "20240229", "20240301"),
    ('D', "20230228", "20230228"),
    ('D', "20230301", "20230301"),
    ('E', "20240229", "20240229"),
    ('E', "20230228", "20230228"),
    ('E', "21000301", "21000301"),
    ('F', "20250101", "20250301"),
    ('F', "20250930", "20250930"),
    ('F', "20251001", "20260301"),
    ('F', "21991001", "none"),
    ('G', "20230228", "20230228"),
    ('G', "20230301", "20231001"),
    ('G', "20240229", "20240229"),
    ('G', "20240301", "20241001"),
    ('G', "19000301", "19001001"),
    ('H', "19000101", "19000101"),
    ('H', "21991231", "21991231"),
];

#[test]
fn a_size_and_a_day() {
    let folder = folder();
    for (size, day, first) in FIRST {
        let line = format!("season first-day {size} {day} --windows windows");
        assert_eq!(folder.done(&line), format!("{first}\n"), "{line}");
    }
    assert_eq!(folder.done("--windows=windows season first-day F 20250101"), "20250301\n");
}

/// The lines of a file, and of the standard input: an answer for each, in their order.
#[test]
fn the_lines_of_an_input() {
    let folder = folder();
    let lines: String = FIRST
        .iter()
        .zip(0..)
        .map(|((size, day, _), place)| format!("{},{size},{},{},{day}\n", place % 32, 1 + place, 50 + place))
        .collect();
    let answers: String = FIRST.iter().map(|(_, _, first)| format!("{first}\n")).collect();
    folder.write("lines", lines.as_bytes());
    let names = folder.names();
    assert_eq!(folder.done(ASK), answers);
    let run = folder.run_on(&ASK.replace("lines", "-"), lines.as_bytes());
    assert_eq!((String::from_utf8(run.printed).unwrap(), run.status, run.said.as_str()), (answers, 0, ""));
    // Neither a pool nor another file is touched, and an empty input has no answers.
    assert_eq!(folder.names(), names);
    folder.write("lines", b"");
    assert_eq!(folder.done(ASK), "");
}

/// A refused line is listed in its place; the status is that of the first.
#[test]
fn refused_lines_among_others() {
    let folder = folder();
    folder.write("lines", b"7,F,1,5,20250101\n7,F,1,5,20250229\nnothing\n7,B,1,1,21990106\n\n7,H,1,1,20250304");
    let run = folder.run(ASK);
    let printed = format!(
        "20250301\nline 2: number 16: {NO_DAY}\nline 3: number 13: {BAD_LINE}\nnone\nline 5: number 13: {BAD_LINE}\n\
         line 6: number 13: {BAD_LINE}\n"
    );
    assert_eq!((String::from_utf8(run.printed).unwrap(), run.status), (printed, 26));
    assert_eq!(run.said, format!("pevghazo: Refused, number 16, at line 2: {NO_DAY} Lines refused: 4.\n"));
    folder.write("lines", b"7,H,1,1,20250304\r\n7,F,1,5,20250229\n");
    let run = folder.run(ASK);
    assert_eq!(run.status, 23, "{}", run.said);
    let with_return = " It ends with carriage return and line feed: take the carriage return away.";
    assert_eq!(
        run.said,
        format!("pevghazo: Refused, number 13, at line 1: {BAD_LINE}{with_return} Lines refused: 2.\n")
    );
}

/// The lines of a size whose window has a date that no year has are refused; 13 comes first, and 17 is not asked.
#[test]
fn a_window_with_a_date_that_no_year_has() {
    let folder = folder();
    let mut windows = WINDOWS;
    windows[5] = "0301,0931";
    folder.write("windows", file_of(windows).as_bytes());
    let warning = "pevghazo: windows, line 6: size F closes on 0931, which no year has: its lines get number 16.\n";
    let wrong = "Size F closes on 0931, which no year has.";
    for (day, reason) in
        [("20250304", wrong.to_string()), ("20250101", wrong.to_string()), ("20250229", format!("{NO_DAY} {wrong}"))]
    {
        let run = folder.run(&format!("season first-day F {day} --windows windows"));
        assert_eq!((run.status, &run.printed[..]), (26, &b""[..]));
        assert_eq!(run.said, format!("{warning}pevghazo: Refused, number 16: {reason}\n"));
    }
    folder.write("lines", b"7,F,1,5,20250304\n7,F,1,5,2025030\n7,H,1,5,20250304\n");
    let run = folder.run(ASK);
    let printed = format!("line 1: number 16: {wrong}\nline 2: number 13: {BAD_LINE}\n20250304\n");
    assert_eq!((String::from_utf8(run.printed).unwrap(), run.status), (printed, 26));
    assert_eq!(run.said, format!("{warning}pevghazo: Refused, number 16, at line 1: {wrong} Lines refused: 2.\n"));
}

#[test]
fn days_that_do_not_exist() {
    let folder = folder();
    for day in [
        "18991231", "22000101", "19000229", "21000229", "20250229", "20250431", "20250001", "20251301", "20250100",
        "00000000", "99999999",
    ] {
        let said = folder.fails(26, &format!("season first-day E {day} --windows windows"));
        assert_eq!(said, format!("pevghazo: Refused, number 16: {NO_DAY}\n"), "{day}");
    }
}

/// The days of a year, in their order, each with the letters of the sizes that are open.
fn days_with_letters(year: u32) -> impl Iterator<Item = (u32, String)> {
    let of_month = move |month| (1..=length_of(year, month)).map(move |day| (month, day));
    let days = (1..=12).flat_map(of_month);
    days.map(move |(month, day)| (year * 10_000 + month * 100 + day, open_on(year, month, day)))
}

/// Lines of a size on these days, up to the last on which it is open; and the next open day from each on.
fn lines_and_answers(size: char, days: &[(u32, String)]) -> (String, String) {
    let last = days.iter().rposition(|(_, open)| open.contains(size)).unwrap();
    let days = &days[..=last];
    let lines = days.iter().map(|(day, _)| format!("7,{size},1,5,{day}\n")).collect();
    let next = |place: usize| days[place..].iter().find(|(_, open)| open.contains(size)).unwrap().0;
    (lines, (0..days.len()).map(|place| format!("{}\n", next(place))).collect())
}

/// Every day of some years, for every size that is open in them, beside the days worked out by hand.
#[test]
fn every_day_of_some_years() {
    let folder = folder();
    for years in [[2023, 2024], [1999, 2000], [2099, 2100]] {
        let days: Vec<(u32, String)> = years.into_iter().flat_map(days_with_letters).collect();
        for size in 'B'..='H' {
            let (lines, answers) = lines_and_answers(size, &days);
            folder.write("lines", lines.as_bytes());
            assert_eq!(folder.done(ASK), answers, "{size} {years:?}");
        }
    }
}

#[test]
fn wrong_command_lines() {
    let folder = folder();
    let day = "A day is eight digits, of the year, the month and the day, as 20250304.";
    for (line, said) in [
        ("first-day c 20250304 --windows windows", "SIZE is \"c\". A size is one letter, A to H.".to_string()),
        ("first-day I 20250304 --windows windows", "SIZE is \"I\". A size is one letter, A to H.".to_string()),
        ("first-day 20250304 C --windows windows", "SIZE is \"20250304\". A size is one letter, A to H.".to_string()),
        ("first-day C 2025034 --windows windows", format!("DAY is \"2025034\". {day}")),
        ("first-day C 2025-03-04 --windows windows", format!("DAY is \"2025-03-04\". {day}")),
        ("first-day C 020250304 --windows windows", format!("DAY is \"020250304\". {day}")),
        ("first-day C +2025034 --windows windows", format!("DAY is \"+2025034\". {day}")),
        ("first-day C --windows windows", "The word DAY is missing: see --help.".to_string()),
        ("first-day --windows windows", "Either SIZE and DAY or --in is needed, and not both: see --help.".to_string()),
        (
            "first-day C 20250304 --windows windows --in lines",
            "Either SIZE and DAY or --in is needed, and not both: see --help.".to_string(),
        ),
        ("first-day C 20250304", "The option --windows is missing.".to_string()),
        (
            "first-day C 20250304 20250305 --windows windows",
            "The word \"20250305\" is one too many: see `pevghazo season first-day --help`. An input is named with --in.".to_string(),
        ),
        (
            "first-day C 20250304 --windows windows --state pool",
            "`pevghazo season first-day` has no option --state: see its --help.".to_string(),
        ),
    ] {
        assert_eq!(folder.fails(2, &format!("season {line}")), format!("pevghazo: {said}\n"), "{line}");
    }
    assert!(
        folder
            .done("season first-day --help")
            .contains("\n  pevghazo season first-day [SIZE DAY] --windows FILE [--in FILE]\n")
    );
}

#[test]
fn inputs_and_outputs_that_cannot_be_used() {
    let folder = folder();
    let said = folder.fails(4, "season first-day --windows windows --in nothing");
    assert!(said.starts_with("pevghazo: Could not open nothing: "), "{said}");
    let said = folder.fails(4, "season first-day --windows windows --in .");
    assert!(said.starts_with("pevghazo: Could not read .: "), "{said}");
    for line in [ASK, "season first-day F 20250101 --windows windows"] {
        let run = Run::of(folder.command_after("exec >&-", line));
        assert_eq!(
            (run.status, run.said.as_str()),
            (4, "pevghazo: Could not write to standard output: it is closed.\n")
        );
        let run = Run::of(folder.command_after("exec >/dev/full", line));
        assert!(
            run.status == 4 && run.said.starts_with("pevghazo: Could not write to standard output: "),
            "{}",
            run.said
        );
    }
    // An input without lines has nothing to print; a closed output is told all the same.
    folder.write("lines", b"");
    let run = Run::of(folder.command_after("exec >&-", ASK));
    assert_eq!((run.status, run.said.as_str()), (4, "pevghazo: Could not write to standard output: it is closed.\n"));
}

/// An input that is longer than what is printed at once: no answer is lost, and none is doubled.
#[test]
fn a_long_input() {
    let folder: Folder = folder();
    let line = |place: u32| {
        if place % 1_000 == 999 { "nothing\n".to_string() } else { format!("7,F,1,5,2{:03}0304\n", place % 200) }
    };
    let answer = |place: u32| match place % 1_000 {
        999 => format!("line {}: number 13: {BAD_LINE}\n", place + 1),
        place => format!("2{:03}0304\n", place % 200),
    };
    folder.write("lines", (0..20_000).map(line).collect::<String>().as_bytes());
    let run = folder.run(ASK);
    assert!(String::from_utf8(run.printed).unwrap() == (0..20_000).map(answer).collect::<String>());
    assert_eq!(
        (run.status, run.said),
        (23, format!("pevghazo: Refused, number 13, at line 1000: {BAD_LINE} Lines refused: 20.\n"))
    );
}
