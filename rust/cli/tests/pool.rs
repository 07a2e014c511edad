//! A pool of unused rings: adding issue lines, showing the pool, and finding a ring in it.

mod common;

use std::process::{Command, Stdio};

use common::{Folder, PROGRAM, Run, VARIABLE, until_blocked};
use pevghazo_reference::pool::Pool as Reference;
use pevghazo_reference::random::Random;

const BAD_LINE: &str =
    "This is not an issue line: it must be group,size,first,last,day, as 7,C,12001,12100,20250304, and a line feed.";
const POOLED: &str = "A number of this line is in the pool already, in its size.";
const POOL_FULL: &str = "The pool is full: with this line it would need more than 256 runs.";
const RETURN: &str = " It ends with carriage return and line feed: take the carriage return away.";
const ALL_THE_SAME: &str = " The lines were added all the same: `pool show` shows the pool.\n";

const ADD: &str = "pool --state pool add --in lines";

/// An empty pool.
fn empty() -> Folder {
    let folder = Folder::new();
    assert_eq!(folder.done("pool --state pool create"), "");
    folder
}

/// A pool after these lines, all of which are accepted.
fn pool_of(lines: &str) -> Folder {
    let folder = empty();
    folder.write("lines", lines.as_bytes());
    folder.done(ADD);
    folder
}

/// What is listed of a refused line.
fn listed(line: usize, number: i32) -> String {
    let sentence = [BAD_LINE, POOLED, POOL_FULL][number as usize - 13];
    format!("line {line}: number {number}: {sentence}\n")
}

/// The same of one that ends with carriage return and line feed.
fn listed_with_return(line: usize) -> String {
    listed(line, 13).replace(BAD_LINE, &format!("{BAD_LINE}{RETURN}"))
}

/// The sentence of a command whose first refusal is this one.
fn said(line: usize, number: i32, refused: usize, added: usize) -> String {
    let sentence = [BAD_LINE, POOLED, POOL_FULL][number as usize - 13];
    format!(
        "pevghazo: Refused, number {number}, at line {line}: {sentence} Lines refused: {refused}. Lines added: {added}.\n"
    )
}

/// The command prints this, says that, and has the status of the number.
fn refused(run: &Run, number: i32, printed: &str, said: &str) {
    assert_eq!(String::from_utf8_lossy(&run.printed), printed);
    assert_eq!((run.said.as_str(), run.status), (said, 10 + number));
}

/// The runs as a table with commas, without its head.
fn runs(folder: &Folder) -> String {
    let shown = folder.done("pool --state pool show --runs --csv");
    shown.strip_prefix("size,first,last,rings\n").unwrap().to_string()
}

#[test]
fn an_empty_pool_is_shown() {
    let folder = empty();
    let sizes = "A         0          0\nB         0          0\nC         0          0\nD         0          0\n\
                 E         0          0\nF         0          0\nG         0          0\nH         0          0\n";
    let head = "size      first      last     rings\n";
    assert_eq!(
        folder.done("pool --state pool show"),
        format!("size   runs      rings\n{sizes}total     0          0\n\n{head}")
    );
    assert_eq!(folder.done("pool --state pool show --runs"), head);
    assert_eq!(
        folder.done("pool --state pool show --csv"),
        "size,runs,rings\nA,0,0\nB,0,0\nC,0,0\nD,0,0\nE,0,0\nF,0,0\nG,0,0\nH,0,0\n"
    );
    assert_eq!(runs(&folder), "");
    let sizes: Vec<String> =
        "ABCDEFGH".chars().map(|size| format!(r#"{{"size":"{size}","runs":0,"rings":0}}"#)).collect();
    let json = format!("{{\"commit\":1,\"runs\":0,\"rings\":0,\"sizes\":[{}],\"list\":[]}}\n", sizes.join(","));
    assert_eq!(folder.done("pool --state pool show --json"), json);
}

/// The example of the manual.
#[test]
fn the_lines_of_the_manual() {
    let folder = empty();
    folder.write("lines", b"7,C,12001,12100,20250304\n11,C,12101,12150,20250304\n4,E,500,599,20250305\n");
    assert_eq!(folder.done(ADD), "added 3 of 3 lines, 250 rings\n");
    let shown = "size   runs      rings\nA         0          0\nB         0          0\nC         1        150\nD         0          0\n\
                 E         1        100\nF         0          0\nG         0          0\nH         0          0\ntotal     2        250\n\
                 \nsize      first      last     rings\nC         12001     12150       150\nE           500       599       100\n";
    assert_eq!(folder.done("pool --state pool show"), shown);
    let manual = include_str!("../../../docs/COMMANDS.md");
    let indented: String = shown.lines().filter(|line| !line.is_empty()).map(|line| format!("    {line}\n")).collect();
    for part in indented.split_inclusive("total     2        250\n") {
        assert!(manual.contains(part), "the manual does not show\n{part}");
    }
    assert_eq!(
        folder.done("pool --state pool show --csv"),
        "size,runs,rings\nA,0,0\nB,0,0\nC,1,150\nD,0,0\nE,1,100\nF,0,0\nG,0,0\nH,0,0\n"
    );
    assert_eq!(runs(&folder), "C,12001,12150,150\nE,500,599,100\n");
    let json = folder.done("pool --state pool show --json");
    assert!(
        json.starts_with("{\"commit\":2,\"runs\":2,\"rings\":250,\"sizes\":[{\"size\":\"A\",\"runs\":0,\"rings\":0},"),
        "{json}"
    );
    assert!(
        json.ends_with(
            "{\"size\":\"H\",\"runs\":0,\"rings\":0}],\"list\":[{\"size\":\"C\",\"first\":12001,\"last\":12150,\"rings\":150},\
             {\"size\":\"E\",\"first\":500,\"last\":599,\"rings\":100}]}\n"
        ),
        "{json}"
    );
}

#[test]
fn lines_come_from_the_standard_input_too() {
    let folder = empty();
    let run = folder.run_on("pool --state pool add --in -", b"7,C,12001,12100,20250304\n7,C,12101,12101,20250304\n");
    assert_eq!((run.status, &run.printed[..], run.said.as_str()), (0, &b"added 2 of 2 lines, 101 rings\n"[..], ""));
    assert_eq!(runs(&folder), "C,12001,12101,101\n");
    let run = folder.run_on("pool --state pool add --in -", b"7,C,12001,12100,20250304\n");
    refused(&run, 14, &(listed(1, 14) + "added 0 of 1 lines, 0 rings\n"), &said(1, 14, 1, 0));
}

#[test]
fn accepted_lines_are_added_and_refused_ones_listed() {
    let folder = empty();
    folder.write(
        "lines",
        b"7,C,12001,12100,20250304\n4,C,12100,12100,20250304\n\n7,I,5,5,20250304\n9,E,5,5,20250101\n9,E,6,6,20250101\n9,E,6,6,20250101",
    );
    let list = listed(2, 14) + &listed(3, 13) + &listed(4, 13) + &listed(7, 13);
    refused(&folder.run(ADD), 14, &(list + "added 3 of 7 lines, 102 rings\n"), &said(2, 14, 4, 3));
    assert_eq!(runs(&folder), "C,12001,12100,100\nE,5,6,2\n");
    // The status is that of the first refusal.
    folder.write("lines", b"9,E,7,7,20250101\r\n9,E,5,6,20250101\n9,E,8,8,20250101\n");
    let list = listed_with_return(1) + &listed(2, 14);
    let said = said(1, 13, 2, 1).replace(BAD_LINE, &format!("{BAD_LINE}{RETURN}"));
    refused(&folder.run(ADD), 13, &(list + "added 1 of 3 lines, 1 rings\n"), &said);
    assert_eq!(runs(&folder), "C,12001,12100,100\nE,5,6,2\nE,8,8,1\n");
}

/// A carriage return before the line feed is told, also of the longest line, and nowhere else.
#[test]
fn carriage_returns_are_told() {
    let folder = empty();
    let longest = "31,H,99999999,99999999,20250304";
    folder.write("lines", format!("\r\n{longest}\r\n\r{longest}\n{longest}\r").as_bytes());
    let list = listed_with_return(1) + &listed_with_return(2) + &listed(3, 13) + &listed(4, 13);
    assert_eq!(String::from_utf8(folder.run(ADD).printed).unwrap(), list + "added 0 of 4 lines, 0 rings\n");
}

#[test]
fn a_full_pool_refuses_a_further_run() {
    let lines: String = (0..256).map(|place| format!("7,A,{0},{0},20250304\n", 1 + 2 * place)).collect();
    let folder = pool_of(&lines);
    folder
        .write("lines", b"7,B,1,1,20250304\n7,A,2,2,20250304\n7,B,1,1,20250304\n7,B,3,3,20250304\n7,B,2,2,20250304\n");
    let list = listed(1, 15) + &listed(4, 15);
    refused(&folder.run(ADD), 15, &(list + "added 3 of 5 lines, 3 rings\n"), &said(1, 15, 2, 3));
    assert!(folder.done("pool --state pool show").contains("\ntotal   256        259\n"));
    assert!(runs(&folder).ends_with("\nA,511,511,1\nB,1,2,2\n"));
}

#[test]
fn all_or_none_adds_nothing_where_a_line_is_refused() {
    let folder = pool_of("7,C,12001,12100,20250304\n");
    let before = folder.read("pool");
    let line = format!("{ADD} --all-or-none");
    folder.write("lines", b"7,D,1,5,20250304\n7,C,12100,12101,20250304\n7,D,5,6,20250304\nnothing\n");
    let list = listed(2, 14) + &listed(3, 14) + &listed(4, 13);
    refused(&folder.run(&line), 14, &(list + "added 0 of 4 lines, 0 rings\n"), &said(2, 14, 3, 0));
    assert!(folder.read("pool") == before);
    folder.write("lines", b"7,D,1,5,20250304\n7,D,6,6,20250304\n");
    assert_eq!(folder.done(&line), "added 2 of 2 lines, 6 rings\n");
    assert_eq!(runs(&folder), "C,12001,12100,100\nD,1,6,6\n");
}

#[test]
fn what_is_a_line_of_an_input() {
    let folder = empty();
    let before = folder.read("pool");
    folder.write("lines", b"");
    for all in ["", " --all-or-none"] {
        assert_eq!(folder.done(&format!("{ADD}{all}")), "added 0 of 0 lines, 0 rings\n");
    }
    let good = "7,C,12001,12100,20250304";
    for (bytes, refusals) in [
        ("\n".to_string(), &[1][..]),
        ("\n\n".to_string(), &[1, 2]),
        (good.to_string(), &[1]),
        (format!("{good} \n{good}x\n x"), &[1, 2, 3]),
        (format!("\u{feff}{good}\n"), &[1]),
        (format!("{}\n", "9".repeat(100_000)), &[1]),
        (format!("{good}{}\n{good}", "\0".repeat(100_000)), &[1, 2]),
    ] {
        folder.write("lines", bytes.as_bytes());
        let list: String = refusals.iter().map(|line| listed(*line, 13)).collect();
        let lines = refusals.len();
        refused(&folder.run(ADD), 13, &format!("{list}added 0 of {lines} lines, 0 rings\n"), &said(1, 13, lines, 0));
        // Nothing was committed: not even the number of the commit is another.
        assert!(folder.read("pool") == before);
    }
    // Nothing is a line after the last line feed.
    folder.write("lines", format!("{good}\n").as_bytes());
    assert_eq!(folder.done(ADD), "added 1 of 1 lines, 100 rings\n");
}

/// Lines of any bytes: none of them is printed.
#[test]
fn any_bytes_are_refused_and_not_shown() {
    let folder = empty();
    let mut bytes: Vec<u8> = (0..=255).filter(|byte| *byte != b'\n').collect();
    bytes.extend(b"\n\x1b]0;title\x07\x1b[2J\n\xff\xfe\n");
    folder.write("lines", &bytes);
    let list: String = (1..=3).map(|line| listed(line, 13)).collect();
    refused(&folder.run(ADD), 13, &(list + "added 0 of 3 lines, 0 rings\n"), &said(1, 13, 3, 0));
}

/// An input and lines that are far longer than the memory that the program may have. Good lines before and behind are added.
#[test]
fn very_long_inputs_take_little_memory() {
    let folder = empty();
    let script = "{ echo 7,C,1,5,20250304; head -c 300000000 /dev/zero; echo; echo 7,C,6,9,20250304; \
                  head -c 30000000 /dev/zero; } | { ulimit -v 150000; exec \"$0\" pool --state pool add --in -; }";
    let mut command = Command::new("sh");
    command.args(["-c", script, PROGRAM]).current_dir(&folder.0).env_remove(VARIABLE);
    let list = listed(2, 13) + &listed(4, 13);
    refused(&Run::of(command), 13, &(list + "added 2 of 4 lines, 9 rings\n"), &said(2, 13, 2, 2));
    assert_eq!(runs(&folder), "C,1,9,9\n");
}

#[test]
fn a_ring_is_found_in_its_run() {
    let folder = pool_of("7,C,12001,12100,20250304\n7,C,12102,12102,20250304\n31,H,99999999,99999999,20250304\n");
    let before = folder.read("pool");
    for (words, run) in [
        ("C 12001", "C 12001 to 12100"),
        ("C 12100", "C 12001 to 12100"),
        ("C 012050", "C 12001 to 12100"),
        ("C 12102", "C 12102 to 12102"),
        ("H 99999999", "H 99999999 to 99999999"),
    ] {
        assert_eq!(folder.done(&format!("pool --state pool find {words}")), format!("pooled in {run}\n"));
        assert_eq!(folder.done(&format!("pool find {words} --state=pool --wait 3")), format!("pooled in {run}\n"));
    }
    for words in ["C 12000", "C 12101", "C 1", "D 12001", "H 99999998", "A 1"] {
        let run = folder.run(&format!("pool --state pool find {words}"));
        assert_eq!((run.status, &run.printed[..]), (9, &b"not pooled\n"[..]));
        assert_eq!(run.said, format!("pevghazo: The ring {words} is not in the pool.\n"));
    }
    assert!(folder.read("pool") == before);
}

/// Where size and number are typed as one word, it is said that they are two.
#[test]
fn a_size_and_a_number_are_two_words() {
    let folder = empty();
    for word in ["C12001", "C 12001", "C-12001", "12001", "CC"] {
        let mut command = folder.command("pool --state pool find");
        command.arg(word);
        let said = format!(
            "pevghazo: SIZE is \"{word}\". A size is one letter, A to H. The number follows as a word of its own, as in \
             `pevghazo pool find C 12001`.\n"
        );
        let run = Run::of(command);
        assert_eq!((run.status, run.said), (2, said));
    }
}

#[test]
fn wrong_command_lines() {
    let folder = pool_of("7,C,12001,12100,20250304\n");
    let before = folder.read("pool");
    for (line, said) in [
        ("find I 5", "SIZE is \"I\". A size is one letter, A to H."),
        ("find c 5", "SIZE is \"c\". A size is one letter, A to H."),
        ("find CC 5", "SIZE is \"CC\". A size is one letter, A to H."),
        ("find C 0", "NUMBER is \"0\". The number of a ring is 1 to 99999999, in digits."),
        ("find C 100000000", "NUMBER is \"100000000\". The number of a ring is 1 to 99999999, in digits."),
        ("find C 4294979297", "NUMBER is \"4294979297\". The number of a ring is 1 to 99999999, in digits."),
        ("find C -1", "NUMBER is \"-1\". The number of a ring is 1 to 99999999, in digits."),
        ("find C 5x", "NUMBER is \"5x\". The number of a ring is 1 to 99999999, in digits."),
        ("find C", "The word NUMBER is missing: see --help."),
        ("find", "The word SIZE is missing: see --help."),
        ("find C 5 6", "The word \"6\" is one too many: see `pevghazo pool find --help`."),
        ("show C", "The word \"C\" is one too many: see `pevghazo pool show --help`."),
        (
            "add lines",
            "The word \"lines\" is one too many: see `pevghazo pool add --help`. An input is named with --in.",
        ),
        ("add", "The option --in is missing."),
        ("add --in lines --all-or-none=yes", "The option --all-or-none takes no value."),
        ("show --csv --json", "With --json neither --csv nor --runs may be given: it has everything."),
        ("show --runs --json", "With --json neither --csv nor --runs may be given: it has everything."),
        ("create --restore", "`pevghazo pool create` has no option --restore: see its --help."),
        ("find C 5 --csv", "`pevghazo pool find` has no option --csv: see its --help."),
    ] {
        assert_eq!(folder.fails(2, &format!("pool --state pool {line}")), format!("pevghazo: {said}\n"), "{line}");
    }
    assert!(folder.fails(2, "pool").contains("Which command?"));
    assert!(folder.fails(2, "help pool find C").contains("There is no command \"C\" here"));
    assert!(folder.done("pool find --help").contains("\n  pevghazo pool find SIZE NUMBER --state FILE "));
    assert!(folder.read("pool") == before);
}

#[test]
fn inputs_that_cannot_be_read() {
    let folder = empty();
    let before = folder.read("pool");
    assert!(folder.fails(4, "pool --state pool add --in nothing").starts_with("pevghazo: Could not open nothing: "));
    assert!(folder.fails(4, "pool --state pool add --in .").starts_with("pevghazo: Could not read .: "));
    for (shell, stream) in [("exec <&-", "read standard input"), ("exec >&-", "write to standard output")] {
        let run = Run::of(folder.command_after(shell, "pool --state pool add --in -"));
        assert_eq!((run.status, run.said), (4, format!("pevghazo: Could not {stream}: it is closed.\n")));
    }
    // A closed output is noticed before anything is added.
    folder.write("lines", b"7,C,1,1,20250304\n");
    let run = Run::of(folder.command_after("exec >&-", ADD));
    assert_eq!((run.status, run.said.as_str()), (4, "pevghazo: Could not write to standard output: it is closed.\n"));
    assert!(folder.read("pool") == before);
}

/// A line stands across the place up to which the input is read at first, of 16 MiB, and others behind it.
#[test]
fn an_input_of_more_than_16_mib() {
    let folder = empty();
    for (before, size) in [(10, 'A'), (17, 'B'), (1, 'C'), (0, 'D')] {
        let mut input = vec![b'x'; (1 << 24) - before - 1];
        input.extend(format!("\n7,{size},1,5,20250304\n7,{size},7,9,20250304\nnothing").bytes());
        folder.write("lines", &input);
        let list = listed(1, 13) + &listed(4, 13);
        refused(&folder.run(ADD), 13, &(list + "added 2 of 4 lines, 8 rings\n"), &said(1, 13, 2, 2));
    }
    assert_eq!(folder.done("pool --state pool show --csv").matches(",2,8\n").count(), 4);
}

/// Where the list of refused lines or the last line cannot be printed, what was accepted is added all the same, and that is told.
#[test]
fn a_standard_output_that_is_full() {
    // The list is longer than what is printed at once; or short; or there is none.
    for nothing in [100, 1, 0] {
        let folder = empty();
        let before = folder.read("pool");
        folder.write("lines", format!("7,C,1,1,20250304\n{}", "nothing\n".repeat(nothing)).as_bytes());
        if nothing > 0 {
            let run = Run::of(folder.command_after("exec >/dev/full", &format!("{ADD} --all-or-none")));
            assert_eq!(run.status, 4, "{}", run.said);
            assert!(run.said.starts_with("pevghazo: Could not write to standard output: "), "{}", run.said);
            assert!(!run.said.contains("added") && folder.read("pool") == before, "{}", run.said);
        }
        let run = Run::of(folder.command_after("exec >/dev/full", ADD));
        assert_eq!(run.status, 4, "{}", run.said);
        assert!(run.said.starts_with("pevghazo: Could not write to standard output: "), "{}", run.said);
        assert!(run.said.ends_with(ALL_THE_SAME), "{}", run.said);
        assert_eq!(runs(&folder), "C,1,1,1\n");
    }
}

/// Where nobody takes the output, nobody is kept waiting: the pipe is full of zeros. What was added is in the pool already.
#[test]
fn an_output_that_nobody_takes_keeps_nobody_waiting() {
    let folder = pool_of("7,C,12001,12100,20250304\n");
    let (reader, writer) = std::io::pipe().unwrap();
    let zeros = Command::new("cat").arg("/dev/zero").stdout(writer.try_clone().unwrap()).stderr(Stdio::null()).spawn();
    let mut zeros = zeros.unwrap();
    until_blocked(&zeros);
    folder.write("lines", format!("{}7,D,1,5,20250304\n", "nothing\n".repeat(100)).as_bytes());
    let mut children = Vec::new();
    for line in [ADD, "pool --state pool show", "pool --state pool find C 12001"] {
        children.push(folder.command(line).stdout(writer.try_clone().unwrap()).spawn().unwrap());
        until_blocked(children.last().unwrap());
        let shown = folder.done("pool --state pool show --runs --csv --wait 0");
        assert!(shown.ends_with("\nD,1,5,5\n"), "{line}: {shown}");
    }
    drop(reader);
    zeros.wait().unwrap();
    let ends: Vec<Run> = children.into_iter().map(|child| Run::from(child.wait_with_output().unwrap())).collect();
    assert!(ends.iter().all(|run| run.status == 4 && run.said.contains("standard output: Broken pipe")), "{ends:?}");
    assert_eq!(ends.iter().map(|run| run.said.ends_with(ALL_THE_SAME)).collect::<Vec<_>>(), [true, false, false]);
}

/// An input of random lines, of which some are damaged: one byte of them is another, which may be a line feed, or missing.
fn any_input(random: &mut Random) -> Vec<u8> {
    let mut input = Vec::new();
    for _ in 0..random.below(60) {
        let first = 1 + random.below(80);
        let (size, last) = (random.pick(&["A", "B", "H"]), first + random.below(6));
        let mut line = format!("{},{size},{first},{last},20250304\n", random.below(32)).into_bytes();
        let place = random.below(line.len());
        match random.below(12) {
            0 => line[place] = random.pick(&[b'\n', b'\r', b',', b'0', 0, 0xFF, random.clone().bits() as u8]),
            1 => drop(line.remove(place)),
            _ => {}
        }
        input.extend(line);
    }
    input
}

/// What the independent implementation makes of an input: what is to be printed, and the status.
fn expected(reference: &mut Reference, input: &[u8]) -> (String, i32) {
    let (mut list, mut status, mut added, rings) = (String::new(), 0, 0, reference.rings());
    let pieces: Vec<&[u8]> = input.split_inclusive(|byte| *byte == b'\n').collect();
    for (place, piece) in pieces.iter().enumerate() {
        match reference.add(piece).map_err(|number| i32::from(number.number())) {
            Ok(()) => added += 1,
            Err(number) => {
                status = if status == 0 { 10 + number } else { status };
                let has_return = piece.ends_with(b"\r\n");
                list += &if has_return { listed_with_return(place + 1) } else { listed(place + 1, number) };
            }
        }
    }
    let rings = reference.rings() - rings;
    (format!("{list}added {added} of {} lines, {rings} rings\n", pieces.len()), status)
}

/// The figures of each size are those of the independent implementation, in both forms for programs.
fn sizes_are_those_of(folder: &Folder, reference: &Reference) {
    let (mut csv, mut json) = (String::from("size,runs,rings\n"), Vec::new());
    for size in 'A'..='H' {
        let runs: Vec<_> = reference.runs().filter(|run| run.0 == size).collect();
        let rings: u32 = runs.iter().map(|(_, first, last)| last - first + 1).sum();
        csv += &format!("{size},{},{rings}\n", runs.len());
        json.push(format!(r#"{{"size":"{size}","runs":{},"rings":{rings}}}"#, runs.len()));
    }
    assert_eq!(folder.done("pool --state pool show --csv"), csv);
    let shown = folder.done("pool --state pool show --json");
    let together = format!(r#""runs":{},"rings":{},"#, reference.runs().count(), reference.rings());
    assert!(shown.contains(&format!("{together}\"sizes\":[{}],\"list\"", json.join(","))), "{shown}");
}

/// Random inputs, some in several commands, beside the independent implementation.
#[test]
fn any_inputs_beside_the_reference() {
    let mut random = Random::new(606);
    let mut statuses = [0, 23, 24].map(|status| (status, 0));
    for _ in 0..60 {
        let folder = empty();
        let mut reference = Reference::default();
        for _ in 0..1 + random.below(3) {
            let input = any_input(&mut random);
            folder.write("lines", &input);
            let run = folder.run(ADD);
            let (printed, status) = expected(&mut reference, &input);
            assert_eq!((String::from_utf8(run.printed).unwrap(), run.status), (printed, status));
            statuses.iter_mut().filter(|(known, _)| *known == status).for_each(|(_, times)| *times += 1);
        }
        let row = |(size, first, last): (char, u32, u32)| format!("{size},{first},{last},{}\n", last - first + 1);
        assert_eq!(runs(&folder), reference.runs().map(row).collect::<String>());
        sizes_are_those_of(&folder, &reference);
    }
    assert!(statuses.iter().all(|(_, times)| *times > 0), "{statuses:?}");
}
