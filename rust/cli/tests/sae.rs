//! Boxes of old letters, as the office opens them. All letters are those of the vectors, or sealed by the independent implementation as the
//! first version did.

mod common;

use std::fs;

use common::letters::{KEY, LENGTHS, OPEN, OldBox, START, sealed, trial};
use common::sane::shown;
use common::vectors::Vector;
use common::{Folder, PLACE, SESSION};

/// What is said of a wrong tag.
const WRONG: &str = "Refused, number 11: The tag is wrong: the arrival is damaged, repeated, out of order or not meant for this session.";

/// The report on the box of four letters.
#[test]
fn a_box_in_its_order() {
    let old = OldBox::of_four();
    let report = old.opens("1 2 3 4");
    let expected = "\
letter group metadata message  result         place  file
     1     5        6      11  opened             1  1 to 0001-1.message
     2     5        0     100  opened             2  2 to 0002-2.message
     3     5       48       0  opened             3  3 to 0003-3.message
     4     5        0       0  opened             4  4 to 0004-4.message
opened 4, opened before 0, not opened 0, not tried 0 of 4 letters
";
    assert_eq!(report, expected);
    old.holds("1 2 3 4");
    // A second run opens nothing, and leaves the state file alone.
    let state = old.folder.read("old");
    let again = expected.replace("opened        ", "opened before ");
    let again: String = again.lines().map(|line| format!("{}\n", line.split(" to 0").next().unwrap())).collect();
    let again = again.replace("opened 4, opened before 0", "opened 0, opened before 4");
    assert_eq!(old.opens("1 2 3 4"), again);
    assert!(old.folder.read("old") == state);
    old.holds("1 2 3 4");
}

/// Letters of the lengths at which blocks begin and end, and of the greatest.
#[test]
fn letters_of_all_lengths() {
    let edges = [0, 1, 31, 32, 47, 48, 49, 95, 96, 1_000, 16_384];
    let lengths: Vec<_> = edges.into_iter().flat_map(|m| [0, 20, 47, 48, 16_384].map(|a| (a, m))).collect();
    let old = OldBox::new(&lengths);
    let files: Vec<String> = (1..=lengths.len()).map(|place| place.to_string()).collect();
    let report = old.opens(&files.join(" "));
    for (place, (a, m)) in (1..).zip(&lengths) {
        assert!(
            report.contains(&format!("\n{place:6}     5 {a:8} {m:7}  opened         {place:5}  {place} to ")),
            "{report}"
        );
    }
    old.holds(&files.join(" "));
    let shown = old.folder.done("sae show --state old");
    assert!(shown.contains(&format!("index {:7}, ", old.session.index)), "{shown}");
}

/// The sessions of the vectors: starts have their tags, and the letters of both ends, in their order, open as the first version wrapped them.
#[test]
fn the_vectors_as_boxes() {
    let folder = Folder::new();
    let (mut starts, mut opened) = (0, 0);
    for vector in Vector::all(include_str!("../../../vectors/sae.txt")) {
        let state = vector.word("session");
        let run = |line: &str| folder.run(&format!("sae {line} --state {state}"));
        if vector.word("op") == "start" {
            folder.write("key", &vector.bytes("key"));
            folder.write("nonce", &vector.bytes("nonce"));
            fs::create_dir(folder.0.join(format!("out-{state}"))).unwrap();
            let run = run("start --group 5 --key key --nonce nonce");
            assert_eq!(String::from_utf8(run.printed).unwrap(), format!("tag {}\n", shown(&vector.bytes("T"))));
            (starts, opened) = (starts + 1, 0);
        } else if vector.word("op") == "unwrap" {
            folder.write("letter", &vector.envelope('F'));
            let run = run(&format!("open letter --out-dir out-{state}"));
            let is_good = vector.word("result") == "ok";
            assert_eq!(run.status, if is_good { 0 } else { 21 }, "{}: {}", vector.0, run.said);
            if is_good {
                opened += 1;
                let message = folder.read(&format!("out-{state}/{opened:04}-letter.message"));
                assert!(message == Some(vector.bytes("M")), "{}", vector.0);
            }
        }
        let said = folder.done(&format!("sae show --state {state} --json"));
        if vector.word("op") != "wrap" {
            assert!(said.contains(&format!("\"index\":{},\"letters\":{opened}}}", vector.word("index"))), "{said}");
        }
    }
    assert!(starts >= 5 && opened > 0);
}

/// Letter 3 before letter 2: it stops there, says which letter belongs there, and goes on once the order is mended.
#[test]
fn an_order_that_is_mended() {
    let old = OldBox::of_four();
    let (report, said) = old.stops(21, "1 3 2 4");
    let expected = "\
letter group metadata message  result         place  file
     1     5        6      11  opened             1  1 to 0001-1.message
     2     5       48       0  REFUSED, 11        -  3
     3     5        0     100  not tried          -  2
     4     5        0       0  not tried          -  4
opened 1, opened before 0, not opened 1, not tried 2 of 4 letters
";
    assert_eq!(report, expected);
    let counts = "Letters opened: 1. Opened before: 0. Not tried: 2.";
    assert_eq!(said, format!("pevghazo: Stopped at letter 2 of 4, 3. {WRONG} Letter 3, 2, belongs here. {counts}\n"));
    old.holds("1");
    let report = old.opens("1 2 3 4");
    assert!(report.ends_with("\nopened 3, opened before 1, not opened 0, not tried 0 of 4 letters\n"), "{report}");
    old.holds("1 2 3 4");
}

/// A letter is missing: none of the others belongs in its place. Once it is found, it may come alone or with the rest.
#[test]
fn a_letter_that_is_missing() {
    let old = OldBox::of_four();
    let (_, said) = old.stops(21, "1 3 4");
    let missing = "No later letter of the box belongs here: one is missing, or this one is damaged.";
    let counts = "Letters opened: 1. Opened before: 0. Not tried: 1.";
    assert_eq!(said, format!("pevghazo: Stopped at letter 2 of 3, 3. {WRONG} {missing} {counts}\n"));
    old.holds("1");
    // Nor is it said of letters that were opened before, or that are no letters of this session.
    old.folder.write("other", b"F,5,0,0,");
    let (_, said) = old.stops(21, "1 3 1 other");
    assert!(said.contains(&format!(" {missing} Letters opened: 0. Opened before: 1. Not tried: 2.")), "{said}");
    // Nor of the right one under the number of another group, with which it would be stopped.
    old.folder.write("other", &old.damaged(2, 2));
    let (_, said) = old.stops(21, "1 3 other 4");
    assert!(said.contains(&format!(" {missing} Letters opened: 0. Opened before: 1. Not tried: 2.")), "{said}");
    old.opens("2");
    old.opens("3 4");
    old.holds("1 2 3 4");
}

/// Where not even a first letter opens, key or nonce may be wrong.
#[test]
fn the_first_letter_is_missing_or_the_key_is_another() {
    let old = OldBox::of_four();
    let none_yet = " No letter of the box belongs here as the first one: it is missing or damaged, or key and nonce are not those of this \
                    session. Letters opened: 0. Opened before: 0. Not tried: 2.\n";
    let (_, said) = old.stops(21, "2 3 4");
    assert!(said.ends_with(none_yet), "{said}");
    old.folder.write("wrong-key", b"the key of another old session");
    for start in ["--key wrong-key --counter 41", "--key old-key --counter 42"] {
        old.folder.done(&format!("sae start --state old --group 5 --replace {start}"));
        let (_, said) = old.stops(21, "1 2 3");
        assert!(said.ends_with(none_yet), "{said}");
    }
    old.folder.done(&format!("{START} old --replace"));
    old.opens("1 2 3 4");
    old.holds("1 2 3 4");
}

/// A changed letter is refused wherever it was changed. The header is not under the tag: other lengths move bytes, which the tag shows, and
/// another group is told by the state file's.
#[test]
fn damaged_letters() {
    let old = OldBox::of_four();
    old.opens("1");
    let whole = &old.letters[1].bytes;
    assert!(whole.starts_with(b"F,5,0,100,"));
    let state = old.folder.read("old");
    for place in [10, 60, whole.len() - 17, whole.len() - 16, whole.len() - 1] {
        old.folder.write("damaged", &old.damaged(2, place));
        let (report, said) = old.stops(21, "damaged 2 3");
        assert!(
            report.contains("  REFUSED, 11        -  damaged\n") && said.contains(" Letter 2, 2, belongs here. "),
            "{said}"
        );
    }
    for (header, status) in [
        ("F,5,100,0,", 21),
        ("F,5,1,99,", 21),
        ("F,5,0,99,", 21),
        ("F,5,0,101,", 12),
        ("F,05,0,100,", 11),
        ("F,6,0,100,", 6),
    ] {
        old.folder.write("damaged", &[header.as_bytes(), &whole[10..]].concat());
        let (_, said) = old.stops(status, "damaged");
        assert!(said.starts_with("pevghazo: Stopped at letter 1 of ") && said.contains(", damaged. "), "{said}");
    }
    assert!(old.folder.read("old") == state);
    old.holds("1");
    old.opens("2 3 4");
    old.holds("1 2 3 4");
}

/// A letter that was opened is known by all its bytes: another one under its name is not taken for it, and it is known under any name.
#[test]
fn letters_that_were_opened_are_known_by_their_bytes() {
    let old = OldBox::of_four();
    old.opens("1 2");
    let report = old.opens("2 1 2");
    assert!(report.ends_with("\nopened 0, opened before 3, not opened 0, not tried 0 of 3 letters\n"), "{report}");
    old.folder.write("copy", &old.letters[0].bytes);
    assert!(old.opens("copy 3").contains("  opened before      1  copy\n"));
    for place in 0..old.letters[0].bytes.len() {
        old.folder.write("1", &old.damaged(1, place));
        let (report, said) = old.stops(old.open("1").status, "1 4");
        assert!(!report.contains("  opened before  ") && said.contains(" Opened before: 0. "), "{place}: {report}");
    }
    old.holds("1 2 3");
    // One file twice in a box.
    let report = old.opens("4 4");
    assert!(
        report.contains("  opened             4  4 to ") && report.contains("  opened before      4  4\n"),
        "{report}"
    );
}

/// A file may hold several letters. Bytes behind the last one are told with their place.
#[test]
fn a_file_with_several_letters() {
    let old = OldBox::of_four();
    let [one, two, three, four] = [0, 1, 2, 3].map(|place| &old.letters[place].bytes[..]);
    let from = one.len() + two.len();
    old.folder.write("box", &[one, two, three].concat());
    old.folder.write("last", &[four, b"\n"].concat());
    let (report, said) = old.stops(11, "box last");
    for line in [
        "     1     5        6      11  opened             1  box to 0001-box.message\n".to_string(),
        format!(
            "     2     5        0     100  opened             2  box from byte {} to 0002-box.message\n",
            one.len()
        ),
        format!("     3     5       48       0  opened             3  box from byte {from} to 0003-box.message\n"),
        "     4     5        0       0  opened             4  last to 0004-last.message\n".to_string(),
        format!("     5     -        -       -  REFUSED, 1         -  last from byte {}\n", four.len()),
        "opened 4, opened before 0, not opened 1, not tried 0 of 5 letters\n".to_string(),
    ] {
        assert!(report.contains(&line), "{line}{report}");
    }
    assert!(
        said.starts_with(&format!("pevghazo: Stopped at letter 5 of 5, last from byte {}. ", four.len())),
        "{said}"
    );
    old.holds("box box box last");
}

/// Boxes without letters, and files that are none. Where a file cannot be read, nothing is opened.
#[test]
fn boxes_that_are_none() {
    let old = OldBox::of_four();
    assert_eq!(old.folder.fails(2, OPEN), "pevghazo: No file is named: see `pevghazo sae open --help`.\n");
    assert!(old.folder.fails(2, &format!("{OPEN} 1 -")).contains("`-` is none"), "the standard input has no name");
    for (file, sentence) in [("none", "Could not open none: "), ("out", "Could not read out: ")] {
        let said = old.folder.fails(4, &format!("{OPEN} 1 2 {file}"));
        assert!(said.starts_with(&format!("pevghazo: {sentence}")), "{said}");
    }
    old.folder.write("large", &vec![0; (1 << 24) + 1]);
    assert!(old.folder.fails(4, &format!("{OPEN} 1 large")).contains("too large"));
    old.holds("");
    old.folder.write("empty", b"");
    let (report, said) = old.stops(11, "1 empty 2");
    assert!(report.contains("  REFUSED, 1         -  empty\n"), "{report}");
    assert!(said.starts_with("pevghazo: Stopped at letter 2 of 3, empty. Refused, number 1: "), "{said}");
    old.holds("1");
    old.folder.write("cut", &old.letters[1].bytes[..40]);
    // Which letter belongs there is told of a wrong tag alone.
    let (_, said) = old.stops(12, "cut 2");
    assert!(said.starts_with("pevghazo: Stopped at letter 1 of 2, cut. Refused, number 2: "), "{said}");
    assert!(said.ends_with("announces. Letters opened: 0. Opened before: 0. Not tried: 1.\n"), "{said}");
}

/// Envelopes of today, and letters of another group or another old session, in the box.
#[test]
fn envelopes_that_do_not_belong_in_the_box() {
    let old = OldBox::of_four();
    let folder = &old.folder;
    folder.write("key", b"the secret key of group 5");
    folder.write("text", b"20001");
    folder.done("group start --state group --group 5 --key key");
    folder.done("group seal --state group --message text --out S");
    folder.done("sane start --state sane --group 5 --key key --counter 1");
    folder.done("sane seal --state sane --message text --out N");
    let other = trial(KEY, &41u64.to_le_bytes()).0.trial_seal(6, b"", b"20001");
    folder.write("other", &other);
    let of_today = |letter: &str, mode: &str, command: &str| {
        format!("This envelope has the letter {letter}: it is that of a session in {mode}, and {command} is for it.")
    };
    for (file, sentence) in [
        ("S", of_today("S", "SANSE", "`pevghazo group open`, or `pevghazo office open`,")),
        ("N", of_today("N", "SANE", "`pevghazo sane open`")),
        ("other", "This is for group 6, and the state file is that of group 5.".to_string()),
    ] {
        let (report, said) = old.stops(6, &format!("{file} 1"));
        assert!(report.contains(&format!("  STOPPED            -  {file}\n")), "{report}");
        let counts = "Letters opened: 0. Opened before: 0. Not tried: 1.";
        assert_eq!(said, format!("pevghazo: Stopped at letter 1 of 2, {file}. {sentence} {counts}\n"));
    }
    old.holds("");
}

/// An old letter at the commands of today is told as what it is, and none of their state files changes.
#[test]
fn an_old_letter_at_other_commands() {
    let folder = Folder::pair(5);
    folder.done("sane start --state sane --group 5 --key key --counter 41");
    let key = folder.read("key").unwrap();
    folder.write("F", &trial(&key, &41u64.to_le_bytes()).0.trial_seal(5, b"size", b"20001"));
    let states = || ["office", "group", "sane"].map(|name| folder.read(name));
    let before = states();
    for area in ["office", "group", "sane"] {
        let said = folder.fails(6, &format!("{area} open --state {area} --in F --out out"));
        let sentence = "This envelope has the letter F: it is an old letter, of the first version, and `pevghazo sae open` is for it.";
        assert_eq!(said, format!("pevghazo: {sentence}\n"));
    }
    assert!(states() == before && folder.read("out").is_none());
}

/// The same key, nonce and message: letters of SANE do not open as old ones, nor the other way round, also under each other's letter.
#[test]
fn letters_of_sane_are_no_old_letters() {
    let old = OldBox::of_four();
    let folder = &old.folder;
    folder.done("sane start --state sane --group 5 --key old-key --counter 41");
    for (place, letter) in old.letters.iter().enumerate() {
        folder.write("message", &letter.message);
        folder.write("metadata", &letter.metadata);
        folder.done("sane start --state sane-seals --group 5 --key old-key --counter 41");
        folder.done_anew("sane seal --state sane-seals --message message --metadata metadata --out N");
        let relettered = |letter: &[u8], bytes: &[u8]| folder.write("in", &[letter, &bytes[1..]].concat());
        relettered(b"F", &folder.read("N").unwrap());
        old.stops(21, "in");
        relettered(b"N", &letter.bytes);
        folder.fails(21, "sane open --state sane --in in --out out-message");
        for name in ["sane-seals", "sane-seals.lock"] {
            fs::remove_file(folder.0.join(name)).unwrap();
        }
        old.opens(&(place + 1).to_string());
    }
    old.holds("1 2 3 4");
}

/// Two hundred letters, the last of which is damaged at first.
#[test]
fn two_hundred_letters() {
    let lengths: Vec<_> = (0..200).map(|place| LENGTHS[place % 4]).collect();
    let old = OldBox::new(&lengths);
    let files = |last: &str| (1..200).map(|place| format!("{place} ")).collect::<String>() + last;
    old.folder.write("damaged", &old.damaged(200, 9));
    let (report, said) = old.stops(21, &files("damaged"));
    assert!(report.ends_with("\nopened 199, opened before 0, not opened 1, not tried 0 of 200 letters\n"), "{report}");
    assert!(said.starts_with("pevghazo: Stopped at letter 200 of 200, damaged. "), "{said}");
    let report = old.opens(&files("200"));
    assert!(report.ends_with("\nopened 1, opened before 199, not opened 0, not tried 0 of 200 letters\n"), "{report}");
    assert_eq!(report.lines().count(), 202);
    old.holds(&files("200"));
}

/// A session that is full, or closed, which only a forged state file has.
#[test]
fn sessions_that_take_no_letter() {
    let old = OldBox::of_four();
    old.folder.forge("old", PLACE + 96, &u32::to_le_bytes(1_048_576));
    let (_, said) = old.stops(19, "1 2");
    assert!(
        said.starts_with("pevghazo: Stopped at letter 1 of 2, 1. Refused, number 9: The session is full: "),
        "{said}"
    );
    assert!(said.contains("; of old letters (letter F) no more can be opened in it. Letters opened: 0. "), "{said}");
    old.folder.forge("old", PLACE, &[0; SESSION]);
    old.stops(15, "1 2");
    assert!(old.folder.done("sae show --state old").starts_with("group  5: closed, index       0, "));
}

/// What the manual says of the first version: two letters, one of metadata alone and one of a message alone, may be put together to one, with the
/// tag of the second, and it opens; its message is another.
#[test]
fn what_the_tag_of_an_old_letter_does_not_tell() {
    let old = OldBox::new(&[(20, 0), (0, 30)]);
    let [one, two] = &old.letters[..] else { panic!() };
    let [cryptogram, tag] = [&two.bytes[9..39], &two.bytes[39..]];
    old.folder.write("together", &[b"F,5,20,30,", &one.metadata[..], cryptogram, tag].concat());
    old.opens("together");
    let message = old.folder.read("out/0001-together.message").unwrap();
    assert!(message.len() == 30 && message != two.message);
    let together = old.folder.session("old", PLACE);
    old.folder.done(&format!("{START} old --replace"));
    old.opens("1 2");
    assert!(old.folder.session("old", PLACE) == together);
    // What follows opens after either.
    let next = sealed(&mut old.session.clone(), &LENGTHS[..1]);
    old.folder.write("3", &next[0].bytes);
    old.opens("3");
}
