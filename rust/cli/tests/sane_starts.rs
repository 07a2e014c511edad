//! Starts of sessions in SANE: counters, other nonces, and tags. The expected tags are those of the independent implementation.

mod common;

use std::ffi::OsStr;
use std::fs;
use std::os::unix::ffi::OsStrExt;

use common::envelopes::sealed;
use common::sane::{ENDS, START, pair, reference, shown, tag_of, text, with_keys};
use common::{Folder, Run};

/// Runs the program with one more option, whose value may be any bytes.
fn with(folder: &Folder, line: &str, option: &str, value: &OsStr) -> Run {
    let mut command = folder.command(line);
    command.arg(option).arg(value);
    Run::of(command)
}

#[test]
fn the_expected_tag_is_compared_before_anything_is_started() {
    let folder = with_keys();
    let right = tag_of(&folder, "key", 7);
    let sentence = "pevghazo: This is not the tag of a start with this key and this nonce: the other end has another key or \
                    another nonce, or its tag was not typed as it stands there. Nothing was started, and the nonce can still be used.\n";
    let start = format!("{START} office --counter 7");
    let names = folder.names();
    let digits = right.replace(' ', "");
    let mut wrong = vec![tag_of(&folder, "other-key", 7), tag_of(&folder, "key", 8)];
    for place in 0..digits.len() {
        let digit = u8::from_str_radix(&digits[place..=place], 16).unwrap();
        wrong.push(format!("{}{:x}{}", &digits[..place], digit ^ 1 << (place % 4), &digits[place + 1..]));
    }
    for tag in &wrong {
        let run = with(&folder, &start, "--expect", OsStr::new(tag));
        assert_eq!((run.status, &run.printed[..], run.said.as_str()), (9, &b"mismatch\n"[..], sentence), "{tag}");
        assert_eq!(folder.names(), names);
    }
    // In whichever spelling, and each time the nonce is free again in a new state file.
    for (number, tag) in
        [right.clone(), digits.clone(), right.to_uppercase(), right.replace(' ', "-"), right.replace(' ', " - ")]
            .into_iter()
            .enumerate()
    {
        let run = with(&folder, &format!("{START} new-{number} --counter 7"), "--expect", OsStr::new(&tag));
        assert_eq!((run.status, run.printed), (0, format!("tag {right}\n").into_bytes()), "{}", run.said);
    }
    // In the place of a session: nothing is altered and no nonce used up.
    folder.done(&start);
    let state = folder.read("office");
    let next = format!("{START} office --counter 8 --replace");
    assert_eq!(with(&folder, &next, "--expect", OsStr::new(&right)).status, 9);
    assert!(folder.read("office") == state);
    assert_eq!(with(&folder, &next, "--expect", OsStr::new(&tag_of(&folder, "key", 8))).status, 0);
}

#[test]
fn a_text_that_is_no_tag_is_a_bad_command_line() {
    let folder = with_keys();
    let right = tag_of(&folder, "key", 7);
    let sentence = "pevghazo: The value of --expect is no tag. A tag of a start has 32 hexadecimal digits, and between its \
                    groups of four there may be spaces and hyphens.\n";
    let start = format!("{START} office --counter 7");
    let names = folder.names();
    let texts = [
        "",
        "7",
        &right[..19],
        &right[5..],
        &format!("{right}0"),
        &format!("{right} 0000"),
        &right.replace(' ', "."),
        &format!("tag {right}"),
        &format!(" {right}"),
        "mismatch",
    ];
    for text in texts.map(str::as_bytes).into_iter().chain([&b"\xff\xff\xff\xff"[..]]) {
        let run = with(&folder, &start, "--expect", OsStr::from_bytes(text));
        assert_eq!((run.status, &run.printed[..], run.said.as_str()), (2, &b""[..], sentence), "{text:?}");
    }
    let said = folder.fails(2, &format!("{start} --expect {right}"));
    assert!(said.ends_with(" Spaces in the value of --expect need quotes around it.\n"), "{said}");
    assert_eq!(folder.names(), names);
}

/// What is said of a counter that is not above the last one.
fn not_above(counter: u64, last: u64) -> String {
    let take = if last == u64::MAX { "There is no higher one: take a new key." } else { "Take a higher one." };
    format!(
        "pevghazo: The counter {counter} is not above {last}, the last one under this key in this state file. Under one key and \
         one nonce two messages would share keystream, and whoever sees both envelopes learns how the messages differ. {take}\n"
    )
}

#[test]
fn a_counter_has_to_grow_under_one_key() {
    let folder = pair();
    let replace = |counter: u64| format!("{START} office --counter {counter} --replace");
    let refused = |counter: u64, last: u64| {
        let state = folder.read("office");
        assert_eq!(folder.fails(7, &replace(counter)), not_above(counter, last));
        assert!(folder.read("office") == state);
    };
    refused(1, 1);
    refused(0, 1);
    for (counter, refusals) in [(2, vec![0, 1, 2]), (9, vec![2, 3, 8, 9]), (u64::MAX, vec![0, 9, 10, u64::MAX])] {
        assert_eq!(folder.done(&replace(counter)), format!("tag {}\n", tag_of(&folder, "key", counter)));
        refusals.into_iter().for_each(|lower| refused(lower, counter));
    }
    // Another key has its own counters, and the first one's are still known afterwards.
    let other =
        |counter: u64| format!("sane start --group 5 --key other-key --state office --counter {counter} --replace");
    assert_eq!(folder.done(&other(0)), format!("tag {}\n", tag_of(&folder, "other-key", 0)));
    assert_eq!(folder.fails(7, &other(0)), not_above(0, 0));
    refused(9, u64::MAX);
    folder.done(&other(1));
    assert!(folder.done("sane show --state office --json").contains("\"keys\":2,\"mode\":\"sane\",\"counter\":1,"));
    // So is one whose file has another name, and forgetting is not for nonces.
    folder.write("another-name", &folder.read("key").unwrap());
    folder.done("sane forget --state office --envelope");
    folder.fails(7, "sane start --group 5 --key another-name --state office --counter 41 --replace");
    // A new state file knows nothing, and so the manual says that there is to be one.
    folder.done(&format!("{START} new --counter 1"));
}

#[test]
fn a_refused_start_uses_no_counter_up() {
    let folder = pair();
    folder.write("short", &[7; 15]);
    let state = folder.read("group");
    let start = "--state group --counter 2 --replace";
    folder.fails(14, &format!("sane start --group 5 --key short {start}"));
    folder.fails(13, &format!("sane start --group 32 --key key {start}"));
    folder.fails(6, &format!("sane start --group 6 --key key {start}"));
    folder.done("sane seal --state office --message text --out envelope");
    folder.run("sane open --state group --in envelope --out /dev/full");
    let said = folder.fails(5, &format!("sane start --group 5 --key key {start}"));
    assert!(said.contains("`pevghazo sane reread --state group --out FILE`"), "{said}");
    folder.done("sane reread --state group --out opened");
    assert!(folder.read("group") != state);
    folder.done(&format!("sane start --group 5 --key key {start}"));
    // Nor does one where the state file is there already.
    let said = folder.fails(3, &format!("{START} group --counter 3"));
    assert!(said.ends_with(" already. `--replace` starts the next session in it.\n"), "{said}");
    folder.done(&format!("{START} group --counter 3 --replace"));
}

/// A session in the place of another is that of its key and its nonce, and nothing of the other one is kept.
#[test]
fn a_session_takes_the_place_of_another() {
    let folder = pair();
    folder.done("sane seal --state office --message text --out old");
    folder.done("sane open --state group --in old --out opened");
    // An envelope that was not handed out is given up too.
    assert_eq!(folder.run("sane seal --state group --message text --out /dev/full").status, 4);
    for end in ENDS {
        folder.done(&format!("{START} {end} --counter 2 --replace"));
        let state = r#""open":true,"index":2,"toggle":0,"envelope":"none","message":"none"}"#;
        let said = folder.done(&format!("sane show --state {end} --json"));
        assert!(said.ends_with(&format!("{state}\n")), "{said}");
        folder.fails(5, &format!("sane resend --state {end} --out out"));
        folder.fails(5, &format!("sane reread --state {end} --out out"));
        folder.fails(21, &format!("sane open --state {end} --in old --out out"));
    }
    let (mut session, _) = reference(&folder.read("key").unwrap(), &2u64.to_le_bytes());
    for (turn, [from, to]) in [ENDS, [ENDS[1], ENDS[0]]].into_iter().enumerate() {
        let message = text(turn, 60);
        folder.write("message", &message);
        folder.done_anew(&format!("sane seal --state {from} --message message --out new"));
        assert_eq!(folder.read("new").unwrap(), sealed(&mut session, 5, b"", &message));
        folder.done_anew(&format!("sane open --state {to} --in new --out opened"));
        assert_eq!(folder.read("opened"), Some(message));
    }
}

/// What a lost state file knew of nonces is lost: no other is begun in its place, as long as its lock file shows that it was there.
#[test]
fn no_state_file_is_begun_in_the_place_of_a_lost_one() {
    let folder = pair();
    let newest = folder.read("office").unwrap();
    fs::remove_file(folder.0.join("office")).unwrap();
    let names = folder.names();
    for counter in [1, 2] {
        let said = folder.fails(3, &format!("{START} office --counter {counter}"));
        assert!(
            said.contains(" was here before, and is lost. The nonces that were used in it are not known,"),
            "{said}"
        );
        assert_eq!(folder.names(), names);
    }
    folder.write("office", &newest);
    folder.done(&format!("{START} office --counter 2 --replace"));
    // Who removes both is believed to know.
    for name in ["office", "office.lock"] {
        fs::remove_file(folder.0.join(name)).unwrap();
    }
    folder.done(&format!("{START} office --counter 3"));
    // A start that was killed before its commit leaves a lock file too, and is made again.
    let log = folder.copy().run_with("log", &format!("{START} new --counter 1")).said;
    let rename = 1 + log.lines().position(|line| line.ends_with(": rename")).unwrap_or_else(|| panic!("{log}"));
    folder.run_with(&format!("abort@{rename}"), &format!("{START} new --counter 1"));
    assert!(folder.read("new").is_none() && folder.read("new.lock").is_some());
    folder.done(&format!("{START} new --counter 1"));
    // In SANSE a state file may be begun anew.
    for line in ["group start --state sanse --group 5 --key key", "office create --state sanse"] {
        folder.done(line);
        fs::remove_file(folder.0.join("sanse")).unwrap();
        folder.done(line);
        fs::remove_file(folder.0.join("sanse")).unwrap();
    }
}

/// The sentence of a nonce of a file that was used before.
const USED: &str = "pevghazo: This nonce was used under this key in this state file before. Under one key and one nonce two \
                    messages would share keystream, and whoever sees both envelopes learns how the messages differ. Take \
                    another one.\n";

#[test]
fn a_nonce_of_a_file_is_used_once() {
    let folder = with_keys();
    let key = folder.read("key").unwrap();
    let mut replace = "";
    for length in [0, 1, 7, 9, 47, 48, 16_384] {
        let nonce = text(length, length);
        folder.write("nonce", &nonce);
        let start = format!("{START} office --nonce nonce");
        assert_eq!(folder.done(&format!("{start}{replace}")), format!("tag {}\n", shown(&reference(&key, &nonce).1)));
        replace = " --replace";
        let state = folder.read("office");
        assert_eq!(folder.fails(7, &format!("{start}{replace}")), USED, "{length}");
        assert!(folder.read("office") == state);
        let said = folder.done("sane show --state office");
        assert!(said.contains("\nmode SANE, nonce of a file, tag "), "{said}");
        assert!(
            folder.done("sane show --state office --json").contains("\"keys\":1,\"mode\":\"sane\",\"counter\":null,")
        );
    }
    // Older ones are known too, by whichever way they come.
    let run = folder.run_on(&format!("{START} office --nonce - --replace"), &text(7, 7));
    assert_eq!((run.status, run.said.as_str()), (7, USED));
    folder.done("sane start --group 5 --key other-key --state office --nonce nonce --replace");
    // Too long, in a new state file and in the place of a session.
    folder.write("nonce", &text(1, 16_385));
    for line in [format!("{START} office --nonce nonce --replace"), format!("{START} new --nonce nonce")] {
        let said = folder.fails(16, &line);
        let sentence = "Refused, number 6: The metadata, the message or the nonce has more than 16,384 bytes.";
        assert_eq!(said, format!("pevghazo: {sentence}\n"));
    }
    assert_eq!(folder.read("new"), None);
}

/// Whether it comes from a file or not, a nonce of eight bytes is the counter that they spell.
#[test]
fn eight_bytes_are_a_counter() {
    let folder = with_keys();
    let start = |counter: u64| {
        folder.write("nonce", &counter.to_le_bytes());
        format!("{START} office --nonce nonce --replace")
    };
    folder.done(&format!("{START} office --counter 258"));
    for lower in [0, 1, 257, 258] {
        assert_eq!(folder.fails(7, &start(lower)), not_above(lower, 258));
    }
    assert_eq!(folder.done(&start(259)), format!("tag {}\n", tag_of(&folder, "key", 259)));
    assert_eq!(folder.fails(7, &format!("{START} office --counter 259 --replace")), not_above(259, 259));
    // The lowest byte comes first: this is 2^56.
    folder.write("nonce", &[0, 0, 0, 0, 0, 0, 0, 1]);
    folder.done(&format!("{START} office --nonce nonce --replace"));
    assert!(folder.done("sane show --state office").contains("\nmode SANE, counter 72057594037927936, tag "));
    assert_eq!(
        folder.fails(7, &format!("{START} office --counter 72057594037927936 --replace")),
        not_above(1 << 56, 1 << 56)
    );
}

#[test]
fn command_lines_that_are_none() {
    let folder = with_keys();
    folder.write("nonce", b"a nonce");
    let names = folder.names();
    for line in ["", " --counter 1 --nonce nonce"] {
        let said = folder.fails(2, &format!("{START} office{line}"));
        assert_eq!(said, "pevghazo: One of --counter and --nonce is needed, and not both.\n");
    }
    for counter in ["", "-1", "+1", "x", "0x10", "1.5", "18446744073709551616"] {
        let said = folder.fails(2, &format!("{START} office --counter={counter}"));
        let range = "from 0 to 18446744073709551615, in digits";
        assert_eq!(said, format!("pevghazo: The option --counter needs a number {range}.\n"));
    }
    for line in [
        "sane",
        "sane nothing",
        "sane codes --state office --packets 7",
        "sane start --state office --group 5 --counter 1",
        "sane start --state office --key key --counter 1",
        "sane start --group 5 --key key --counter 1",
        "sane start --state - --group 5 --key key --counter 1",
        "sane start --state office --group 5 --key - --nonce -",
        "sane start --state office --group 5 --key key --counter 1 --restore",
        "sane start --state office --group 5 --key key --counter 1 --reuse-key",
        "sane seal --state office --group 5 --message text --out out",
        "sane seal --state office --message text",
        "group start --state office --group 5 --key key --counter 1",
    ] {
        folder.fails(2, line);
    }
    folder.fails(4, &format!("{START} office --nonce nothing"));
    assert_eq!(folder.names(), names);
}

/// Where the tag could not be printed, the session has started all the same, and `show` has the tag.
#[test]
fn a_tag_that_was_not_printed_is_kept() {
    let folder = with_keys();
    let tag = tag_of(&folder, "key", 1);
    let start = format!("{START} office --counter 1");
    let closed = Run::of(folder.command_after("exec >&-", &start));
    assert_eq!((closed.status, folder.read("office")), (4, None), "{}", closed.said);
    let full = Run::of(folder.command_after("exec >/dev/full", &start));
    assert_eq!(full.status, 4);
    let sentence = "The tag is kept in the state file: hand it out with `pevghazo sane show --state office`.\n";
    assert!(full.said.ends_with(sentence), "{}", full.said);
    folder.fails(3, &start);
    assert_eq!(folder.fails(7, &format!("{start} --replace")), not_above(1, 1));
    assert!(folder.done("sane show --state office").ends_with(&format!("tag {tag}\n")));
    // So it is where the old state file could not be overwritten.
    let next = format!("{START} office --counter 2 --replace");
    let log = folder.copy().run_with("log", &next).said;
    let last = log.lines().filter(|line| !line.ends_with(": end")).count();
    let run = folder.run_with(&format!("fail@{last}"), &next);
    assert_eq!((run.status, run.printed), (3, Vec::new()));
    assert!(run.said.ends_with(sentence), "{}", run.said);
    assert!(folder.done("sane show --state office").ends_with(&format!("tag {}\n", tag_of(&folder, "key", 2))));
}
