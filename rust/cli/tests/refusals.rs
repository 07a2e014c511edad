//! Refusals and other failures: each with its status and sentence, no output, and the state as it was.

mod common;

use std::fs::{self, Permissions};
use std::os::unix::fs::{PermissionsExt, symlink};

use common::{Folder, PLACE, Run, SESSION, place_at_office};
use pevghazo_store::{Presence, Store, Wait};

/// The sentences, by number. Numbers 7 and 8 cannot be met here: this program makes the buffers itself.
const SENTENCES: [(i32, &str); 10] = [
    (1, "This is no envelope for this call: its header does not follow the layout, or is not the call's own."),
    (2, "The envelope ends before all that its header announces."),
    (3, "There is no such group: groups are numbered 0 to 31."),
    (4, "The key must have 16 to 47 bytes."),
    (5, "The session is not open."),
    (6, "The metadata, the message or the nonce has more than 16,384 bytes."),
    (
        9,
        "The session is full: start a new one with a new key, or in SANE with a new nonce; of old letters (letter F) no more can be opened in it.",
    ),
    (10, "The group's allowance for the day does not cover this call."),
    (
        11,
        "The tag is wrong: the arrival is damaged, repeated, out of order or not meant for this session. Or both ends have \
         sealed at once: then neither envelope can be opened, and the session is replaced under a new key. Or a version before \
         0.8 has sealed it: only such a version opens it.",
    ),
    (12, "There is no such code: no message was accepted yet, or the packet is above 2,047."),
];

/// The option with a code, which is no packet's.
const CODE: &str = "--code 0123-4567-89ab-cdef";

/// The command is refused under this number. No output is written, and but for number 11 the state stays.
fn refused(folder: &Folder, number: i32, line: &str) {
    refused_with(folder, number, "", line);
}

/// The same, with more after the number's sentence.
fn refused_with(folder: &Folder, number: i32, more: &str, line: &str) {
    let before = (folder.read("office"), folder.read("group"));
    let sentence = SENTENCES.iter().find(|(known, _)| *known == number).unwrap().1;
    for out in ["new-out", "-"] {
        let line = line.replace("OUT", out);
        let said = folder.fails(10 + number, &line);
        assert_eq!(said, format!("pevghazo: Refused, number {number}: {sentence}{more}\n"), "{line}");
        assert_eq!(folder.read("new-out"), None, "{line}");
        if number != 11 || line.starts_with("group") {
            assert!((folder.read("office"), folder.read("group")) == before, "{line}");
        }
        if !line.contains("--out") {
            break;
        }
    }
}

#[test]
fn numbers_1_and_2_an_envelope_that_is_none() {
    let folder = Folder::pair(5);
    for bytes in
        ["", "S", "S,5,0,0", "s,5,0,0,", "S,05,0,0,", "S,32,0,0,", "S,5,0,16385,", "S, 5,0,0,", "S,5,-1,0,", "S,5,,0,"]
    {
        folder.write("in", &[bytes.as_bytes(), &[b' '; 40]].concat()[..bytes.len() + 40 * bytes.len().min(1)]);
        refused(&folder, 1, "office --state office open --in in --out OUT");
        refused(&folder, 1, "group --state group open --in in --out OUT");
    }
    for (header, follow) in [("S,5,0,0,", 31), ("S,5,20,48,", 99), ("S,5,0,16384,", 40)] {
        folder.write("in", &[header.as_bytes(), &vec![0; follow]].concat());
        refused(&folder, 2, "office --state office open --in in --out OUT");
        refused(&folder, 2, "group --state group open --in in --out OUT --metadata-out metadata");
    }
}

#[test]
fn number_3_a_group_that_there_is_not() {
    let folder = Folder::pair(5);
    folder.write("text", b"20001");
    for group in ["32", "255", "4294967295"] {
        refused(&folder, 3, &format!("office --state office open-group --group {group} --key key"));
        refused(&folder, 3, &format!("office --state office seal --group {group} --message text --out OUT"));
        refused(&folder, 3, &format!("office --state office resend --group {group} --out OUT"));
        refused(&folder, 3, &format!("office --state office reread --group {group} --out OUT"));
        refused(&folder, 3, &format!("office --state office codes --group {group} --packets 0-5000 --out OUT"));
        refused(&folder, 3, &format!("office --state office check-code --group {group} --packet 5000 {CODE}"));
        refused(&folder, 3, &format!("group --state new-group start --group {group} --key key"));
        assert_eq!(folder.read("new-group"), None);
    }
}

#[test]
fn number_4_a_key_of_a_wrong_length() {
    let folder = Folder::pair(5);
    for length in [0, 15, 48, 1_000_000] {
        folder.write("bad-key", &vec![7; length]);
        refused(&folder, 4, "office --state office open-group --group 6 --key bad-key");
        refused(&folder, 4, "office --state office open-group --group 5 --key bad-key --replace");
        refused(&folder, 4, "group --state new-group start --group 6 --key bad-key");
        refused(&folder, 4, "group --state group start --group 5 --key bad-key --replace");
        assert_eq!(folder.read("new-group"), None);
    }
    for length in [16, 47] {
        folder.write("good-key", &vec![7; length]);
        folder.done("office --state office open-group --group 6 --key good-key --replace");
    }
    let run = folder.run_on("office --state office open-group --group 7 --key -", &[7; 15]);
    assert_eq!(run.status, 14);
}

#[test]
fn number_5_a_session_that_is_not_open() {
    let folder = Folder::pair(5);
    folder.write("text", b"20001");
    refused(&folder, 5, "office --state office seal --group 6 --message text --out OUT");
    folder.write("in", &[b"S,6,0,0,", &[0; 32][..]].concat());
    refused(&folder, 5, "office --state office open --in in --out OUT");
    refused(&folder, 5, "office --state office codes --group 6 --packets 0-5000 --out OUT");
    refused(&folder, 5, &format!("office --state office check-code --group 6 --packet 5000 {CODE}"));
    // A group's state file with a closed session: no command makes one.
    folder.forge("group", PLACE, &[0; SESSION]);
    refused(&folder, 5, "group --state group seal --message text --out OUT");
    refused(&folder, 5, "group --state group codes --packets 5000 --out OUT");
    refused(&folder, 5, &format!("group --state group check-code --packet 5000 {CODE}"));
    assert!(folder.done("group --state group show").starts_with("group  5: closed, index       0,"));
}

#[test]
fn number_6_texts_that_are_too_long() {
    let folder = Folder::pair(5);
    folder.write("text", b"20001");
    for length in [16_385, 100_000] {
        folder.write("long", &vec![7; length]);
        for end in ["office --state office seal --group 5", "group --state group seal"] {
            refused(&folder, 6, &format!("{end} --message long --out OUT"));
            refused(&folder, 6, &format!("{end} --message text --metadata long --out OUT"));
        }
    }
}

#[test]
fn number_9_a_session_that_is_full() {
    let folder = Folder::pair(5);
    folder.write("text", b"20001");
    // The header takes 2 of the index, and the message 2.
    for (index, status) in [(1_048_573, 19), (1_048_572, 0)] {
        // The index is after the accumulator and the mask of the session.
        folder.forge("group", PLACE + 96, &u32::to_le_bytes(index));
        folder.forge("office", place_at_office(5) + 96, &u32::to_le_bytes(index));
        if status == 19 {
            refused(&folder, 9, "group --state group seal --message text --out OUT");
            refused(&folder, 9, "office --state office seal --group 5 --message text --out OUT");
            folder.write("in", &[b"S,5,0,1,x", &[0; 32][..]].concat());
            refused(&folder, 9, "office --state office open --in in --out OUT");
            assert_eq!(folder.done("office --state office nearly-full --mark 1048572"), "5\n");
            assert_eq!(folder.done("office --state office nearly-full --mark 1048573"), "none\n");
        } else {
            folder.done_anew("group --state group seal --message text --out out");
            folder.done_anew("office --state office seal --group 5 --message text --out out");
        }
    }
}

#[test]
fn number_10_a_day_whose_allowance_is_spent() {
    let folder = Folder::pair(5);
    folder.write("text", b"20001");
    // Refused, with what group 5 has spent and what remains of the allowance.
    let spent = |count: u32, allowance: u32, line: &str| {
        let more = format!(
            " Group 5 has spent {count} of {allowance} permutations on this day, and the call needs more than the remaining \
             {}. The other groups have counts of their own, and the next `pevghazo office day` sets all to 0.",
            allowance - count
        );
        refused_with(&folder, 10, &more, line);
    };
    // One block of header, one of message and one of output: 1 + 1 + 4 + 1.
    folder.done("office --state office day --allowance 6");
    spent(0, 6, "office --state office seal --group 5 --message text --out OUT");
    folder.done_anew("group --state group seal --message text --out in");
    spent(0, 6, "office --state office open --in in --out OUT");
    folder.done("office --state office day --allowance 0");
    folder.write("new-key", b"another key of group 5");
    let nothing = " It is 0, for every group: `pevghazo office day` begins a day with another one.";
    refused_with(&folder, 10, nothing, "office --state office open-group --group 6 --key new-key");
    refused_with(&folder, 10, nothing, "office --state office open-group --group 5 --key new-key --replace");
    folder.done("office --state office day --allowance 7");
    folder.done_anew("office --state office open --in in --out out");
    spent(7, 7, "office --state office open-group --group 5 --key new-key --replace");
    spent(7, 7, "office --state office seal --group 5 --message text --out OUT");
}

#[test]
fn number_11_arrivals_that_are_not_the_next_of_the_session() {
    let folder = Folder::pair(5);
    folder.write("text", b"20001 to 20100");
    folder.done_anew("group --state group seal --message text --metadata-text size --out whole");
    let whole = folder.read("whole").unwrap();
    let mut spent = 1;
    let shown = |spent: u32| {
        let shown = folder.done("office --state office show");
        let left = 1_000_000 - spent;
        assert!(shown.contains(&format!("\ngroup  5: count {spent:7}, left {left:7}, index ")), "{shown}");
    };
    // Damage of metadata, cryptogram and tag.
    for place in [9, 14, 30, whole.len() - 1] {
        let mut damaged = whole.clone();
        damaged[place] ^= 0x10;
        folder.write("in", &damaged);
        refused(&folder, 11, "office --state office open --in in --out OUT --metadata-out metadata");
        // A wrong tag costs as much as a right one, and the group's count has it: two runs of 1 + 1 + 4 + 1.
        spent += 2 * 7;
        shown(spent);
        assert_eq!(folder.read("metadata"), None);
    }
    // Back to its sender.
    refused(&folder, 11, "group --state group open --in whole --out OUT");
    // The whole one is still accepted, once.
    folder.done_anew("office --state office open --in whole --out opened --metadata-out metadata");
    assert_eq!(folder.read("opened"), folder.read("text"));
    refused(&folder, 11, "office --state office open --in whole --out OUT");
    spent += 3 * 7;
    shown(spent);
    assert_eq!(folder.read("opened"), folder.read("text"));
}

#[test]
fn number_12_a_code_that_there_is_not() {
    let folder = Folder::pair(5);
    let both = |packets: &str| {
        refused(&folder, 12, &format!("office --state office codes --group 5 --packets {packets} --out OUT"));
        refused(&folder, 12, &format!("group --state group codes --packets {packets} --format html --out OUT"));
        if let Some(packet) = packets.split('-').next_back() {
            refused(&folder, 12, &format!("office --state office check-code --group 5 --packet {packet} {CODE}"));
            refused(&folder, 12, &format!("group --state group check-code --packet {packet} {CODE}"));
        }
    };
    // No message yet.
    ["0", "0-23", "2047", "2048"].into_iter().for_each(both);
    folder.write("text", b"20001");
    folder.done("office --state office seal --group 5 --message text --out in");
    folder.done("group --state group open --in in --out out");
    // One packet above the last is enough.
    ["2048", "2047-2048", "0-2048", "4294967295", "0-4294967295"].into_iter().for_each(both);
    folder.done("office --state office codes --group 5 --packets 0-2047");
}

/// The allowance ends also where refused arrivals spent it.
#[test]
fn wrong_tags_spend_the_allowance() {
    let folder = Folder::pair(5);
    folder.write("in", &[b"S,5,0,0,", &[0; 32][..]].concat());
    folder.done("office --state office day --allowance 7");
    folder.fails(21, "office --state office open --in in --out out");
    folder.fails(21, "office --state office open --in in --out out");
    folder.fails(20, "office --state office open --in in --out out");
    let shown = folder.done("office --state office show");
    assert!(shown.starts_with("day: allowance 7 for each group\ngroup  5: count 6, left 1, index "), "{shown}");
}

#[test]
fn an_envelope_of_another_group_has_a_status_of_its_own() {
    let folder = Folder::pair(5);
    folder.write("key-6", b"the secret key of group 6");
    folder.write("text", b"20001");
    folder.done("office --state office open-group --group 6 --key key-6");
    folder.done_anew("office --state office seal --group 6 --message text --out in");
    let before = folder.read("group");
    let said = folder.fails(6, "group --state group open --in in --out out");
    assert_eq!(said, "pevghazo: This is for group 6, and the state file is that of group 5.\n");
    assert!((folder.read("group"), folder.read("out")) == (before, None));
    // At the office the envelope itself says whose it is: with another number on it, its tag is wrong.
    folder.done_anew("group --state group seal --message text --out in");
    let readdressed = [b"S,6,", folder.read("in").unwrap().strip_prefix(b"S,5,").unwrap()].concat();
    folder.write("in-6", &readdressed);
    refused(&folder, 11, "office --state office open --in in-6 --out OUT");
    folder.done_anew("office --state office open --in in --out out");
}

#[test]
fn there_is_nothing_to_hand_out_again() {
    let folder = Folder::pair(5);
    for line in [
        "office --state office resend --group 5 --out out",
        "office --state office resend --group 6 --out out",
        "office --state office reread --group 5 --out out",
        "group --state group resend --out out",
        "group --state group reread --out out",
    ] {
        assert!(folder.fails(5, line).contains(" is kept: "), "{line}");
        assert_eq!(folder.read("out"), None);
    }
    // An arrival shows that the last envelope got there: it is kept no longer.
    folder.write("text", b"20001");
    folder.done_anew("office --state office seal --group 5 --message text --out in");
    folder.done_anew("group --state group open --in in --out out");
    folder.done_anew("group --state group seal --message text --out back");
    folder.done_anew("office --state office resend --group 5 --out again");
    assert_eq!(folder.read("again"), folder.read("in"));
    folder.done_anew("office --state office open --in back --out out");
    folder.fails(5, "office --state office resend --group 5 --out again");
    folder.done_anew("group --state group resend --out again");
    assert_eq!(folder.read("again"), folder.read("back"));
}

#[test]
fn state_files_that_cannot_be_used() {
    let folder = Folder::pair(5);
    let good = folder.read("group").unwrap();
    assert!(folder.fails(3, "office --state nothing show").contains("There is no state file "));
    assert!(folder.fails(3, "office --state office create").contains("already"));
    assert!(folder.fails(3, "office --state group show").contains("it is a group's and not the office's"));
    assert!(folder.fails(3, "group --state office show").contains("it is the office's and not a group's"));
    assert!(folder.fails(3, "group --state no/folder show").contains("Could not "));
    for place in (0..good.len()).step_by(7) {
        let mut damaged = good.clone();
        damaged[place] ^= 4;
        folder.write("group", &damaged);
        assert!(folder.fails(3, "group --state group show").contains(" cannot be used: "));
        assert_eq!(folder.read("group").unwrap(), damaged, "left alone");
    }
    for length in [0, 1, 20, good.len() / 2, good.len() - 1] {
        folder.write("group", &good[..length]);
        folder.fails(3, "group --state group show");
        folder.fails(3, "group --state group start --group 5 --key key --replace");
    }
    folder.write("group", &good);
    fs::set_permissions(folder.0.join("group"), Permissions::from_mode(0o640)).unwrap();
    assert!(folder.fails(3, "group --state group show").contains("Others may read or write the state file"));
}

/// Faults are for tests: in a release build the variable means nothing.
#[test]
fn faults_are_only_in_builds_with_debug_assertions() {
    let folder = Folder::new();
    let run = folder.run_with("fail@1", "office --state office create");
    assert_eq!(run.status, if cfg!(debug_assertions) { 3 } else { 0 }, "{}", run.said);
}

/// Whole files with any content: a checksum keeps nobody from writing one.
#[test]
fn any_content_of_a_state_file_is_taken_or_refused() {
    let folder = Folder::pair(5);
    folder.write("text", b"20001");
    folder.write("in", &[b"S,5,0,0,", &[0; 32][..]].concat());
    let state = |name: &str| {
        Store::open(folder.0.join(name), Presence::MustExist, Wait::Never).unwrap().bytes().unwrap().to_vec()
    };
    folder.done("sane --state sane start --group 5 --key key --counter 1");
    let good = [state("group"), state("office"), state("sane")];
    let mut random = pevghazo_reference::random::Random::new(7);
    for (name, good) in ["group", "office", "sane"].into_iter().zip(good) {
        for turn in 0..30 {
            let mut bytes = good.clone();
            match turn % 3 {
                0 => bytes.truncate(random.below(good.len())),
                1 => bytes[8..].iter_mut().for_each(|byte| *byte = random.below(256) as u8),
                _ => {
                    for _ in 0..5 {
                        let place = 8 + random.below(good.len() - 8);
                        bytes[place] = random.below(256) as u8;
                    }
                }
            }
            let mut store = Store::open(folder.0.join(name), Presence::MustExist, Wait::Never).unwrap();
            store.commit(&bytes).unwrap();
            drop(store);
            let group = if name == "office" { " --group 5" } else { "" };
            let mut commands = vec![
                "show".to_string(),
                format!("seal --message text --out /dev/null{group}"),
                "open --in in --out /dev/null".to_string(),
                format!("resend --out /dev/null{group}"),
                format!("reread --out /dev/null{group}"),
            ];
            if name == "sane" {
                commands.push("start --group 5 --key key --counter 2 --replace".to_string());
            } else {
                commands.push(format!("codes --packets 0-24 --format html{group}"));
                commands.push(format!("check-code --packet 7 {CODE}{group}"));
            }
            for command in commands {
                let run = folder.run(&format!("{name} --state {name} {command}"));
                assert!([0, 3, 5, 6, 7, 9].contains(&run.status) || (11..=22).contains(&run.status), "{run:?}");
            }
        }
    }
}

#[test]
fn inputs_and_outputs_that_cannot_be_used() {
    let folder = Folder::pair(5);
    folder.write("text", b"20001");
    let before = folder.read("office");
    fs::create_dir(folder.0.join("folder")).unwrap();
    symlink("nowhere", folder.0.join("link")).unwrap();
    for line in [
        "office --state office seal --group 5 --message nothing --out out",
        "office --state office seal --group 5 --message folder --out out",
        "office --state office seal --group 5 --message text --metadata nothing --out out",
        "office --state office seal --group 5 --message text --out no/folder",
        "office --state office seal --group 5 --message text --out folder",
        "office --state office seal --group 5 --message text --out text/out",
        "office --state office seal --group 5 --message text --out link",
        "office --state office open --in nothing --out out",
        "office --state office open-group --group 6 --key nothing",
    ] {
        assert!(folder.fails(4, line).contains("Could not "), "{line}");
        assert!((folder.read("office"), folder.read("out")) == (before.clone(), None), "{line}");
    }
    // Outputs in the place of something that would be lost.
    symlink("office", folder.0.join("office-link")).unwrap();
    let temporary = ".office.pevghazo-0123456789abcdef";
    for out in ["office", "office.lock", "./office", "office-link", temporary, "./.office.pevghazo-1"] {
        folder.fails(2, &format!("office --state office seal --group 5 --message text --out {out}"));
    }
    let own = folder.0.file_name().unwrap().to_str().unwrap();
    symlink("text", folder.0.join("text-link")).unwrap();
    for out in ["text", "text-link", "group", "key", &format!("../{own}/text")] {
        let said = folder.fails(4, &format!("office --state office seal --group 5 --message text --out {out}"));
        assert!(said.contains("There is a file "), "{said}");
    }
    folder.fails(2, "office --state office open --in - --out out --metadata-out ./out");
    folder.fails(2, "office --state office open --in text --out - --metadata-out -");
    folder.fails(2, "office --state office seal --group 5 --message - --metadata - --out out");
    folder.fails(2, "office --state office seal --group 5 --message text --metadata text --metadata-text a --out out");
    assert!((folder.read("office"), folder.read("text").unwrap()) == (before, b"20001".to_vec()));
    assert_eq!(folder.read("out"), None);
}

/// The standard output and a file by two names, and what is no name of a file.
#[test]
fn names_that_are_not_what_they_seem() {
    let folder = Folder::pair(5);
    folder.write("text", b"20001");
    let seal = "office --state office seal --group 5 --message text --metadata-text size --out";
    folder.done(&format!("{seal} envelope"));
    let before = folder.read("group");
    let open = "group --state group open --in envelope";
    for line in ["--out - --metadata-out /dev/stdout", "--out /dev/stdout --metadata-out -", "--out - --metadata-out -"]
    {
        assert!(folder.fails(2, &format!("{open} {line}")).contains("to the same output"), "{line}");
    }
    assert!(folder.read("group") == before);
    folder.done(&format!("{open} --out /dev/null --metadata-out /dev/null"));
    let redirected = folder.command_after("exec >into", "group --state group reread --out - --metadata-out into");
    assert_eq!(Run::of(redirected).status, 2);
    fs::remove_file(folder.0.join("into")).unwrap();
    let names = folder.names();
    for line in [
        "office --state - create",
        "office --state - show",
        "group --state - start --group 5 --key key",
        "office --state new/ create",
        "office --state office/ show",
        "keygen --out new/",
        "group --state group reread --out new/",
        "group --state new start --group 5 --key key --restore",
    ] {
        folder.fails(2, line);
    }
    assert_eq!(folder.names(), names);
}

/// What is said holds no control characters, whatever a file is called.
#[test]
fn paths_are_shown_without_control_characters() {
    let folder = Folder::new();
    let name = "red\u{1b}[31m\u{202e}\nline";
    for words in [["office", "show", "--state", name], ["office", "create", "--state", &format!("{name}/x")]] {
        let mut command = folder.command("");
        command.args(words);
        let run = Run::of(command);
        assert_eq!(run.status, 3);
        assert!(run.said.contains("red\\u{1b}[31m\\u{202e}\\nline"), "{}", run.said);
        assert_eq!(run.said.chars().filter(|letter| letter.is_control()).count(), 1, "{}", run.said);
    }
}

/// An output whose name is not known to be on the disk is there all the same.
#[test]
fn an_output_that_was_not_confirmed_is_said_to_be_there() {
    let folder = Folder::new();
    let log = folder.run_with("log", "keygen --out key").said;
    let step = 1 + log.lines().position(|line| line.ends_with("sync the output's folder")).unwrap();
    let run = folder.run_with(&format!("fail@{step}"), "keygen --out other");
    assert_eq!(run.status, 4);
    assert!(run.said.contains("other is there and whole, but the disk did not confirm its name: "), "{}", run.said);
    assert_eq!(folder.read("other").unwrap().len(), 32);
}

#[test]
fn keys_that_others_may_read_are_refused() {
    let folder = Folder::pair(5);
    for mode in [0o640, 0o604, 0o622, 0o644] {
        fs::set_permissions(folder.0.join("key"), Permissions::from_mode(mode)).unwrap();
        for line in [
            "office --state office open-group --group 6 --key key",
            "group --state g start --group 6 --key key",
            "sane --state g start --group 6 --key key --counter 1",
        ] {
            let said = folder.fails(4, line);
            assert_eq!(said, "pevghazo: Others may read or write the key file key: take that away with chmod 600.\n");
        }
    }
    folder.write("key", b"another key of a group");
    fs::set_permissions(folder.0.join("key"), Permissions::from_mode(0o400)).unwrap();
    folder.done("office --state office open-group --group 6 --key key");
}

/// Everything that is written is closed to others, whatever the process's own mask says.
#[test]
fn outputs_are_closed_to_others() {
    let folder = Folder::pair(5);
    folder.write("text", b"20001");
    let seal = "office --state office seal --group 5 --message text --out in";
    assert_eq!(Run::of(folder.command_after("umask 0", seal)).status, 0);
    let open = "group --state group open --in in --out out --metadata-out metadata";
    assert_eq!(Run::of(folder.command_after("umask 0", open)).status, 0);
    for name in folder.names() {
        let mode = fs::metadata(folder.0.join(&name)).unwrap().permissions().mode() & 0o777;
        assert_eq!(mode, 0o600, "{name}");
    }
}

#[test]
fn outputs_that_are_no_files_are_written_to_directly() {
    let folder = Folder::pair(5);
    folder.write("text", b"20001");
    folder.done("office --state office seal --group 5 --message text --out in");
    assert_eq!(folder.done("office --state office resend --group 5 --out /dev/null"), "");
    assert!(fs::metadata("/dev/null").is_ok_and(|metadata| !metadata.is_file()));
    let run = folder.run("office --state office resend --group 5 --out /dev/stdout");
    assert_eq!((run.status, Some(run.printed)), (0, folder.read("in")), "{}", run.said);
}

/// A file that is there already may be the output of a run that was killed at its very end.
#[test]
fn outputs_take_no_place_of_a_file() {
    let folder = Folder::pair(5);
    folder.write("text", b"20001");
    let seal = "office --state office seal --group 5 --message text --out in";
    folder.done(seal);
    let (state, envelope) = (folder.read("office"), folder.read("in"));
    assert!(folder.fails(4, seal).contains("There is a file "));
    assert!(folder.read("office") == state && folder.read("in") == envelope);
    // Handing out again into a file that has it already is fine; into another file it is not.
    folder.done("office --state office resend --group 5 --out in");
    folder.fails(4, "office --state office resend --group 5 --out text");
    let open = "group --state group open --in in --out out --metadata-out metadata";
    folder.write("metadata", b"other");
    let state = folder.read("group");
    folder.fails(4, open);
    assert!(folder.read("group") == state && folder.read("out").is_none());
    folder.done_anew(open);
    folder.fails(4, open);
    folder.done("group --state group reread --out out --metadata-out metadata");
    assert_eq!((folder.read("out"), folder.read("metadata")), (folder.read("text"), Some(Vec::new())));
}
