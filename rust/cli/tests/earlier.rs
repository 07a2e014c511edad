//! State files that earlier programs wrote: they are read, go on, and are written in the newest version. `data/README.md` says how the
//! files of version 2 were made, by the program of that version. `moving.rs` has the envelopes of earlier programs.

mod common;

use std::fs;

use common::envelopes::{count, opened, opened_before, sealed};
use common::{Folder, SESSION};
use pevghazo_reference::session::Session;

const SHOWS: &str = "office --state office show --json";
const OPENS: &str = "office --state office open --in from-4 --out opened --metadata-out metadata";
const SEALS: &str = "office --state office seal --group 4 --message text --metadata-text more --out to-4";

/// What all groups together had spent on the day of the file of version 2, and its allowance: both stand in `data/README.md`.
const SPENT: u32 = 16;
const ALLOWANCE: u32 = 100;

/// A folder with the files of version 2.
fn of_version_2() -> Folder {
    let folder = Folder::of("office-2");
    folder.write("text", b"S 20101 to S 20200");
    folder
}

/// The same, once the earlier program has opened the envelope of group 4 that was under way. In version 2 no counts stand between the office's
/// sessions.
fn of_version_2_opened() -> Folder {
    let folder = of_version_2();
    assert_eq!(opened_before(&folder, "office", 8 + 4 * SESSION, "from-4"), b"S 20088 to S 20100");
    assert_eq!(start(&folder, "office"), b"office-2");
    fs::remove_file(folder.0.join("office.lock")).unwrap();
    folder
}

/// How the state in a state file starts: after the file's own start, its version, the commit's number and the length.
fn start(folder: &Folder, name: &str) -> Vec<u8> {
    folder.read(name).unwrap()[16 + 4 + 8 + 8..][..8].to_vec()
}

/// The line of a group in what the office shows, up to its session.
fn line(group: u32, count: u32) -> String {
    format!("\ngroup {group:2}: count {count:3}, left {:3}, ", ALLOWANCE - count)
}

/// What the JSON of the office has at the end of a group's object.
fn counted(count: u32) -> String {
    format!("\"count\":{count},\"left\":{}}}", ALLOWANCE - count)
}

/// The session of group 4, by the independent implementation, as it stands at the group. Its messages have no header under their tags.
fn group_4(folder: &Folder) -> Session {
    let mut session = Session::start(&folder.read("key-4").unwrap()).unwrap();
    for (metadata, message) in [(&b"rings"[..], b"S 20001 to S 20100"), (b"unused", b"S 20088 to S 20100")] {
        session.wrap(metadata, message, &mut [0; 18], &mut [0; 32]).unwrap();
    }
    session
}

/// Looking at the file alters nothing, and each group has the old day's count, whether it is open or closed.
#[test]
fn every_group_has_the_old_count_of_the_day() {
    let folder = of_version_2();
    let before = folder.read("office");
    assert_eq!(start(&folder, "office"), b"office-2");
    let shown = folder.done("office --state office show");
    assert!(shown.starts_with(&format!("day: allowance {ALLOWANCE} for each group\ngroup  0: ")), "{shown}");
    assert!(shown.ends_with("\nclosed: 30 of 32 groups\n"), "{shown}");
    assert_eq!(shown.lines().count(), 34, "{shown}");
    for group in 0..32 {
        let session = match group {
            4 => "index       4, toggle 1, last envelope handed out, last message none\n",
            9 => "index       4, toggle 1, last envelope WAITING, last message none\n",
            _ => "closed\n",
        };
        assert!(shown.contains(&(line(group, SPENT) + session)), "{group}: {shown}");
    }
    let shown = folder.done(SHOWS);
    assert!(
        shown.starts_with(&format!("{{\"commit\":7,\"keys\":2,\"allowance\":{ALLOWANCE},\"groups\":[{{")),
        "{shown}"
    );
    assert_eq!(shown.matches(&counted(SPENT)).count(), 32, "{shown}");
    assert_eq!(shown.matches("\"open\":true,\"index\":4,\"toggle\":1,").count(), 2, "{shown}");
    assert_eq!(shown.matches("\"open\":false,\"index\":0,\"toggle\":0,").count(), 30, "{shown}");
    assert_eq!(folder.done("office --state office nearly-full --mark 4"), "none\n");
    assert_eq!(folder.done("office --state office nearly-full --mark 3"), "4\n");
    assert_eq!(folder.done("office --state office nearly-full --mark 3 --all"), "4\n9\n");
    folder.done("office --state office codes --group 4 --packets 0-3");
    assert!(folder.read("office") == before);
}

/// The sessions go on at both ends, with a count for each group, and the next commit writes the newest version.
#[test]
fn a_state_file_of_version_2_goes_on() {
    let folder = of_version_2_opened();
    let mut session = group_4(&folder);
    // A new envelope is the next of the old session, at the group and for the independent implementation.
    folder.done(SEALS);
    assert_eq!(start(&folder, "office"), b"office-3");
    let text = folder.read("text").unwrap();
    assert_eq!(folder.read("to-4").unwrap(), sealed(&mut session, 4, b"more", &text));
    let mut spent = SPENT + count(4, 4, 18);
    let shown = folder.done(SHOWS);
    assert_eq!((shown.matches(&counted(SPENT)).count(), shown.matches(&counted(spent)).count()), (31, 1), "{shown}");
    assert!(shown.contains(&format!("\"group\":4,\"open\":true,\"index\":{},", session.index)), "{shown}");
    folder.done_anew("group --state group-4 open --in to-4 --out opened");
    assert_eq!(folder.read("opened"), folder.read("text"));
    // And back.
    folder.done_anew("group --state group-4 seal --message text --metadata-text more --out from-4");
    assert_eq!(folder.read("from-4").unwrap(), sealed(&mut session, 4, b"more", &text));
    assert_eq!(folder.done_anew(OPENS), "group 4\n");
    assert_eq!((folder.read("opened"), folder.read("metadata")), (folder.read("text"), Some(b"more".to_vec())));
    spent += count(4, 4, 18);
    let shown = folder.done("office --state office show");
    assert!(shown.contains(&line(4, spent)) && shown.contains(&line(9, SPENT)), "{shown}");
    // A second reading gives the same.
    let state = folder.read("office");
    assert_eq!(folder.done("office --state office show"), shown);
    assert!(folder.read("office") == state);
    // The keys that were used are still known.
    folder.fails(7, "office --state office open-group --group 9 --key key-9 --replace");
}

/// On the old day a closed group has spent what all had spent together; on the next day all begin at 0.
#[test]
fn the_old_day_ends_with_the_next() {
    let folder = of_version_2();
    folder.write("key-7", b"the secret key of group 7");
    // What is left covers one such message and not two, and the opening of a group counts 1.
    folder.write("long", &[7; 24 * 48]);
    assert_eq!(count(7, 0, 24 * 48), 1 + 25 + 4 + 24);
    folder.done(SEALS);
    folder.done("office --state office open-group --group 7 --key key-7");
    for group in [4, 7] {
        folder.done_anew(&format!("office --state office seal --group {group} --message long --out out"));
        let said = folder.fails(20, &format!("office --state office seal --group {group} --message long --out other"));
        let spent = if group == 4 { SPENT + 7 + 54 } else { SPENT + 1 + 54 };
        assert!(said.contains(&format!(" Group {group} has spent {spent} of 100 permutations ")), "{said}");
    }
    folder.done(&format!("office --state office day --allowance {ALLOWANCE}"));
    let shown = folder.done("office --state office show");
    assert_eq!(shown.lines().count(), 5, "{shown}");
    for group in [4, 7, 9] {
        assert!(shown.contains(&(line(group, 0) + "index ")), "{shown}");
    }
    folder.done_anew("office --state office seal --group 4 --message long --out out");
}

/// Also the commit after a wrong tag writes the newest version, and counts for the group alone.
#[test]
fn a_wrong_tag_counts_in_a_state_file_of_version_2() {
    let folder = of_version_2();
    let mut damaged = folder.read("from-4").unwrap();
    damaged[20] ^= 1;
    folder.write("damaged", &damaged);
    folder.fails(21, "office --state office open --in damaged --out opened");
    assert_eq!(start(&folder, "office"), b"office-3");
    let shown = folder.done(SHOWS);
    assert_eq!(shown.matches(&counted(SPENT)).count(), 31, "{shown}");
    assert!(shown.contains(&format!("{}{}", ",\"message\":\"none\",", counted(SPENT + 7))), "{shown}");
    folder.done(SEALS);
}

/// Disturbed at any step of its first commits, the file is of version 2 or 3, and either goes on.
#[test]
fn a_disturbed_first_commit_leaves_a_file_that_goes_on() {
    let steps =
        of_version_2_opened().run_with("log", SEALS).said.lines().filter(|line| !line.ends_with(": end")).count();
    let mut starts = Vec::new();
    for n in 1..=steps {
        let folder = of_version_2_opened();
        let run = folder.run_with(&format!("abort@{n}"), SEALS);
        assert!(run.signal.is_some(), "{}", run.said);
        starts.push(start(&folder, "office"));
        let old = starts[n - 1] == b"office-2";
        let shown = folder.done(SHOWS);
        assert_eq!(shown.matches(&counted(SPENT)).count(), if old { 32 } else { 31 }, "step {n}: {shown}");
        if old {
            folder.done_anew(SEALS);
        } else {
            folder.done_anew("office --state office resend --group 4 --out to-4");
        }
        assert_eq!(opened(&mut group_4(&folder), &folder.read("to-4").unwrap()), b"S 20101 to S 20200");
    }
    assert!(starts.is_sorted() && starts.contains(&b"office-2".to_vec()) && starts.contains(&b"office-3".to_vec()));
}

/// State files of version 1, made from those of version 2: their keys are not known, and from the next commit on new ones are.
#[test]
fn a_state_file_of_version_1_goes_on() {
    let folder = of_version_2_opened();
    folder.write("second", b"the second key of group 4");
    for (name, version_1, keys) in [("office", b"office-1", 2), ("group-4", b"group--1", 1)] {
        let content = folder.read(name).unwrap();
        // Without the generation, the keys, and the checksum.
        let state = &content[16 + 4 + 8 + 8..content.len() - 8 - (4 + 16 * keys)];
        let mut old = b"pevghazo-state\n\0\x01\0\0\0".to_vec();
        old.extend((state.len() as u64).to_le_bytes());
        old.extend(version_1);
        old.extend(&state[8..]);
        old.extend(crc64(&old).to_le_bytes());
        folder.write(name, &old);
    }
    let shown = folder.done(SHOWS);
    assert!(shown.starts_with("{\"commit\":0,\"keys\":0,"), "{shown}");
    assert_eq!(shown.matches(&counted(SPENT)).count(), 32, "{shown}");
    folder.done("office --state office seal --group 4 --message text --out to-4");
    folder.done_anew("group --state group-4 open --in to-4 --out opened");
    assert_eq!(folder.read("opened"), folder.read("text"));
    folder.done_anew("group --state group-4 seal --message text --out from-4");
    folder.done_anew(OPENS);
    assert_eq!(folder.read("opened"), folder.read("text"));
    assert_eq!([start(&folder, "office"), start(&folder, "group-4")], [b"office-3", b"group--2"]);
    // Two commits for the sealing and two for the opening: the call, and that it was handed out.
    let shown = folder.done(SHOWS);
    assert!(shown.starts_with("{\"commit\":4,\"keys\":0,"), "{shown}");
    assert_eq!(shown.matches(&counted(SPENT)).count(), 31, "{shown}");
    folder.done("office --state office open-group --group 4 --key second --replace");
    folder.fails(7, "office --state office open-group --group 4 --key second --replace");
}

/// A version that is not known yet is not taken for damage.
#[test]
fn a_state_file_of_a_newer_program_is_named() {
    let folder = of_version_2();
    for (name, version) in [("office", 4), ("office", 9), ("group-4", 3)] {
        let digit = b'0' + version;
        folder.forge(name, 7, &[digit]);
        let end = name.split('-').next().unwrap();
        let said = folder.fails(3, &format!("{end} --state {name} show"));
        let sentence =
            format!(" cannot be used: its content has version {version}, which only a newer program reads.\n");
        assert!(said.ends_with(&sentence), "{said}");
    }
    for digit in [b'0', b':', 0, 255] {
        folder.forge("office", 7, &[digit]);
        assert!(folder.fails(3, SHOWS).ends_with(" its content does not follow the format.\n"));
    }
}

/// The CRC-64 of the xz format.
fn crc64(bytes: &[u8]) -> u64 {
    let mut crc = !0u64;
    for byte in bytes {
        crc ^= u64::from(*byte);
        for _ in 0..8 {
            crc = (crc >> 1) ^ (if crc & 1 == 1 { 0xC96C_5795_D787_0F42 } else { 0 });
        }
    }
    !crc
}
