//! Starts of old sessions, what is shown of them, sealing in them, and their state files among those of other kinds. The expected tags are
//! those of the independent implementation.

mod common;

use std::ffi::OsStr;
use std::fs;

use common::letters::{KEY, OldBox, START, trial};
use common::sane::{shown, text};
use common::{Folder, PLACE, Run, SESSION};
use pevghazo_reference::session::Session;

/// A folder with the key of the old session.
fn with_key() -> Folder {
    let folder = Folder::new();
    folder.write("old-key", KEY);
    folder
}

/// The tag of the start with this nonce, as it is printed.
fn tag_of(nonce: &[u8]) -> String {
    format!("tag {}\n", shown(&trial(KEY, nonce).1))
}

/// Nothing is sealed, so that key and nonce may be used as often as is wanted: in other state files, and in this one.
#[test]
fn an_old_session_is_read_again_from_its_start() {
    let folder = with_key();
    let tag = tag_of(&41u64.to_le_bytes());
    for line in ["old", "other", "old --replace", "other --replace", "old --replace"] {
        assert_eq!(folder.done(&format!("{START} {line}")), tag);
    }
    for counter in [0, 40, 42, u64::MAX] {
        let start = format!("sae start --state old --group 5 --key old-key --counter {counter} --replace");
        assert_eq!(folder.done(&start), tag_of(&counter.to_le_bytes()));
    }
    let said = folder.fails(3, &format!("{START} old"));
    assert!(said.ends_with(" already. `--replace` starts the next session in it.\n"), "{said}");
    // In the place of a lost one too.
    fs::remove_file(folder.0.join("old")).unwrap();
    assert_eq!(folder.done(&format!("{START} old")), tag);
}

/// The letters that were opened are known by fingerprints under a key that comes from the session's own, which nobody else has: the tag of a fixed
/// text, of the independent implementation.
#[test]
fn the_key_of_the_fingerprints_comes_from_the_session_s() {
    let folder = with_key();
    folder.done(&format!("{START} old"));
    let mut tag = [0; 32];
    let mut session = Session::start(KEY).unwrap();
    session.wrap(b"pevghazo: the fingerprints of letters", b"", &mut [], &mut tag).unwrap();
    assert!(folder.read("old").unwrap().windows(tag.len()).any(|bytes| bytes == tag));
}

#[test]
fn nonces_of_files() {
    let folder = with_key();
    for length in [0, 1, 7, 8, 47, 48, 16_384] {
        let nonce = text(length, length);
        folder.write("nonce", &nonce);
        let state = format!("state-{length}");
        let start = format!("sae start --state {state} --group 5 --key old-key --nonce nonce");
        assert_eq!(folder.done(&start), tag_of(&nonce));
        let said = folder.done(&format!("sae show --state {state}"));
        let counter = if length == 8 { "counter " } else { "nonce of a file, tag " };
        assert!(said.contains(&format!("\nmode SAE, {counter}")), "{said}");
    }
    folder.write("nonce", &text(1, 16_385));
    folder.fails(16, "sae start --state new --group 5 --key old-key --nonce nonce");
    assert_eq!(folder.read("new"), None);
}

#[test]
fn starts_that_are_refused() {
    let folder = with_key();
    folder.write("nonce", b"a nonce");
    folder.done(&format!("{START} old"));
    let (names, state) = (folder.names(), folder.read("old"));
    folder.fails(13, "sae start --state new --group 32 --key old-key --counter 41");
    for length in [0, 15, 48] {
        folder.write("bad-key", &vec![7; length]);
        folder.fails(14, "sae start --state new --group 5 --key bad-key --counter 41");
        folder.fails(14, "sae start --state old --group 5 --key bad-key --counter 41 --replace");
        fs::remove_file(folder.0.join("bad-key")).unwrap();
    }
    let said = folder.fails(6, "sae start --state old --group 6 --key old-key --counter 41 --replace");
    assert_eq!(said, "pevghazo: This is for group 6, and the state file is that of group 5.\n");
    for nonce in ["", " --counter 41 --nonce nonce"] {
        let said = folder.fails(2, &format!("sae start --state new --group 5 --key old-key{nonce}"));
        assert_eq!(said, "pevghazo: One of --counter and --nonce is needed, and not both.\n");
    }
    folder.fails(2, &format!("{START} new --restore"));
    folder.fails(2, &format!("{START} new --reuse-key"));
    let run = Run::of(folder.command_after("exec >&-", &format!("{START} new")));
    assert_eq!(run.status, 4, "{}", run.said);
    assert!(folder.names() == names && folder.read("old") == state);
}

/// The tag that was noted with the letters shows that key and nonce are right.
#[test]
fn the_noted_tag_is_compared_before_anything_is_started() {
    let folder = with_key();
    let start = |tag: &str| {
        let mut command = folder.command(&format!("{START} old"));
        command.arg("--expect").arg(OsStr::new(tag));
        Run::of(command)
    };
    let [right, wrong] = [41u64, 42].map(|counter| shown(&trial(KEY, &counter.to_le_bytes()).1));
    let names = folder.names();
    let run = start(&wrong);
    let sentence = "pevghazo: This is not the tag of a start with this key and this nonce: one of them is not that of the old session, or its \
                    tag was not typed as it was noted. Nothing was started.\n";
    assert_eq!((run.status, &run.printed[..], run.said.as_str()), (9, &b"mismatch\n"[..], sentence));
    assert_eq!(start("no tag").status, 2);
    assert_eq!(folder.names(), names);
    let run = start(&right.to_uppercase());
    assert_eq!((run.status, run.printed), (0, format!("tag {right}\n").into_bytes()), "{}", run.said);
    // A tag that could not be printed is shown.
    let run = Run::of(folder.command_after("exec >/dev/full", &format!("{START} other")));
    assert_eq!(run.status, 4);
    let sentence = " The tag is kept in the state file: hand it out with `pevghazo sae show --state other`.\n";
    assert!(run.said.ends_with(sentence), "{}", run.said);
    assert!(folder.done("sae show --state other").ends_with(&format!("\nmode SAE, counter 41, tag {right}\n")));
}

#[test]
fn what_is_shown() {
    let old = OldBox::of_four();
    let tag = shown(&trial(KEY, &41u64.to_le_bytes()).1);
    let show = |letters: usize, index: u32, commit: usize| {
        let people = old.folder.done("sae show --state old");
        assert_eq!(
            people,
            format!("group  5: open, index {index:7}, letters opened {letters}\nmode SAE, counter 41, tag {tag}\n")
        );
        let scripts = old.folder.done("sae show --state old --json");
        let session = format!("\"group\":5,\"open\":true,\"index\":{index},\"letters\":{letters}");
        let start = format!("\"mode\":\"sae\",\"counter\":41,\"tag\":\"{tag}\"");
        assert_eq!(scripts, format!("{{\"commit\":{commit},{start},{session}}}\n"));
    };
    show(0, 2, 1);
    // Each letter is a commit. The first one has two strings of a block each.
    old.opens("1");
    show(1, 6, 2);
    old.opens("1 2 3 4");
    show(4, old.session.index, 5);
    old.folder.write("nonce", b"a nonce");
    old.folder.done("sae start --state old --group 5 --key old-key --nonce nonce --replace");
    assert!(old.folder.done("sae show --state old --json").contains("\"mode\":\"sae\",\"counter\":null,"));
}

/// Number 18, by the library, whatever is to be sealed and whether the session is open: nothing is read, written or altered.
#[test]
fn nothing_is_sealed_in_an_old_session() {
    let old = OldBox::of_four();
    let folder = &old.folder;
    folder.write("text", b"20001");
    folder.write("long", &[7; 16_385]);
    let sentence = "pevghazo: Refused, number 18: Old letters, those of the first version (letter F), are only opened: none is sealed any \
                    more. Today `pevghazo group seal`, `pevghazo office seal` and `pevghazo sane seal` seal messages.\n";
    let refused = || {
        let state = folder.read("old");
        for options in [
            "",
            " --message text --out envelope",
            " --message text --metadata-text size --out -",
            " --message long --metadata long --out envelope",
            " --message none --metadata none --out none/none",
        ] {
            assert_eq!(folder.fails(28, &format!("sae seal --state old{options}")), sentence, "{options}");
        }
        assert!(folder.read("old") == state && folder.read("envelope").is_none());
    };
    refused();
    old.opens("1 2");
    refused();
    folder.forge("old", PLACE + 96, &u32::to_le_bytes(1_048_576));
    refused();
    folder.forge("old", PLACE, &[0; SESSION]);
    refused();
    folder.fails(2, "sae seal --message text --out envelope");
    folder.fails(3, "sae seal --state none --message text --out envelope");
}

/// State files of one kind are not taken for another, by whichever command.
#[test]
fn state_files_of_other_kinds() {
    let folder = Folder::pair(5);
    folder.write("old-key", KEY);
    folder.write("text", b"20001");
    fs::create_dir(folder.0.join("out")).unwrap();
    folder.done(&format!("{START} old"));
    folder.done("sane start --group 5 --key key --state sane --counter 1");
    folder.done("pool create --state pool");
    let names = ["office", "group", "sane", "pool", "old"];
    let before = names.map(|name| folder.read(name));
    for (state, is) in
        [("office", "the office's"), ("group", "a group's"), ("sane", "a SANE session's"), ("pool", "a pool's")]
    {
        for line in ["show", "open text --out-dir out", "seal", "start --group 5 --key old-key --counter 41 --replace"]
        {
            let said = folder.fails(3, &format!("sae {line} --state {state}"));
            assert!(said.ends_with(&format!(" cannot be used: it is {is} and not that of old letters.\n")), "{said}");
        }
        let group = if state == "office" { " --group 5" } else { "" };
        let line =
            if state == "pool" { "show".to_string() } else { format!("seal --message text --out sealed{group}") };
        let said = folder.fails(3, &format!("{state} {line} --state old"));
        assert!(said.ends_with(&format!(" cannot be used: it is that of old letters and not {is}.\n")), "{said}");
    }
    assert!(names.map(|name| folder.read(name)) == before && folder.read("sealed").is_none());
}

/// An older copy is told as such; with `--restore`, what was opened since is opened again, to the same files.
#[test]
fn a_state_file_that_was_copied_back() {
    let old = OldBox::of_four();
    old.opens("1");
    let copy = old.folder.read("old").unwrap();
    old.opens("2 3");
    old.folder.write("old", &copy);
    for line in ["sae show --state old", "sae open 1 2 3 4 --state old --out-dir out", "sae seal --state old"] {
        let said = old.folder.fails(8, line);
        let sentence = " The letters that were opened since are not known in it. `--restore` takes it all the same: then they are opened \
                        again, in their order.\n";
        assert!(said.contains(" is an older copy: ") && said.ends_with(sentence), "{said}");
    }
    assert_eq!(old.open("4 --restore").status, 21);
    let report = old.opens("1 2 3 4 --restore");
    assert!(report.ends_with("\nopened 3, opened before 1, not opened 0, not tried 0 of 4 letters\n"), "{report}");
    old.holds("1 2 3 4");
}

/// Two programs open one box at the same time: each letter is opened by one of them, and the other one knows it.
#[test]
fn two_programs_open_one_box() {
    for _ in 0..4 {
        let old = OldBox::of_four();
        let line = "sae open 1 2 3 4 --state old --out-dir out --format csv --wait 60";
        let children = [(); 2].map(|()| old.folder.command(line).spawn().unwrap());
        let mut opened = [0; 2];
        for (place, child) in children.into_iter().enumerate() {
            let run = Run::from(child.wait_with_output().unwrap());
            assert_eq!(run.status, 0, "{}", run.said);
            opened[place] = String::from_utf8(run.printed).unwrap().matches(",opened,").count();
        }
        opened.sort();
        assert_eq!(opened, [0, 4]);
        old.holds("1 2 3 4");
    }
}
