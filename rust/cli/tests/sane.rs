//! Sessions in SANE, at both ends. The expected tags and envelopes are those of the vectors and of the independent implementation.

mod common;

use std::fs;

use common::envelopes::sealed;
use common::sane::{ENDS, START, pair, reference, shown, tag_of, text, with_keys};
use common::vectors::Vector;
use common::{Folder, PLACE, SESSION};
use pevghazo_reference::envelope;
use pevghazo_reference::session::SaneSession;

/// Every envelope is the one that the independent implementation makes, and both ends go on as it does.
#[test]
fn a_season_at_both_ends() {
    let folder = with_keys();
    let (mut other, tag) = reference(&folder.read("key").unwrap(), &41u64.to_le_bytes());
    for end in ENDS {
        assert_eq!(folder.done(&format!("{START} {end} --counter 41")), format!("tag {}\n", shown(&tag)));
    }
    let lengths = [0, 1, 31, 32, 33, 47, 48, 49, 500, 16_384];
    for (turn, m) in lengths.into_iter().enumerate() {
        for a in [0, 20, 48, 16_384] {
            let (metadata, message) = (text(turn, a), text(turn + a, m));
            folder.write("metadata", &metadata);
            folder.write("message", &message);
            let (from, to) = if turn % 3 == 1 { (ENDS[1], ENDS[0]) } else { (ENDS[0], ENDS[1]) };
            let seal = format!("sane seal --state {from} --metadata metadata --message message --out envelope");
            assert_eq!(folder.done_anew(&seal), "");
            assert_eq!(folder.read("envelope").unwrap(), sealed(&mut other, 5, &metadata, &message), "{a} {m}");
            let open = format!("sane open --state {to} --in envelope --out opened --metadata-out opened-metadata");
            assert_eq!(folder.done_anew(&open), "");
            assert_eq!((folder.read("opened"), folder.read("opened-metadata")), (Some(message), Some(metadata)));
        }
        let state = format!("open, index {:7}, toggle {}, ", other.index, u8::from(other.toggle));
        for end in ENDS {
            let said = folder.done(&format!("sane show --state {end}"));
            assert!(said.starts_with(&format!("group  5: {state}")), "{said}");
            assert!(said.ends_with(&format!("\nmode SANE, counter 41, tag {}\n", shown(&tag))), "{said}");
        }
    }
    folder.fails(5, "sane resend --state group --out again");
    folder.done("sane resend --state office --out again");
    assert_eq!(folder.read("again"), folder.read("envelope"));
}

impl Vector {
    /// The state file of an end.
    fn state(&self, end: &str) -> String {
        format!("{}-{end}", self.word("session"))
    }

    /// Both ends start, with the nonce as a file. Gives the independent implementation's session.
    fn start(&self, folder: &Folder) -> SaneSession {
        folder.write("key", &self.bytes("key"));
        folder.write("nonce", &self.bytes("nonce"));
        for state in ["a", "b"].map(|end| self.state(end)) {
            let said = folder.done(&format!("{START} {state} --nonce nonce"));
            assert_eq!(said, format!("tag {}\n", shown(&self.bytes("T"))));
        }
        reference(&self.bytes("key"), &self.bytes("nonce")).0
    }

    /// The other end, which opens: the vectors' own envelope has no header under its tag and is refused; the one with it opens.
    fn opens(&self, folder: &Folder) {
        let state = self.state(if self.word("end") == "a" { "b" } else { "a" });
        let (before, open) = (folder.read(&state), format!("sane open --state {state} --out opened --in"));
        let _ = fs::remove_file(folder.0.join("opened"));
        folder.write("without", &self.envelope('N'));
        folder.fails(21, &format!("{open} without"));
        assert!(folder.read(&state) == before && folder.read("opened").is_none(), "{}", self.0);
        folder.done(&format!("{open} envelope"));
        assert_eq!(folder.read("opened").unwrap(), self.bytes("M"), "{}", self.0);
    }

    /// An end seals what the vectors wrap, as the independent implementation does, and the other end opens it.
    fn wrap(&self, folder: &Folder, session: &mut SaneSession) {
        let [metadata, message] = ["A", "M"].map(|name| self.bytes(name));
        folder.write("metadata", &metadata);
        folder.write("message", &message);
        let state = self.state(self.word("end"));
        let line = format!("sane seal --state {state} --metadata metadata --message message --out envelope");
        folder.done_anew(&line);
        assert_eq!(folder.read("envelope").unwrap(), sealed(session, 5, &metadata, &message), "{}", self.0);
        self.opens(folder);
        for state in ["a", "b"].map(|end| self.state(end)) {
            let said = folder.done(&format!("sane show --state {state} --json"));
            let (index, toggle) = (session.index, u8::from(session.toggle));
            assert!(said.contains(&format!("\"index\":{index},\"toggle\":{toggle},")), "{said}");
        }
    }
}

/// The sessions of the vectors, with a state file for each end of each. The vectors' calls are without an envelope: starts have their
/// tags, and their messages travel in envelopes of the independent implementation.
#[test]
fn the_vectors_at_both_ends() {
    let folder = Folder::new();
    let text = include_str!("../../../vectors/sane.txt");
    let (mut made, mut session) = ([0; 2], None);
    for vector in Vector::all(text) {
        match (vector.word("op"), &mut session) {
            ("start", _) => {
                session = Some(vector.start(&folder));
                made[0] += 1;
            }
            ("wrap", Some(session)) => {
                vector.wrap(&folder, session);
                made[1] += 1;
            }
            (op, _) => assert_eq!(op, "unwrap"),
        }
    }
    assert!(made[0] > 5 && made[1] > 20, "{made:?}");
}

/// The command fails, and the state files stay.
fn fails(folder: &Folder, status: i32, line: &str) -> String {
    let before = ENDS.map(|end| folder.read(end));
    let said = folder.fails(status, line);
    assert!(ENDS.map(|end| folder.read(end)) == before, "{line}");
    assert_eq!(folder.read("out"), None, "{line}");
    said
}

#[test]
fn refusals_by_their_numbers() {
    let folder = pair();
    folder.write("long", &[7; 16_385]);
    let open = "sane open --state group --in in --out out";
    let arrives = |bytes: &[u8]| folder.write("in", bytes);
    for header in ["", "N", "N,5,0,0", "n,5,0,0,", "A,5,0,0,", "N,05,0,0,", "N,32,0,0,", "N,5,0,16385,"] {
        arrives(&[header.as_bytes(), &[b' '; 40][..40 * header.len().min(1)]].concat());
        fails(&folder, 11, open);
    }
    for (header, bytes) in [("N,5,0,0,", 16), ("N,5,20,48,", 84), ("N,5,0,16384,", 16_400)] {
        arrives(&[header.as_bytes(), &vec![0; bytes - 1]].concat());
        fails(&folder, 12, open);
        // With one more byte it is whole, and its tag is wrong.
        arrives(&[header.as_bytes(), &vec![0; bytes]].concat());
        fails(&folder, 21, open);
    }
    fails(&folder, 13, "sane start --group 32 --key key --counter 1 --state new");
    for length in [0, 15, 48] {
        folder.write("bad-key", &vec![7; length]);
        fails(&folder, 14, "sane start --group 5 --key bad-key --counter 1 --state new");
    }
    assert_eq!(folder.read("new"), None);
    for line in ["--message long", "--message text --metadata long"] {
        fails(&folder, 16, &format!("sane seal --state office {line} --out out"));
    }
    // The index is after the accumulator and the mask of the session.
    folder.forge("office", PLACE + 96, &u32::to_le_bytes(1_048_575));
    let said = fails(&folder, 19, "sane seal --state office --message text --out out");
    let sentence = "The session is full: start a new one with a new key, or in SANE with a new nonce; of old letters (letter F) no more can \
                    be opened in it.";
    assert_eq!(said, format!("pevghazo: Refused, number 9: {sentence}\n"));
    folder.forge("office", PLACE, &[0; SESSION]);
    fails(&folder, 15, "sane seal --state office --message text --out out");
    assert!(folder.done("sane show --state office").starts_with("group  5: closed, index       0,"));
    folder.done(&format!("{START} office --counter 2 --replace"));
}

#[test]
fn arrivals_that_are_not_the_next_of_the_session() {
    let folder = pair();
    folder.done("sane seal --state office --message text --metadata-text size --out whole");
    let whole = folder.read("whole").unwrap();
    let open = "sane open --state group --out out --in";
    let sentence = "pevghazo: Refused, number 11: The tag is wrong: the arrival is damaged, repeated, out of order or not meant \
                    for this session. Or both ends have sealed at once: then neither envelope can be opened, whoever sees both \
                    learns how their messages differ, and the session is replaced under another nonce. Or a version before 0.8 has \
                    sealed it: only such a version opens it.\n";
    for place in [9, 14, 30, whole.len() - 1] {
        let mut damaged = whole.clone();
        damaged[place] ^= 0x10;
        folder.write("in", &damaged);
        assert_eq!(fails(&folder, 21, &format!("{open} in")), sentence);
    }
    fails(&folder, 21, "sane open --state office --out out --in whole");
    folder.done("sane open --state group --out opened --in whole");
    assert_eq!(folder.read("opened"), folder.read("text"));
    fails(&folder, 21, &format!("{open} whole"));
    // An envelope of a session with another nonce.
    folder.done(&format!("{START} new --counter 2"));
    folder.done("sane seal --state new --message text --out strange");
    fails(&folder, 21, &format!("{open} strange"));
}

#[test]
fn an_envelope_of_the_other_mode_or_of_another_group() {
    let folder = Folder::pair(5);
    folder.write("text", b"20001 to 20100");
    folder.write("sane-key", b"the key of group 5 for SANE");
    folder.done("sane start --group 5 --key sane-key --state sane --counter 1");
    folder.done("sane start --group 6 --key sane-key --state sane-6 --counter 1");
    folder.done("office seal --state office --group 5 --message text --out S");
    folder.done("sane seal --state sane --message text --out N");
    folder.done("sane seal --state sane-6 --message text --out N6");
    let states = || ["office", "group", "sane", "sane-6"].map(|name| folder.read(name));
    let before = states();
    for end in ["office", "group"] {
        let said = folder.fails(6, &format!("{end} open --state {end} --in N --out out"));
        let sentence =
            "This envelope has the letter N: it is that of a session in SANE, and `pevghazo sane open` is for it.";
        assert_eq!(said, format!("pevghazo: {sentence}\n"));
    }
    let said = folder.fails(6, "sane open --state sane --in S --out out");
    let sentence = "This envelope has the letter S: it is that of a session in SANSE, and `pevghazo group open`, or `pevghazo office \
                    open`, is for it.";
    assert_eq!(said, format!("pevghazo: {sentence}\n"));
    let said = folder.fails(6, "sane open --state sane --in N6 --out out");
    assert_eq!(said, "pevghazo: This is for group 6, and the state file is that of group 5.\n");
    assert!(states() == before && folder.read("out").is_none());
    // The letter is under the tag; and the tag's length goes by it.
    let relettered =
        |name: &str, letter: &[u8]| folder.write("in", &[letter, &folder.read(name).unwrap()[1..]].concat());
    relettered("S", b"N");
    folder.fails(21, "sane open --state sane --in in --out out");
    relettered("N", b"S");
    folder.fails(12, "group open --state group --in in --out out");
    assert!(states() == before && folder.read("out").is_none());
}

#[test]
fn state_files_of_one_kind_are_not_taken_for_another() {
    let folder = Folder::pair(5);
    folder.write("text", b"20001");
    folder.done("sane start --group 5 --key key --state sane --counter 1");
    let before = folder.read("sane");
    let names = [("office", "the office's"), ("group", "a group's"), ("sane", "a SANE session's")];
    for (end, not) in names {
        for (state, is) in names.into_iter().filter(|(state, _)| *state != end) {
            let group = if end == "office" { " --group 5" } else { "" };
            for line in ["show".to_string(), format!("seal --message text --out out{group}")] {
                let said = folder.fails(3, &format!("{end} --state {state} {line}"));
                assert!(said.ends_with(&format!(" cannot be used: it is {is} and not {not}.\n")), "{said}");
            }
        }
    }
    folder.fails(3, "sane start --group 5 --key key --state group --counter 2 --replace");
    folder.fails(3, "group start --group 5 --key key --state sane --replace --reuse-key");
    assert!(folder.read("sane") == before && folder.read("out").is_none());
}

#[test]
fn resend_reread_and_forget() {
    let folder = pair();
    let message = b"20001 to 20100";
    let holds = |end: &str| folder.read(end).unwrap().windows(message.len()).any(|window| window == message);
    folder.run("sane seal --state office --message text --metadata-text size --out /dev/full");
    for line in ["sane seal --state office --message text --out out", "sane forget --state office --envelope"] {
        let said = folder.fails(5, line);
        assert!(said.contains("`pevghazo sane resend --state office --out FILE`"), "{said}");
    }
    folder.done("sane resend --state office --out envelope");
    folder.run("sane open --state group --in envelope --out /dev/full");
    for line in ["sane open --state group --in envelope --out out", "sane forget --state group"] {
        let said = folder.fails(5, line);
        assert!(said.contains("`pevghazo sane reread --state group --out FILE`"), "{said}");
    }
    folder.done("sane reread --state group --out opened --metadata-out metadata");
    assert_eq!((folder.read("opened"), folder.read("metadata")), (folder.read("text"), Some(b"size".to_vec())));
    assert!(holds("group"));
    folder.done("sane forget --state group");
    assert!(!holds("group"));
    folder.fails(5, "sane reread --state group --out again");
    folder.done("sane resend --state office --out again");
    folder.done("sane forget --state office --envelope");
    folder.fails(5, "sane resend --state office --out more");
    // The session goes on.
    folder.done_anew("sane seal --state group --message text --out envelope");
    folder.done_anew("sane open --state office --in envelope --out opened");
    assert_eq!(folder.read("opened"), folder.read("text"));
}

#[test]
fn show_for_scripts() {
    let folder = pair();
    let tag = tag_of(&folder, "key", 1);
    let object = |commit: u32, index: u32, toggle: u32, envelope: &str, message: &str| {
        format!(
            "{{\"commit\":{commit},\"keys\":1,\"mode\":\"sane\",\"counter\":1,\"tag\":\"{tag}\",\"group\":5,\"open\":true,\
             \"index\":{index},\"toggle\":{toggle},\"envelope\":\"{envelope}\",\"message\":\"{message}\"}}\n"
        )
    };
    let show = "sane show --json --state";
    assert_eq!(folder.done(&format!("{show} office")), object(1, 2, 0, "none", "none"));
    folder.run("sane seal --state office --message text --out /dev/full");
    // The nonce takes 2 of the index, the header 2 and the message 2.
    assert_eq!(folder.done(&format!("{show} office")), object(2, 6, 1, "waiting", "none"));
    folder.done("sane resend --state office --out envelope");
    folder.done("sane open --state group --in envelope --out opened");
    assert_eq!(folder.done(&format!("{show} office")), object(3, 6, 1, "handed-out", "none"));
    assert_eq!(folder.done(&format!("{show} group")), object(3, 6, 1, "none", "handed-out"));
}

/// The sum of two runs of bytes.
fn sum(one: &[u8], other: &[u8]) -> Vec<u8> {
    one.iter().zip(other).map(|(one, other)| one ^ other).collect()
}

/// What the manual warns of: whoever has both envelopes has the sum of the messages.
#[test]
fn what_shares_keystream_and_what_does_not() {
    let folder = pair();
    let messages: [&[u8]; 2] = [b"20001 to 20100, and 7", b"30001 to 39999, not 8"];
    let cryptogram = |name: &str| {
        let bytes = folder.read(name).unwrap();
        envelope::read(&bytes).unwrap().cryptogram.to_vec()
    };
    let seal = |state: &str, message: &[u8], out: &str, more: &str| {
        folder.write("message", message);
        folder.done(&format!("sane seal --state {state} --message message --out {out}{more}"));
        cryptogram(out)
    };
    let copy = folder.read("office").unwrap();
    let first = seal("office", messages[0], "one", "");
    // Both ends at once.
    assert_eq!(sum(&first, &seal("group", messages[1], "two", "")), sum(messages[0], messages[1]));
    folder.fails(21, "sane open --state group --in one --out out");
    folder.fails(21, "sane open --state office --in two --out out");
    // From an older copy: refused, and this is why.
    folder.write("office", &copy);
    let said = folder.fails(8, "sane seal --state office --message message --out three");
    assert!(said.contains(" is an older copy: ") && said.contains(" in SANE also shares its keystream"), "{said}");
    assert_eq!(sum(&first, &seal("office", messages[1], "three", " --restore")), sum(messages[0], messages[1]));
    // Another counter has another keystream.
    folder.done(&format!("{START} office --counter 2 --replace"));
    assert_ne!(sum(&first, &seal("office", messages[1], "four", "")), sum(messages[0], messages[1]));
}
