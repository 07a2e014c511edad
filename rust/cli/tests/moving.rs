//! Moving from version 0.7, the last one that did not seal the header: what stands in its state files goes on, and what it sealed is refused, as
//! the manual says in "Moving from an earlier version". `data/README.md` says how its files were made.

mod common;

use common::envelopes::{count, opened_before, sealed, sealed_before};
use common::sane::reference;
use common::{Folder, PLACE, SESSION, place_at_office};
use pevghazo_reference::session::{Mode, Record, Session};

/// The files of version 0.7, and a text to send.
fn of_version_0_7() -> Folder {
    let folder = Folder::of("version-0.7");
    folder.write("text", b"20001 to 20100");
    folder
}

/// The independent implementation's session of a group in SANSE, with the block that version 0.7 delivered.
fn session(folder: &Folder, group: u32) -> Session {
    with_block(Session::start(&folder.read(&format!("key-{group}")).unwrap()).unwrap(), group)
}

/// A session with that block.
fn with_block<M: Mode>(mut session: Record<M>, group: u32) -> Record<M> {
    sealed_before(&mut session, group, b"rings", format!("block of group {group}").as_bytes());
    session
}

/// The two ends seal and open in turn, as the independent implementation does.
fn goes_on<M: Mode>(folder: &Folder, group: u32, mut session: Record<M>, seals: [&str; 2], opens: [&str; 2]) {
    for (turn, from) in [0, 1, 1, 0].into_iter().enumerate() {
        folder.write("message", format!("message {turn} of group {group}").as_bytes());
        folder.done_anew(&format!("{} --message message --metadata-text size --out envelope", seals[from]));
        let message = folder.read("message").unwrap();
        assert_eq!(folder.read("envelope").unwrap(), sealed(&mut session, group, b"size", &message));
        folder.done_anew(&format!("{} --in envelope --out opened", opens[1 - from]));
        assert_eq!(folder.read("opened"), Some(message));
    }
}

/// The same for a group of the office.
fn goes_on_in_sanse(folder: &Folder, group: u32, session: Session) {
    let seals = [format!("office --state office seal --group {group}"), format!("group --state group-{group} seal")];
    let opens = ["office --state office open".to_string(), format!("group --state group-{group} open")];
    goes_on(folder, group, session, [&seals[0], &seals[1]], [&opens[0], &opens[1]]);
}

/// The same for a group with a session in SANE.
fn goes_on_in_sane<M: Mode>(folder: &Folder, group: u32, session: Record<M>) {
    let line = |command: &str| ["office", "group"].map(|end| format!("sane {command} --state {end}-{group}"));
    let (seals, opens) = (line("seal"), line("open"));
    goes_on(folder, group, session, [&seals[0], &seals[1]], [&opens[0], &opens[1]]);
}

/// With nothing under way, sessions go on in both modes, under their keys.
#[test]
fn sessions_with_nothing_under_way_go_on() {
    let folder = of_version_0_7();
    goes_on_in_sanse(&folder, 4, session(&folder, 4));
    let (started, _) = reference(&folder.read("key-19").unwrap(), &1u64.to_le_bytes());
    goes_on_in_sane(&folder, 19, with_block(started, 19));
}

/// The command is refused by number 11, with a word on versions before 0.8 and without an output.
fn refused(folder: &Folder, line: &str) {
    let said = folder.fails(21, &format!("{line} --out out --metadata-out metadata"));
    assert!(said.ends_with(" Or a version before 0.8 has sealed it: only such a version opens it.\n"), "{said}");
    assert!(folder.read("out").is_none() && folder.read("metadata").is_none(), "{line}");
}

/// At a lone session, of either mode, the state file stays as it was.
#[test]
fn an_envelope_of_version_0_7_is_refused_at_a_lone_session() {
    let folder = of_version_0_7();
    for (state, line) in [
        ("group-11", "group --state group-11 open --in to-11"),
        ("office-20", "sane open --state office-20 --in from-20"),
    ] {
        let before = folder.read(state);
        refused(&folder, line);
        assert!(folder.read(state) == before, "{line}");
    }
}

/// At the office the group's count grows, and nothing else changes.
#[test]
fn an_envelope_of_version_0_7_is_refused_at_the_office() {
    let folder = of_version_0_7();
    let state = |folder: &Folder| folder.read("office").unwrap()[16 + 4 + 8 + 8..].to_vec();
    let (before, place) = (state(&folder), place_at_office(9) + SESSION);
    refused(&folder, "office --state office open --in from-9");
    let mut expected = before[..before.len() - 8].to_vec();
    let spent = u32::from_le_bytes(before[place..place + 4].try_into().unwrap()) + count(9, 0, "unused".len());
    expected[place..place + 4].copy_from_slice(&spent.to_le_bytes());
    let after = state(&folder);
    // Behind the state is a checksum.
    assert!(after[..after.len() - 8] == expected);
}

/// An envelope that waits in a state file is handed out as it was sealed.
#[test]
fn resending_does_not_seal_again() {
    let folder = of_version_0_7();
    folder.done("office --state office resend --group 11 --out again");
    assert_eq!(folder.read("again"), folder.read("to-11"));
    refused(&folder, "group --state group-11 open --in again");
}

/// What the manual advises first: the earlier version opens the envelope, also after the refusal, and then both ends go on.
#[test]
fn the_earlier_version_opens_it_and_both_ends_go_on() {
    let folder = of_version_0_7();
    refused(&folder, "office --state office open --in from-9");
    assert_eq!(opened_before(&folder, "office", place_at_office(9), "from-9"), b"unused");
    let mut sanse = session(&folder, 9);
    sealed_before(&mut sanse, 9, b"", b"unused");
    goes_on_in_sanse(&folder, 9, sanse);

    refused(&folder, "group --state group-11 open --in to-11");
    assert_eq!(opened_before(&folder, "group-11", PLACE, "to-11"), b"block of group 11");
    goes_on_in_sanse(&folder, 11, session(&folder, 11));

    refused(&folder, "sane open --state office-20 --in from-20");
    assert_eq!(opened_before(&folder, "office-20", PLACE, "from-20"), b"unused");
    let (started, _) = reference(&folder.read("key-20").unwrap(), &1u64.to_le_bytes());
    let mut sane = with_block(started, 20);
    sealed_before(&mut sane, 20, b"", b"unused");
    goes_on_in_sane(&folder, 20, sane);
}

/// And second: sealed again it is refused too, as the sender's session has gone on; in a new session it opens.
#[test]
fn sealing_again_takes_a_new_session() {
    let folder = of_version_0_7();
    folder.done("group --state group-9 seal --message text --out again");
    refused(&folder, "office --state office open --in again");
    folder.write("new-key", b"a new secret key of group 9");
    folder.done("office --state office open-group --group 9 --key new-key --replace");
    folder.done("group --state group-9 start --group 9 --key new-key --replace");
    goes_on_in_sanse(&folder, 9, Session::start(b"a new secret key of group 9").unwrap());

    folder.done("sane seal --state group-20 --message text --out again-20");
    refused(&folder, "sane open --state office-20 --in again-20");
    for end in ["office", "group"] {
        folder.done(&format!("sane start --state {end}-20 --group 20 --key key-20 --counter 2 --replace"));
    }
    goes_on_in_sane(&folder, 20, reference(&folder.read("key-20").unwrap(), &2u64.to_le_bytes()).0);
}

/// Any lengths, sealed without the header under the tag by the independent implementation: refused at both ends, in both modes.
#[test]
fn envelopes_without_a_header_under_the_tag() {
    let folder = Folder::pair(5);
    folder.write("sane-key", b"the key of group 5 for SANE");
    folder.done("sane start --group 5 --key sane-key --state sane --counter 1");
    let sanse = Session::start(&folder.read("key").unwrap()).unwrap();
    let (sane, _) = reference(&folder.read("sane-key").unwrap(), &1u64.to_le_bytes());
    let before = (folder.session("office", place_at_office(5)), folder.read("group"), folder.read("sane"));
    for (a, m) in [(0, 0), (0, 1), (1, 0), (20, 48), (39, 100), (40, 47), (16_384, 16_384)] {
        folder.write("S", &sealed_before(&mut sanse.clone(), 5, &vec![1; a], &vec![2; m]));
        folder.write("N", &sealed_before(&mut sane.clone(), 5, &vec![1; a], &vec![2; m]));
        refused(&folder, "office --state office open --in S");
        refused(&folder, "group --state group open --in S");
        refused(&folder, "sane open --state sane --in N");
    }
    assert!((folder.session("office", place_at_office(5)), folder.read("group"), folder.read("sane")) == before);
}
