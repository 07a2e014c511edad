//! Envelopes whose header was changed on the way: the header is under the tag, so that they open nowhere, also where two groups have one key.
//! The other group's sessions are then the same, byte for byte, and nothing but the header tells the groups apart.

mod common;

use common::envelopes::{count, readdressed};
use common::{Folder, PLACE, place_at_office};

/// The office and two groups with one key, all of whose sessions are the same.
fn one_key(groups: [u32; 2]) -> Folder {
    let folder = Folder::new();
    folder.write("key", b"a key that two groups were given");
    folder.write("text", b"20001 to 20100");
    folder.done("office --state office create");
    folder.done("office --state office day --allowance 1000");
    for group in groups {
        folder.done(&format!("office --state office open-group --group {group} --key key --reuse-key"));
        folder.done(&format!("group --state group-{group} start --group {group} --key key"));
    }
    let sessions = groups.map(|group| {
        [folder.session("office", place_at_office(group as usize)), folder.session(&format!("group-{group}"), PLACE)]
    });
    assert!(sessions.iter().flatten().all(|session| *session == sessions[0][0]));
    folder
}

/// The command is refused with this status: no output, and no session goes on.
fn refused(folder: &Folder, groups: [u32; 2], status: i32, line: &str) -> String {
    let sessions = || {
        groups.map(|group| {
            let at_office = folder.session("office", place_at_office(group as usize));
            (at_office, folder.read(&format!("group-{group}")))
        })
    };
    let before = sessions();
    let said = folder.fails(status, &format!("{line} --out out --metadata-out metadata"));
    assert!(sessions() == before && folder.read("out").is_none() && folder.read("metadata").is_none(), "{line}");
    said
}

/// The count of a group at the office.
fn counted(folder: &Folder, group: u32) -> u32 {
    let shown = folder.done("office --state office show");
    let line = shown.lines().find(|line| line.starts_with(&format!("group {group:2}: count "))).unwrap();
    line.split([' ', ',']).filter(|word| !word.is_empty()).nth(3).unwrap().parse().unwrap()
}

/// An envelope of the first group is readdressed to the second: refused by the second group and by the office, where it counts for the group
/// that it names, as every wrong tag does. As it was sealed it is not the second group's, and opens at the first one.
fn opens_at_its_own_alone(groups: [u32; 2], seal: &str, open: &str) {
    let [own, other] = groups;
    let folder = one_key(groups);
    folder.done(&format!("{seal} --message text --metadata-text size --out whole"));
    let whole = folder.read("whole").unwrap();
    folder.write("in", &readdressed(&whole, &format!("S,{own},"), &format!("S,{other},")));
    let spent = [own, other].map(|group| counted(&folder, group));
    for line in [format!("group --state group-{other} open --in in"), "office --state office open --in in".to_string()]
    {
        let said = refused(&folder, groups, 21, &line);
        assert!(said.starts_with("pevghazo: Refused, number 11: The tag is wrong: "), "{said}");
    }
    assert_eq!([own, other].map(|group| counted(&folder, group)), [spent[0], spent[1] + count(other, 4, 14)]);
    let said = refused(&folder, groups, 6, &format!("group --state group-{other} open --in whole"));
    assert_eq!(said, format!("pevghazo: This is for group {own}, and the state file is that of group {other}.\n"));
    folder.done(&format!("{open} --in whole --out out --metadata-out metadata"));
    assert_eq!((folder.read("out"), folder.read("metadata")), (folder.read("text"), Some(b"size".to_vec())));
}

/// The case of the request, one way and the other; also where the other group's number has more digits or fewer.
#[test]
fn two_groups_with_one_key() {
    for groups in [[8, 9], [9, 8], [3, 30], [31, 1]] {
        let [own, _] = groups;
        let ends = ["office --state office".to_string(), format!("group --state group-{own}")];
        let seals = [format!("{} seal --group {own}", ends[0]), format!("{} seal", ends[1])];
        opens_at_its_own_alone(groups, &seals[0], &format!("{} open", ends[1]));
        opens_at_its_own_alone(groups, &seals[1], &format!("{} open", ends[0]));
    }
}

/// The same between two groups with a session in SANE each, under one key and one nonce. (No state file could know that.)
#[test]
fn two_groups_with_one_key_in_sane() {
    let folder = Folder::new();
    folder.write("key", b"a key that two groups were given");
    folder.write("text", b"20001 to 20100");
    for state in ["office-8", "group-8", "group-9"] {
        let group = &state[state.len() - 1..];
        folder.done(&format!("sane start --state {state} --group {group} --key key --counter 1"));
    }
    assert!(folder.session("office-8", PLACE) == folder.session("group-9", PLACE));
    folder.done("sane seal --state office-8 --message text --out whole");
    folder.write("in", &readdressed(&folder.read("whole").unwrap(), "N,8,", "N,9,"));
    let before = folder.read("group-9");
    folder.fails(21, "sane open --state group-9 --in in --out out");
    folder.fails(6, "sane open --state group-9 --in whole --out out");
    assert!(folder.read("group-9") == before && folder.read("out").is_none());
    folder.done("sane open --state group-8 --in whole --out out");
    assert_eq!(folder.read("out"), folder.read("text"));
}

/// Lengths that move the border between metadata and message, and are written as the layout has them.
#[test]
fn lengths_that_were_changed() {
    let (folder, groups) = (one_key([8, 9]), [8, 9]);
    folder.done("office --state office seal --group 8 --message text --metadata-text size --out whole");
    let whole = folder.read("whole").unwrap();
    let open = "group --state group-8 open --in in";
    for (new, status) in [
        ("S,8,5,13,", 21),
        ("S,8,3,15,", 21),
        ("S,8,0,18,", 21),
        ("S,8,18,0,", 21),
        ("S,8,4,13,", 21),
        ("S,8,3,14,", 21),
        ("S,8,4,15,", 12),
        ("S,8,5,14,", 12),
        ("S,8,04,14,", 11),
        ("S,8,4,+14,", 11),
        (" S,8,4,14,", 11),
        ("S,8,4,14", 11),
    ] {
        folder.write("in", &readdressed(&whole, "S,8,4,14,", new));
        refused(&folder, groups, status, open);
    }
    // A byte before the metadata shifts all that follows.
    folder.write("in", &readdressed(&whole, "S,8,4,14,", "S,8,4,14,,"));
    refused(&folder, groups, 21, open);
    folder.done("group --state group-8 open --in whole --out out");
    assert_eq!(folder.read("out"), folder.read("text"));
}

/// Any other byte at any place of the header: refused at both ends, and no session goes on.
#[test]
fn a_header_with_one_byte_changed() {
    let (folder, groups) = (one_key([8, 9]), [8, 9]);
    folder.done("group --state group-8 seal --message text --metadata-text size --out whole");
    let whole = folder.read("whole").unwrap();
    let mut met = [0; 3];
    for place in 0.."S,8,4,14,".len() {
        for byte in *b"0123456789,SN \0\xff" {
            if whole[place] == byte {
                continue;
            }
            let mut changed = whole.clone();
            changed[place] = byte;
            folder.write("in", &changed);
            let status = folder.run("office --state office open --in in --out out").status;
            // Another letter has 6, a group that is not open 15.
            assert!([6, 11, 12, 15, 21].contains(&status), "{place} {byte}: {status}");
            refused(&folder, groups, status, "office --state office open --in in");
            if let Some(place) = [11, 12, 21].iter().position(|known| *known == status) {
                met[place] += 1;
            }
        }
    }
    assert!(met.iter().all(|times| *times > 5), "{met:?}");
    assert_eq!(folder.done("office --state office open --in whole --out out"), "group 8\n");
    assert_eq!(folder.read("out"), folder.read("text"));
}
