//! The nearly-full question at the office: the lowest group with an index above a mark, all of them, or none.

mod common;

use common::{Folder, SESSION, place_at_office};

/// The office with these groups open, at these indices, which are put into the state file.
fn office(indices: &[(usize, u32)]) -> Folder {
    let folder = Folder::new();
    folder.done("office --state office create");
    folder.done("office --state office day --allowance 1000");
    for (group, index) in indices {
        folder.write("key", format!("the secret key of group {group}").as_bytes());
        folder.done(&format!("office --state office open-group --group {group} --key key"));
        // The index is after the accumulator and the mask of the session.
        folder.forge("office", place_at_office(*group) + 96, &index.to_le_bytes());
    }
    folder
}

/// What the office prints at a mark, with and without `--all`. The state file stays.
fn asks(folder: &Folder, mark: u32) -> [String; 2] {
    let before = folder.read("office");
    let line = format!("office --state office nearly-full --mark {mark}");
    let printed = [folder.done(&line), folder.done(&format!("{line} --all"))];
    assert!(folder.read("office") == before);
    printed
}

/// The office names this group as the lowest, and lists these.
fn names(folder: &Folder, mark: u32, lowest: &str, all: &str) {
    assert_eq!(asks(folder, mark), [lowest, all].map(|lines| format!("{lines}\n")), "mark {mark}");
}

#[test]
fn the_lowest_of_several_and_all_in_their_order() {
    // Opened in another order than that of their numbers.
    let folder = office(&[(27, 2_000), (3, 1_000), (11, 3_000), (10, 1_001), (2, 5)]);
    names(&folder, 0, "2", "2\n3\n10\n11\n27");
    names(&folder, 999, "3", "3\n10\n11\n27");
    names(&folder, 1_000, "10", "10\n11\n27");
    names(&folder, 1_001, "11", "11\n27");
    names(&folder, 2_000, "11", "11");
    names(&folder, 3_000, "none", "none");
    // The option stands anywhere.
    assert_eq!(folder.done("office nearly-full --all --mark=2000 --state office"), "11\n");
}

#[test]
fn the_first_group_the_last_one_and_all_of_them() {
    names(&office(&[(31, 9), (5, 8)]), 8, "31", "31");
    names(&office(&[(0, 9), (31, 8)]), 8, "0", "0");
    names(&office(&[(31, 9), (0, 9)]), 8, "0", "0\n31");
    let all: Vec<(usize, u32)> = (0..32).map(|group| (group, 1 + group as u32)).collect();
    let numbers: Vec<String> = (0..32).map(|group| group.to_string()).collect();
    let folder = office(&all);
    names(&folder, 0, "0", &numbers.join("\n"));
    names(&folder, 29, "29", "29\n30\n31");
    names(&folder, 31, "31", "31");
}

#[test]
fn indices_and_marks_at_their_ends() {
    let folder = office(&[(4, 1_048_576), (7, 0)]);
    names(&folder, 1_048_575, "4", "4");
    for mark in [1_048_576, 1_048_577, u32::MAX - 1, u32::MAX] {
        names(&folder, mark, "none", "none");
    }
    // An index of 0 is above no mark.
    names(&office(&[(7, 0), (8, 1)]), 0, "8", "8");
    names(&office(&[(7, 0)]), 0, "none", "none");
}

#[test]
fn closed_groups_are_not_named() {
    names(&office(&[]), 0, "none", "none");
    let folder = office(&[(4, 50), (9, 60)]);
    names(&folder, 0, "4", "4\n9");
    // A closed session is all zero; no command closes one.
    folder.forge("office", place_at_office(4), &[0; SESSION]);
    names(&folder, 0, "9", "9");
    // A closed one with an index is no session of a state file.
    folder.forge("office", place_at_office(4) + 96, &50_u32.to_le_bytes());
    for all in ["", " --all"] {
        folder.fails(3, &format!("office --state office nearly-full --mark 0{all}"));
    }
}

/// Indices that messages have left, and the office works down the list of groups.
#[test]
fn the_office_renews_keys_down_the_list() {
    let folder = office(&[(19, 0), (8, 0), (4, 0), (25, 0)]);
    folder.write("text", b"20001 to 20100");
    // Each message, of one block and with a header in one block, takes 4 of the index: 8, 4, 16 and 12.
    for (group, messages) in [(4, 2), (8, 1), (19, 4), (25, 3)] {
        for _ in 0..messages {
            folder.done_anew(&format!("office --state office seal --group {group} --message text --out envelope"));
        }
    }
    for (group, all) in [("4", "4\n19\n25"), ("19", "19\n25"), ("25", "25")] {
        names(&folder, 7, group, all);
        folder.write("key", format!("a new key of group {group}").as_bytes());
        folder.done(&format!("office --state office open-group --group {group} --key key --replace"));
    }
    names(&folder, 7, "none", "none");
    names(&folder, 3, "8", "8");
}

/// An older copy is refused, and with `--restore` it is only looked at.
#[test]
fn an_older_copy_is_only_looked_at() {
    let folder = office(&[(9, 60), (4, 50)]);
    let older = folder.read("office").unwrap();
    folder.done("office --state office day --allowance 5");
    folder.write("office", &older);
    for (all, printed) in [("", "4\n"), (" --all", "4\n9\n")] {
        let line = format!("office --state office nearly-full --mark 0{all}");
        folder.fails(8, &line);
        assert_eq!(folder.done(&format!("{line} --restore --wait 1")), printed);
        folder.fails(8, &line);
    }
    assert!(folder.read("office").unwrap() == older);
}

#[test]
fn wrong_command_lines() {
    let folder = office(&[(4, 50)]);
    let said = "pevghazo: The option --mark needs a number from 0 to 4294967295, in digits.\n";
    for mark in ["-1", "4294967296", "abc", "+5", "5.0", "0x10", "18446744073709551616"] {
        for all in ["", " --all"] {
            assert_eq!(folder.fails(2, &format!("office --state office nearly-full --mark {mark}{all}")), said);
            assert_eq!(folder.fails(2, &format!("office --state office nearly-full --mark={mark}{all}")), said);
        }
    }
    assert_eq!(folder.fails(2, "office --state office nearly-full --mark="), said);
    for (line, said) in [
        ("office --state office nearly-full", "The option --mark is missing."),
        ("office --state office nearly-full --all", "The option --mark is missing."),
        ("office --state office nearly-full --mark", "The option --mark needs a value: --mark N."),
        ("office --state office nearly-full --mark --all", "The option --mark needs a value: --mark N."),
        ("office --state office nearly-full --mark 5 --all=yes", "The option --all takes no value."),
        ("office --state office nearly-full --mark 5 --all --all", "The option --all is given twice."),
        ("office nearly-full --mark 5 --all", "The option --state is missing."),
        ("office --state office show --all", "`pevghazo office show` has no option --all: see its --help."),
    ] {
        assert_eq!(folder.fails(2, line), format!("pevghazo: {said}\n"), "{line}");
    }
    names(&folder, 5, "4", "4");
}
