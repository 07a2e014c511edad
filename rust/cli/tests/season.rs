//! A whole season through the program, and its envelopes beside the independent implementation.

mod common;

use common::Folder;
use common::envelopes::{count, growth, opened, sealed};
use pevghazo_reference::{envelope, session};

const GROUPS: [u32; 3] = [0, 9, 31];

/// The text of a message of so many bytes.
fn text(seed: u32, length: usize) -> Vec<u8> {
    (0..length).map(|place| (place as u32).wrapping_mul(2_654_435_761).wrapping_add(seed).to_le_bytes()[2]).collect()
}

/// The office and three groups, on a day.
fn three_groups() -> Folder {
    let folder = Folder::new();
    assert_eq!(folder.done("office --state office create"), "");
    assert_eq!(folder.done("office --state office show"), "day: allowance 0 for each group\nclosed: 32 of 32 groups\n");
    folder.done("office --state office day --allowance 100000");
    for group in GROUPS {
        folder.write("key", format!("key number {group:6}").as_bytes());
        folder.done(&format!("office --state office open-group --group {group} --key key"));
        folder.done(&format!("group --state group-{group} start --group {group} --key key"));
    }
    folder
}

/// A message, in turn from the office to a group and back.
fn delivered(folder: &Folder, turn: usize, group: u32, metadata: Vec<u8>, message: Vec<u8>) {
    folder.write("metadata", &metadata);
    folder.write("message", &message);
    let (from, to) = if turn % 2 == 1 {
        (format!("group --state group-{group} seal"), "office --state office open".to_string())
    } else {
        (format!("office --state office seal --group {group}"), format!("group --state group-{group} open"))
    };
    folder.done_anew(&format!("{from} --metadata metadata --message message --out envelope"));
    folder.done_anew(&format!("{to} --in envelope --out opened --metadata-out opened-metadata"));
    assert_eq!((folder.read("opened"), folder.read("opened-metadata")), (Some(message), Some(metadata)));
}

/// Both ends of each group show what it has spent, and its index.
fn shown_at_both_ends(folder: &Folder, spent: [u32; 3], indices: [u32; 3]) {
    let shown = folder.done("office --state office show");
    let lines: Vec<&str> = shown.lines().collect();
    assert_eq!((lines.len(), lines[0]), (5, "day: allowance 100000 for each group"));
    for (place, group) in GROUPS.into_iter().enumerate() {
        let (spent, index) = (spent[place], indices[place]);
        let left = 100_000 - spent;
        let start = format!("group {group:2}: count {spent:6}, left {left:6}, index {index:7}, toggle 0, ");
        assert!(lines[1 + place].starts_with(&start), "{start}{shown}");
        let shown = folder.done(&format!("group --state group-{group} show"));
        assert!(shown.starts_with(&format!("group {group:2}: open, index {index:7}, toggle 0, ")), "{shown}");
    }
    assert_eq!(lines[4], "closed: 29 of 32 groups");
}

/// Another day, and a session in the place of an old one.
fn another_day(folder: &Folder) {
    folder.done("office --state office day --allowance 28");
    folder.write("new-key", b"another key of this group");
    folder.fails(5, "office --state office open-group --group 9 --key new-key");
    folder.done("office --state office open-group --group 9 --key new-key --replace");
    folder.fails(3, "group --state group-9 start --group 9 --key new-key");
    folder.fails(6, "group --state group-9 start --group 8 --key new-key --replace");
    folder.done("group --state group-9 start --group 9 --key new-key --replace");
    folder.done_anew("office --state office seal --group 9 --message message --out envelope --metadata-text new");
    folder.done_anew("group --state group-9 open --in envelope --out opened");
    assert_eq!(folder.read("opened"), folder.read("message"));
    // 1 for the opening; 1 + 11 + 4 + 11 for a header with 3 bytes of metadata, and 500 of message.
    let shown = folder.done("office --state office show");
    assert!(shown.contains("\ngroup  9: count 28, left  0, index "), "{shown}");
    folder.fails(20, "office --state office seal --group 9 --message message --out another");
    assert!(shown.contains("\ngroup 31: count  0, left 28, index "), "{shown}");
    folder.done_anew("office --state office seal --group 31 --message message --out another");
}

#[test]
fn a_season_of_three_groups() {
    let folder = three_groups();
    // With 38 bytes of metadata, the header's second digit takes a further block at group 31.
    let lengths = [(0, 0), (0, 1), (20, 48), (5, 0), (16_384, 16_384), (48, 47), (38, 5), (1, 500)];
    // Of each group: the opening, and its messages.
    let (mut spent, mut indices) = ([1; 3], [0; 3]);
    for (turn, (a, m)) in lengths.into_iter().enumerate() {
        for (place, group) in GROUPS.into_iter().enumerate() {
            delivered(&folder, turn, group, text(group, a), text(7 * group + turn as u32, m));
            spent[place] += count(group, a, m);
            indices[place] += growth(group, a, m);
        }
    }
    shown_at_both_ends(&folder, spent, indices);
    // Which groups are nearly full: all three, the one with the further block, or none.
    let least = indices[0];
    assert_eq!(indices, [least, least, least + 1]);
    for (mark, lowest, all) in
        [(least - 1, "0\n", "0\n9\n31\n"), (least, "31\n", "31\n"), (least + 1, "none\n", "none\n")]
    {
        let line = format!("office --state office nearly-full --mark {mark}");
        assert_eq!([folder.done(&line), folder.done(&format!("{line} --all"))], [lowest, all]);
    }
    another_day(&folder);
}

#[test]
fn standard_input_and_output_stand_for_files() {
    let folder = Folder::pair(5);
    let sealed = folder.run_on("office --state office seal --group 5 --message - --out -", b"20001 to 20100");
    assert_eq!((sealed.status, sealed.said.as_str()), (0, ""));
    assert!(sealed.printed.starts_with(b"S,5,0,14,"));
    let opened = folder.run_on("group --state group open --in - --out - --metadata-out metadata", &sealed.printed);
    assert_eq!((opened.status, &opened.printed[..], opened.said.as_str()), (0, &b"20001 to 20100"[..], ""));
    assert_eq!(folder.read("metadata"), Some(Vec::new()));
    let again = folder.run("group --state group reread --out -");
    assert_eq!((again.status, &again.printed[..]), (0, &b"20001 to 20100"[..]));
    let again = folder.run("office --state office resend --group 5 --out -");
    assert_eq!((again.status, again.printed), (0, sealed.printed));
}

/// Envelopes that stand one after the other in a file, read by their places.
#[test]
fn more_bytes_may_follow_an_envelope() {
    let folder = Folder::pair(5);
    let mut all = b"noise".to_vec();
    let mut places = Vec::new();
    for text in ["one", "two", "three"] {
        folder.write("message", text.as_bytes());
        folder.done_anew("office --state office seal --group 5 --message message --out envelope");
        places.push(all.len());
        all.extend(folder.read("envelope").unwrap());
    }
    folder.write("all", &all);
    folder.fails(11, "group --state group open --in all --out opened");
    let told = folder.done_anew("group --state group open --in all --from 5 --out opened");
    assert_eq!(told, format!("next {}\n", places[1]));
    assert_eq!(folder.read("opened").unwrap(), b"one");
    folder.done_anew(&format!("group --state group open --in all --from {} --out opened", places[1]));
    let told = folder.done_anew(&format!("group --state group open --in all --from {} --out opened", places[2]));
    assert_eq!(told, "");
    assert_eq!(folder.read("opened").unwrap(), b"three");
    for from in [all.len(), all.len() + 1, u32::MAX as usize] {
        folder.fails(11, &format!("group --state group open --in all --from {from} --out opened"));
    }
}

/// The other end is the independent implementation, in both roles.
#[test]
fn the_independent_implementation_understands_it() {
    let folder = Folder::pair(17);
    let mut other = session::Session::start(&folder.read("key").unwrap()).unwrap();
    for (turn, length) in [0, 1, 47, 48, 49, 96, 1_000, 16_384].into_iter().enumerate() {
        let message = text(turn as u32, length);
        folder.write("message", &message);
        folder.done_anew("office --state office seal --group 17 --metadata-text out --message message --out envelope");
        let bytes = folder.read("envelope").unwrap();
        let parts = envelope::read(&bytes).unwrap();
        assert_eq!((parts.group, parts.metadata, parts.place), (17, &b"out"[..], bytes.len()));
        assert_eq!(opened(&mut other, &bytes), message);

        folder.write("envelope", &sealed(&mut other, 17, b"back", &message));
        folder.done_anew("office --state office open --in envelope --out opened");
        assert_eq!(folder.read("opened").unwrap(), message);
    }
    let shown = folder.done("office --state office show");
    assert!(shown.contains("\ngroup 17: count ") && shown.contains(&format!(", index {:7}, ", other.index)), "{shown}");
}

/// The demo's session in SANE, beside the independent implementation.
fn demo_in_sane(shown: &str) {
    let mut tag = [0; 16];
    let key = b"a fixed key, for the demo, of group 19";
    let (mut session, _) = session::SaneSession::start(key, &1u64.to_le_bytes(), &mut tag).unwrap();
    let tag = common::grouped(&tag.map(|byte| format!("{byte:02x}")).concat());
    assert_eq!(shown.matches(&format!("  the office: tag {tag}\n")).count(), 1, "{shown}");
    assert_eq!(shown.matches(&format!("  group 19:   tag {tag}\n")).count(), 1, "{shown}");
    for text in ["K 801 to K 820", "K 817 to K 820"] {
        assert_eq!(shown.matches(&format!(" is opened as \"{text}\"\n")).count(), 1, "{shown}");
        sealed(&mut session, 19, b"rings", text.as_bytes());
    }
    let line = format!("  group 19: open, index {:7}, toggle 0, ", session.index);
    assert_eq!(shown.matches(&line).count(), 1, "{shown}");
    assert!(shown.contains(&format!("  mode SANE, counter 1, tag {tag}\n")), "{shown}");
    assert_eq!(shown.matches("The counter 1 is not above 1, ").count(), 1, "{shown}");
}

/// The demo's two groups with one key: the readdressed envelope is refused at the other group and at the office, where it counts for the
/// group that it names, and neither session goes on.
fn demo_of_one_key(shown: &str) {
    let part = &shown[shown.find("\nGroups 8 and 9 were given one key").unwrap()..];
    let part = &part[..part.find("\nGroup 27 needs").unwrap()];
    let mut lines = part.lines().skip(2);
    assert!(lines.next().unwrap().ends_with(" is opened as \"C 12001 to C 12100\""), "{part}");
    for place in ["at group 9:", "at the office"] {
        assert!(lines.next().unwrap().contains(place), "{part}");
        assert!(lines.next().unwrap().starts_with("      Refused, number 11: "), "{part}");
    }
    assert_eq!(lines.next(), None, "{part}");
    let (spent, index) = (1 + count(8, 5, 18), growth(8, 5, 18));
    for line in [
        format!("  group  8: count {spent:2}, left {:2}, index {index:7}, toggle 1, ", 30 - spent),
        format!("  group  9: count {spent:2}, left {:2}, index {:7}, toggle 0, ", 30 - spent, 0),
    ] {
        assert_eq!(shown.matches(&line).count(), 1, "{line}{shown}");
    }
}

/// The demo's counts: a group spends its allowance, the others go on, and on the next day it goes on too.
fn demo_of_a_busy_group(shown: &str) {
    let refused = "      Refused, number 10: The group's allowance for the day does not cover this call. Group 27 has spent 29 of 30 ";
    assert_eq!(shown.matches(refused).count(), 1, "{shown}");
    for text in ["K 721 to K 740", "K 741 to K 760", "M 5051 to M 5060", "K 761 to K 780"] {
        assert_eq!(shown.matches(&format!(" is opened as \"{text}\"\n")).count(), 1, "{shown}");
    }
    let [first_day, next_day] = [shown.find(refused), shown.find("The next day begins")].map(|place| place.unwrap());
    assert!(first_day < next_day && next_day < shown.find("K 761").unwrap(), "{shown}");
    // Each message has a string of metadata and one of the message, of a block each.
    let (count, growth) = (count(27, 5, 14), growth(27, 5, 14));
    let line = |group: u32, count: u32, messages: u32| {
        let (left, index, toggle) = (30 - count, messages * growth, messages % 2);
        format!("  group {group:2}: count {count:2}, left {left:2}, index {index:7}, toggle {toggle}, ")
    };
    // Of the first day: the opening, the messages, and a refused arrival of group 4 and one of group 11.
    for (group, calls, messages) in [(4, 3, 2), (11, 4, 3), (27, 4, 4)] {
        assert_eq!(shown.matches(&line(group, 1 + calls * count, messages)).count(), 1, "{group}: {shown}");
    }
    // Of the next day, and at the groups.
    for (group, calls, messages) in [(4, 0, 2), (11, 0, 3), (27, 1, 5)] {
        assert_eq!(shown.matches(&line(group, calls * count, messages)).count(), 1, "{group}: {shown}");
        let line = format!("  group {group:2}: open, index {:7}, toggle {}, ", messages * growth, messages % 2);
        assert_eq!(shown.matches(&line).count(), 1, "{line}{shown}");
    }
}

/// The demo's old letters: they open in their order alone, and none is sealed. That they are the first version's, a test beside them sees.
fn demo_of_old_letters(shown: &str) {
    for text in [
        "      Stopped at letter 2 of 3, 3.env. Refused, number 11: ",
        " Letter 3, 2.env, belongs here. Letters opened: 1. Opened before: 0. Not tried: 1.\n",
        "       1     4        5      18  opened before      1  1.env\n",
        "       2     4        6      18  opened             2  2.env to 0002-2.env.message\n",
        "  0001-1.env.message: \"S 10001 to S 10100\"\n",
        "  0002-2.env.message: \"S 10088 to S 10100\"\n",
        "  0003-3.env.message: \"S 10101 to S 10200\"\n",
        "      Refused, number 18: ",
    ] {
        assert_eq!(shown.matches(text).count(), 1, "{text}{shown}");
    }
}

/// The demo's pool: 13 and 50 rings of one size that touch, and 20 of another.
fn demo_of_a_pool(shown: &str) {
    for text in [
        "  4,C,20088,20100,20250304\n  27,E,701,720,20250304\n  11,C,20101,20150,20250305\n  added 3 of 3 lines, 83 rings\n",
        "      Refused, number 14, at line 1: A number of this line is in the pool already, in its size. Lines refused: 1. ",
        "  C         20088     20150        63\n  E           701       720        20\n",
        "  where the ring C 20101 is: pooled in C 20088 to 20150\n",
    ] {
        assert_eq!(shown.matches(text).count(), 1, "{text}{shown}");
    }
}

/// The demo's seasons: a line in November is refused in size C, whose window is 1 March to 30 September, and one of size E is added.
fn demo_of_seasons(shown: &str) {
    for text in [
        "  4,C,20151,20160,20251115\n  27,E,721,740,20251115\n      Refused, number 17, at line 1: ",
        " outside the window of size C, 0301 to 0930. The first permitted day is 20260301. Lines refused: 1. Lines added: 1.\n",
        "  the first day for rings of size E from 1 March 2025 on: 20251001\n",
    ] {
        assert_eq!(shown.matches(text).count(), 1, "{text}{shown}");
    }
}

/// The demo's charges: 87 rings at 250 are 217.50 pence, 3 at 333 are 9.99 and 3 at 250 are 7.50; and size D is not sold.
fn demo_of_charges(shown: &str) {
    for text in [
        "  D           0  not sold\n  E         333      3.33\n",
        "  4,C,20001,20087,20250304\n  27,E,701,703,20250304\n  11,C,20151,20153,20250305\n  Receipt 1, ",
        "      1     4    C    20001    20087       87 20250304     2.50          2.18\n",
        "      2    27    E      701      703        3 20250304     3.33          0.10\n",
        "      3    11    C    20151    20153        3 20250305     2.50          0.08\n",
        "  lines charged  3 of 3\n  rings          93\n  total charged  2.36 pounds\n  exact total    2.3499 pounds\n",
        "      Refused, number 19, at line 1: Rings of size D are not sold: ",
    ] {
        assert_eq!(shown.matches(text).count(), 1, "{text}{shown}");
    }
}

#[test]
fn the_demo_plays_a_season() {
    let folder = Folder::new();
    let mut command = folder.command("demo");
    command.env("TMPDIR", &folder.0);
    let shown = String::from_utf8(common::Run::of(command).printed).unwrap();
    for (group, sent, returned) in
        [(4, "S 20001 to S 20100", "S 20088 to S 20100"), (11, "M 5001 to M 5050", "M 5046 to M 5050")]
    {
        for text in [sent, returned] {
            let line = shown.lines().find(|line| line.contains(&format!("\"{text}\""))).unwrap();
            assert!(line.contains(&format!("group {group:2}")), "{line}");
        }
    }
    assert_eq!(shown.matches("Refused, number 11: ").count(), 7, "{shown}");
    assert_eq!(shown.matches("This is for group 4, and the state file is that of group 27.").count(), 1, "{shown}");
    demo_of_one_key(&shown);
    demo_of_a_busy_group(&shown);
    // The codes are those of the first message, by the independent implementation.
    let mut group = session::Session::start(b"a fixed key, for the demo, of group 4").unwrap();
    sealed(&mut group, 4, b"rings", b"S 20001 to S 20100");
    for packet in 0..3 {
        let line = format!("  {packet:4} {}\n", common::code(&group, packet));
        assert_eq!(shown.matches(&line).count(), 1, "{line}{shown}");
    }
    assert!(shown.contains("  the office checks the code of packet 0: match\n"), "{shown}");
    assert!(shown.contains("      This is not the code of packet 1 of group 4 at index 4. "), "{shown}");
    demo_in_sane(&shown);
    demo_of_old_letters(&shown);
    demo_of_a_pool(&shown);
    demo_of_seasons(&shown);
    demo_of_charges(&shown);
    // Of the groups, which have indices of 8, 4, 0, 12 and 20.
    let renewed =
        "\nThe groups with an index above 10, in the order in which the office renews their keys:\n  11\n  27\n\n";
    assert_eq!(shown.matches(renewed).count(), 1, "{shown}");
    assert_eq!(folder.done("demo"), shown, "every run prints the same");
    assert_eq!(folder.names(), [""; 0], "nothing is left behind");
}
