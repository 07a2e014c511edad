//! The counts of the groups at the office: a group that spends its allowance hinders no other, and only a new day sets counts back.

mod common;

use common::envelopes::count;
use common::{Folder, SESSION, place_at_office};
use pevghazo_reference::random::Random;

const GROUPS: [u32; 3] = [0, 7, 31];

/// The office and three groups, of which each has counted 1 for its opening, on a day with this allowance.
fn three_groups(allowance: u32) -> Folder {
    let folder = Folder::new();
    folder.done("office --state office create");
    folder.done(&format!("office --state office day --allowance {allowance}"));
    for group in GROUPS {
        folder.write(&format!("key-{group}"), format!("the secret key of group {group}").as_bytes());
        folder.done(&format!("office --state office open-group --group {group} --key key-{group}"));
        folder.done(&format!("group --state group-{group} start --group {group} --key key-{group}"));
    }
    folder.write("text", b"20001 to 20100");
    folder
}

/// The office seals a message for a group, with status 0, and the group opens it.
fn sends(folder: &Folder, group: u32) {
    folder.done_anew(&format!("office --state office seal --group {group} --message text --out envelope"));
    folder.done_anew(&format!("group --state group-{group} open --in envelope --out opened"));
    assert_eq!(folder.read("opened"), folder.read("text"));
}

/// The office refuses to seal a message for a group, which has spent too much, and changes nothing.
fn refuses(folder: &Folder, group: u32) {
    let before = folder.read("office");
    folder.fails(20, &format!("office --state office seal --group {group} --message text --out none"));
    assert!(folder.read("office") == before && folder.read("none").is_none());
}

/// The office shows these groups, all of which are open, with these counts.
fn shows(folder: &Folder, allowance: u32, counts: [u32; 3]) {
    let shown = folder.done("office --state office show");
    let json = folder.done("office --state office show --json");
    assert!(shown.starts_with(&format!("day: allowance {allowance} for each group\n")), "{shown}");
    assert!(json.contains(&format!("\"allowance\":{allowance},\"groups\":[")), "{json}");
    assert_eq!((shown.lines().count(), json.matches("\"group\":").count()), (5, 3), "{shown}");
    let width = allowance.to_string().len();
    for (group, count) in GROUPS.into_iter().zip(counts) {
        let left = allowance - count;
        let line = format!("\ngroup {group:2}: count {count:width$}, left {left:width$}, index ");
        assert!(shown.contains(&line), "{line}{shown}");
        let object = json.split("{\"group\":").find(|object| object.starts_with(&format!("{group},\"open\":true,")));
        let end = format!("\",\"count\":{count},\"left\":{left}}}");
        assert!(object.is_some_and(|object| object.contains(&end)), "{group} {end}{json}");
    }
}

#[test]
fn a_busy_group_does_not_hinder_the_others() {
    // A message of 14 bytes, with a header in one block, counts 1 + 1 + 4 + 1.
    let folder = three_groups(23);
    for _ in 0..3 {
        sends(&folder, 7);
    }
    shows(&folder, 23, [1, 22, 1]);
    refuses(&folder, 7);
    for group in [0, 31, 0] {
        sends(&folder, group);
    }
    shows(&folder, 23, [15, 22, 8]);
    // Opening it again adds 1 and sets nothing back.
    folder.write("key", b"another secret key of group 7");
    folder.done("office --state office open-group --group 7 --key key --replace");
    folder.done("group --state group-7 start --group 7 --key key --replace");
    shows(&folder, 23, [15, 23, 8]);
    refuses(&folder, 7);
    folder.write("third", b"a third secret key of group 7");
    folder.fails(20, "office --state office open-group --group 7 --key third --replace");
    sends(&folder, 0);
    shows(&folder, 23, [22, 23, 8]);
    // The next day all go on, and the sessions are the same.
    folder.done("office --state office day --allowance 23");
    shows(&folder, 23, [0, 0, 0]);
    for group in GROUPS {
        sends(&folder, group);
    }
    shows(&folder, 23, [7, 7, 7]);
    // A day may follow at any time, with another allowance.
    folder.done("office --state office day --allowance 6");
    GROUPS.into_iter().for_each(|group| refuses(&folder, group));
    shows(&folder, 6, [0, 0, 0]);
}

/// Arrivals that are not a group's spend what is the group's alone, and what is kept of the others stays.
#[test]
fn wrong_tags_count_for_the_group_that_they_name() {
    let folder = three_groups(23);
    folder.write("forged", &[b"S,7,0,14,", &[7; 14 + 32][..]].concat());
    for count in [8, 15, 22] {
        folder.fails(21, "office --state office open --in forged --out none");
        shows(&folder, 23, [1, count, 1]);
    }
    let before = folder.read("office");
    folder.fails(20, "office --state office open --in forged --out none");
    assert!(folder.read("office") == before);
    sends(&folder, 31);
    shows(&folder, 23, [1, 22, 8]);
}

/// A count that could not be committed is the group's, and a sentence says so.
#[test]
fn a_count_that_was_not_added_is_told() {
    let folder = three_groups(20);
    folder.write("forged", &[b"S,7,0,14,", &[7; 14 + 32][..]].concat());
    let line = "office --state office open --in forged --out none";
    let log = folder.copy().run_with("log", line).said;
    let step = 1 + log.lines().position(|line| line.ends_with(": rename")).unwrap();
    let run = folder.run_with(&format!("fail@{step}"), line);
    assert_eq!(run.status, 3, "{}", run.said);
    assert!(run.said.contains("Refused, number 11: "), "{}", run.said);
    assert!(run.said.contains(" Its count could not be added to the group's: "), "{}", run.said);
    shows(&folder, 20, [1, 1, 1]);
}

/// Counts and the allowance up to the last number of 32 bits.
#[test]
fn the_largest_allowance() {
    let most = u32::MAX;
    let folder = three_groups(most);
    shows(&folder, most, [1, 1, 1]);
    sends(&folder, 7);
    shows(&folder, most, [1, 8, 1]);
    // The count stands behind the session. What is left covers the message, or is one too few.
    for (count, covered) in [(most - 7, true), (most - 6, false), (most, false)] {
        folder.forge("office", place_at_office(7) + SESSION, &count.to_le_bytes());
        if covered {
            sends(&folder, 7);
            shows(&folder, most, [1, most, 1]);
        } else {
            refuses(&folder, 7);
            shows(&folder, most, [1, count, 1]);
        }
    }
    folder.write("key", b"another secret key of group 7");
    folder.fails(20, "office --state office open-group --group 7 --key key --replace");
    sends(&folder, 0);
    // A file may have a count above its allowance: nothing is left then.
    folder.done("office --state office day --allowance 3");
    folder.forge("office", place_at_office(7) + SESSION, &most.to_le_bytes());
    refuses(&folder, 7);
    let shown = folder.done("office --state office show --json");
    assert!(shown.contains("\"count\":4294967295,\"left\":0}"), "{shown}");
}

/// The counts as this test keeps them, and what each group waits to have opened.
struct Season {
    folder: Folder,
    random: Random,
    allowance: u32,
    counts: [u32; 3],
    waiting: [Option<usize>; 3],
    keys: u32,
    /// How often each status was met: 0, 20 and 21.
    met: [u32; 3],
}

impl Season {
    /// Counts a call, and gives the status it must have.
    fn counted(&mut self, place: usize, count: u32, status: i32) -> i32 {
        let covered = u64::from(self.counts[place]) + u64::from(count) <= u64::from(self.allowance);
        self.counts[place] += if covered { count } else { 0 };
        let status = if covered { status } else { 20 };
        self.met[[0, 20, 21].iter().position(|known| *known == status).unwrap()] += 1;
        status
    }

    /// Runs the program, which must have this status.
    fn run(&self, status: i32, line: &str) {
        let run = self.folder.run(line);
        assert_eq!(run.status, status, "{line}: {}", run.said);
    }

    /// A new text to send.
    fn text(&mut self) -> usize {
        let length = self.random.below(120);
        let text = self.random.bytes(length);
        self.folder.write("text", &text);
        length
    }

    /// A message to a group, or what it has sealed before, which comes first.
    fn message(&mut self, place: usize) {
        let group = GROUPS[place];
        if let Some(length) = self.waiting[place] {
            let status = self.counted(place, count(group, 0, length), 0);
            self.run(status, &format!("office --state office open --in from-{group} --out /dev/null"));
            self.waiting[place] = self.waiting[place].filter(|_| status == 20);
            return;
        }
        let length = self.text();
        let status = self.counted(place, count(group, 0, length), 0);
        let _ = std::fs::remove_file(self.folder.0.join("envelope"));
        self.run(status, &format!("office --state office seal --group {group} --message text --out envelope"));
        if status == 0 {
            self.run(0, &format!("group --state group-{group} open --in envelope --out /dev/null"));
        }
    }

    /// A message of a group, which waits to be opened.
    fn answer(&mut self, place: usize) {
        let group = GROUPS[place];
        if self.waiting[place].is_none() {
            self.waiting[place] = Some(self.text());
            let line = format!("group --state group-{group} seal --message text --out from-{group}");
            self.folder.done_anew(&line);
        }
    }

    /// An arrival with a wrong tag.
    fn forgery(&mut self, place: usize) {
        let length = self.random.below(120);
        let header = format!("S,{},0,{length},", GROUPS[place]);
        self.folder.write("forged", &[header.as_bytes(), &vec![7; length + 32]].concat());
        let status = self.counted(place, count(GROUPS[place], 0, length), 21);
        self.run(status, "office --state office open --in forged --out none");
    }

    /// Another session in the place of a group's.
    fn replacement(&mut self, place: usize) {
        let group = GROUPS[place];
        self.keys += 1;
        self.folder.write("key", format!("secret key number {}", self.keys).as_bytes());
        let status = self.counted(place, 1, 0);
        self.run(status, &format!("office --state office open-group --group {group} --key key --replace"));
        if status == 0 {
            self.run(0, &format!("group --state group-{group} start --group {group} --key key --replace"));
            self.waiting[place] = None;
        }
    }

    /// A day with any allowance.
    fn day(&mut self) {
        self.allowance = self.random.below(60) as u32;
        self.counts = [0; 3];
        self.run(0, &format!("office --state office day --allowance {}", self.allowance));
    }
}

/// Calls at random for three groups: each has the status and the count that it would have alone.
#[test]
fn calls_at_random_count_for_their_group_alone() {
    let (folder, allowance) = (three_groups(50), 50);
    let random = Random::new(11);
    let mut season = Season { folder, random, allowance, counts: [1; 3], waiting: [None; 3], keys: 0, met: [0; 3] };
    for _ in 0..150 {
        let place = season.random.below(3);
        match season.random.below(12) {
            0 => season.day(),
            1 => season.replacement(place),
            2 | 3 => season.forgery(place),
            4..7 => season.answer(place),
            _ => season.message(place),
        }
        shows(&season.folder, season.allowance, season.counts);
    }
    assert!(season.met.iter().all(|times| *times >= 10), "{:?}", season.met);
}
