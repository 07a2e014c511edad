//! What stands in the program's memory just before it ends: no secret.
//!
//! The program is made to stand still before its last step, and its memory is searched for bytes that the test knows.

mod common;

use std::fs::{self, File};
use std::io::{BufRead, BufReader};
use std::os::unix::fs::FileExt;

use common::letters::trial;
use common::{Folder, VARIABLE, place_at_office};

/// A part of the program's memory that it can write to.
struct Area {
    name: String,
    bytes: Vec<u8>,
}

/// Runs the program up to its last step and reads all memory that it can write to.
fn memory_at_end(folder: &Folder, line: &str) -> Vec<Area> {
    let steps = folder.copy().run_with("log", line).said;
    let end = steps.lines().find(|line| line.ends_with(": end")).unwrap_or_else(|| panic!("{line}: {steps}"));
    let number = end.strip_prefix("step ").unwrap().split(':').next().unwrap();
    let mut child = folder.command(line).env(VARIABLE, format!("pause@{number}")).spawn().unwrap();
    let mut said = BufReader::new(child.stderr.take().unwrap()).lines().map_while(Result::ok);
    assert!(said.any(|line| line.starts_with("paused")), "{line}");
    let memory = File::open(format!("/proc/{}/mem", child.id()));
    let maps = fs::read_to_string(format!("/proc/{}/maps", child.id())).unwrap();
    let mut areas = Vec::new();
    for line in maps.lines() {
        let words: Vec<&str> = line.split_whitespace().collect();
        let Ok(memory) = &memory else { continue };
        if !words[1].starts_with("rw") {
            continue;
        }
        let (start, end) = words[0].split_once('-').unwrap();
        let [start, end] = [start, end].map(|number| u64::from_str_radix(number, 16).unwrap());
        let mut bytes = vec![0; (end - start) as usize];
        if memory.read_exact_at(&mut bytes, start).is_ok() {
            areas.push(Area { name: words.get(5).unwrap_or(&"").to_string(), bytes });
        }
    }
    child.kill().unwrap();
    child.wait().unwrap();
    areas
}

/// The names of the areas that hold these bytes.
fn holding<'a>(areas: &'a [Area], these: &[u8]) -> Vec<&'a str> {
    let holds = |area: &&Area| area.bytes.windows(these.len()).any(|window| window == these);
    areas.iter().filter(holds).map(|area| area.name.as_str()).collect()
}

/// The lanes of these that stand somewhere in memory, in whichever order, if they are more than chance would have.
fn lanes_found(areas: &[Area], these: &[u8]) -> Vec<usize> {
    let found = |lane: &[u8]| areas.iter().any(|area| area.bytes.windows(4).any(|window| window == lane));
    let lanes = these.chunks(4).enumerate().filter(|(_, lane)| *lane != [0; 4] && found(lane));
    let places: Vec<usize> = lanes.map(|(place, _)| place).collect();
    if places.len() > 2 { places } else { Vec::new() }
}

/// Accumulator and mask of a session in a state file, where they start at this place of the state.
fn lanes(folder: &Folder, state: &str, place: usize) -> [Vec<u8>; 2] {
    let content = folder.read(state).unwrap();
    let place = 16 + 4 + 8 + 8 + place;
    [content[place..place + 48].to_vec(), content[place + 48..place + 96].to_vec()]
}

#[test]
fn no_secret_is_in_memory_when_a_command_ends() {
    let folder = Folder::pair(5);
    let message = b"the ring numbers 20001 to 20100 and others";
    folder.write("text", message);
    // This one is sealed and opened by four.
    folder.write("register", &message.repeat(10));
    folder.write("new-key", b"another quite secret key of group 5");
    folder.done("sane --state sane start --group 5 --key key --counter 1");
    folder.done("sane --state other start --group 5 --key new-key --counter 2");
    folder.done("sae --state old start --group 5 --key key --counter 1");
    let (mut trial, _) = trial(b"another quite secret key of group 5", &2u64.to_le_bytes());
    folder.write("letter", &trial.trial_seal(5, b"size", message));
    let known = memory_at_end(&folder, "office --state office show");
    if known.is_empty() {
        eprintln!("not tried: this system does not let the test read another program's memory");
        return;
    }
    // The search works: the words of the command line are there.
    assert!(!holding(&known, b"office\0--state\0").is_empty());
    let mut found = Vec::new();
    for (line, state, place) in [
        ("office --state office show", "office", place_at_office(5)),
        ("office --state office day --allowance 1000000", "office", place_at_office(5)),
        ("office --state office seal --group 5 --message register --out to", "office", place_at_office(5)),
        ("group --state group open --in to --out opened", "group", 12),
        ("group --state group reread --out -", "group", 12),
        ("office --state office codes --group 5 --packets 0-99", "office", place_at_office(5)),
        ("group --state group codes --packets 0-99 --format html", "group", 12),
        ("group --state group check-code --packet 7 --code 0123-4567-89ab-cdef", "group", 12),
        ("group --state group seal --message text --out from", "group", 12),
        ("office --state office open --in from --out opened-too", "office", place_at_office(5)),
        ("office --state office forget --group 5", "office", place_at_office(5)),
        ("office --state office open-group --group 5 --key new-key --replace", "office", place_at_office(5)),
        ("group --state group start --group 5 --key new-key --replace", "group", 12),
        ("group --state group show --json", "group", 12),
        ("sane --state sane start --group 5 --key new-key --counter 2 --replace", "sane", 12),
        ("sane --state sane seal --message register --out to-other", "sane", 12),
        ("sane --state other open --in to-other --out opened-there", "other", 12),
        ("sane --state other reread --out -", "other", 12),
        ("sane --state other seal --message text --out to-sane", "other", 12),
        ("sane --state sane open --in to-sane --out opened-here", "sane", 12),
        ("sane --state sane forget", "sane", 12),
        ("sane --state sane show --json", "sane", 12),
        ("sae --state old start --group 5 --key new-key --counter 2 --replace", "old", 12),
        ("sae --state old open letter --out-dir .", "old", 12),
        ("sae --state old show --json", "old", 12),
        ("sae --state old seal --message text", "old", 12),
    ] {
        let before = lanes(&folder, state, place);
        let areas = memory_at_end(&folder, line);
        let after = lanes(&folder, state, place);
        let key = b"another quite secret key of group 5";
        for (what, secret) in [("message", &message[..]), ("key", key), ("mask", &after[1])] {
            let places = holding(&areas, secret);
            if !places.is_empty() {
                found.push(format!("{line}: {what} in {places:?}"));
            }
        }
        for (what, secret) in [
            ("accumulator before", &before[0]),
            ("mask before", &before[1]),
            ("accumulator", &after[0]),
            ("mask", &after[1]),
        ] {
            let places = lanes_found(&areas, secret);
            if !places.is_empty() {
                found.push(format!("{line}: lanes {places:?} of {what}"));
            }
        }
    }
    assert!(found.is_empty(), "{}", found.join("\n"));
}
