//! Random lists of lines through the C library, beside the independent implementation and a plain set of numbers; and records that
//! no list leaves.

mod common;

use std::collections::{BTreeMap, BTreeSet};

use common::lists::{any_memory, close_line, near_line, nearly_full};
use common::pools::{Pools, any_size};
use common::{cases, damaged, least_times};
use pevghazo::raw::{self, PoolRecord, RunRecord};
use pevghazo_reference::issue;
use pevghazo_reference::random::Random;

/// A line of these rings, by any group and on any day; one time in eight damaged.
fn bytes_of(random: &mut Random, (size, first, last): (char, u32, u32)) -> Vec<u8> {
    let line = issue::Line { group: random.below(32) as u32, size, first, last, day: random.below(100_000_000) as u32 };
    if random.once_in(8) { damaged(random, &line.bytes()) } else { line.bytes() }
}

/// How many runs a line was joined with, if it was accepted.
fn joined(before: usize, after: usize) -> usize {
    before + 1 - after
}

/// What happened, by number, and for accepted lines by the runs that they were joined with and whether the pool was full before.
type Happened = BTreeMap<(u32, usize, bool), u64>;

/// Each of these has happened, and not seldom.
fn have_happened(happened: &Happened, kinds: &[(u32, usize, bool)]) {
    for kind in kinds {
        let times = happened.get(kind).copied().unwrap_or(0);
        assert!(times >= least_times(), "{kind:?}: {happened:?}");
    }
}

/// Adds a line and notes what happened.
fn play(pools: &mut Pools, line: &[u8], happened: &mut Happened) -> u32 {
    let before = pools.memory.record().used;
    let number = pools.add(line);
    let joined = if number == 0 { joined(before, pools.memory.record().used) } else { 0 };
    *happened.entry((number, joined, before == 256)).or_insert(0) += 1;
    number
}

/// Numbers of sizes, as a plain set.
type Set = BTreeSet<(char, u32)>;

/// The numbers of a line, each with its size.
fn numbers(line: issue::Line) -> impl Iterator<Item = (char, u32)> {
    (line.first..=line.last).map(move |number| (line.size, number))
}

/// Adds a line to a plain set: the number that it gets, where runs do not matter, and how many numbers it brings.
fn add_to_set(set: &mut Set, bytes: &[u8]) -> (u32, u64) {
    let Some(line) = issue::read(bytes) else { return (13, 0) };
    if numbers(line).any(|number| set.contains(&number)) {
        return (14, 0);
    }
    set.extend(numbers(line));
    (0, numbers(line).count() as u64)
}

/// Lists of lines whose numbers are close together, beside a plain set of numbers.
#[test]
fn any_list_beside_a_set() {
    let mut happened = Happened::new();
    cases("any_list_beside_a_set", |random| {
        let (mut pools, mut set, mut rings) = (Pools::new(), Set::new(), 0);
        for _ in 0..1 + random.below(32) {
            let close = close_line(random);
            let bytes = bytes_of(random, close);
            // A damaged line may say very many numbers, which are not put into a set.
            if issue::read(&bytes).is_some_and(|line| line.last - line.first > 10_000) {
                continue;
            }
            let (number, more) = add_to_set(&mut set, &bytes);
            assert_eq!(play(&mut pools, &bytes, &mut happened), number, "{}", bytes.escape_ascii());
            rings += more;
        }
        assert_eq!((raw::pool_rings(pools.memory.record()), set.len() as u64), (rings, rings));
        for number in 0..70 {
            for size in ['A', 'B', 'C', 'H'] {
                assert_eq!(pools.holds(size, number), set.contains(&(size, number)));
            }
        }
    });
    have_happened(&happened, &[(0, 0, false), (0, 1, false), (0, 2, false), (13, 0, false), (14, 0, false)]);
}

/// Lists of lines on pools of any fill, most of them beside their runs.
#[test]
fn any_list_beside_the_reference() {
    let mut happened = Happened::new();
    let starts = nearly_full();
    cases("any_list_beside_the_reference", |random| {
        let mut pools = if random.once_in(3) { Pools::new() } else { starts[random.below(starts.len())].clone() };
        for _ in 0..1 + random.below(12) {
            let near = near_line(random, &pools);
            let bytes = bytes_of(random, near);
            play(&mut pools, &bytes, &mut happened);
        }
        for _ in 0..8 {
            let (size, first, last) = near_line(random, &pools);
            pools.holds(size, random.pick(&[first, last, first - 1, last + 1]));
        }
    });
    have_happened(&happened, &[(0, 0, false), (0, 1, false), (0, 2, false), (0, 1, true), (0, 2, true)]);
    have_happened(&happened, &[(13, 0, true), (14, 0, true), (15, 0, true)]);
    // No line that is joined with none is taken by a full pool, and none is refused for want of runs by another.
    assert!(!happened.contains_key(&(0, 0, true)) && !happened.contains_key(&(15, 0, false)), "{happened:?}");
}

/// The same numbers, cut and ordered otherwise, give the same runs and the same answers afterwards.
#[test]
fn the_order_of_lines_does_not_matter() {
    cases("the_order_of_lines_does_not_matter", |random| {
        let mut pieces = Vec::new();
        let mut first = 1;
        for _ in 0..1 + random.below(20) {
            let last = first + random.below(30) as u32;
            pieces.push((random.pick(&['A', 'B']), first, last));
            first = last + 1 + random.below(2) as u32;
        }
        let straight = Pools::of(pieces.clone());
        let mut cut: Vec<(char, u32, u32)> = Vec::new();
        for (size, first, last) in pieces {
            let middle = first + random.below((last - first) as usize + 1) as u32;
            cut.push((size, first, middle));
            cut.extend((middle < last).then_some((size, middle + 1, last)));
        }
        for place in (1..cut.len()).rev() {
            cut.swap(place, random.below(place + 1));
        }
        let mut other = Pools::of(cut);
        assert_eq!(straight.reference, other.reference);
        let mut straight = straight;
        for _ in 0..4 {
            let near = near_line(random, &straight);
            let line = bytes_of(random, near);
            assert_eq!(straight.add(&line), other.add(&line));
        }
    });
}

/// The runs of any record.
fn used_runs(record: &PoolRecord) -> &[RunRecord] {
    &record.runs[..record.used.min(256)]
}

/// Every call on any record finishes; refusals leave every byte of it, and no call alters a byte beside it. The two questions are
/// answered by the runs that there are.
#[test]
fn any_record_whatever_it_holds() {
    let mut answers = [0, 13, 14, 15].map(|number| (number, 0)).into_iter().collect::<BTreeMap<u32, u64>>();
    cases("any_record_whatever_it_holds", |random| {
        let mut memory = any_memory(random);
        for _ in 0..4 {
            let (record, size, number) = (memory.record(), random.bits() as u32, random.below(45) as u32);
            let letter = u32::from(any_size(random));
            for (size, number) in [(size, number), (letter, number), (letter | 0x100, number), (letter, u32::MAX)] {
                let has = |run: &RunRecord| run.size == size && run.first <= number && number <= run.last;
                assert_eq!(raw::pool_holds(record, size, number), used_runs(record).iter().any(has));
            }
            let rings = used_runs(record).iter().filter(|run| run.first <= run.last);
            assert_eq!(raw::pool_rings(record), rings.map(|run| u64::from(run.last - run.first) + 1).sum::<u64>());
            let rings = if random.once_in(2) { close_line(random) } else { (any_size(random), 1, 99_999_999) };
            let line = bytes_of(random, rings);
            let number = memory.add(&line);
            assert_eq!(number == 13, issue::read(&line).is_none(), "{}", line.escape_ascii());
            *answers.entry(number).or_insert(0) += 1;
        }
    });
    assert!(answers.len() == 4 && answers.values().all(|times| *times >= least_times()), "{answers:?}");
}
