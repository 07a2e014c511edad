//! The nearly-full question through the C library, beside the independent implementation: the lowest group that is open with an
//! index above the mark, or none.

mod common;

use std::collections::BTreeMap;

use common::tables::{Tables, any_record, group_record_of};
use common::{cases, is_whole_run};
use pevghazo::raw::{self, Found};
use pevghazo::{INDEX_MAX, Plain, Table};
use pevghazo_reference::random::Random;
use pevghazo_reference::session::Session;
use pevghazo_reference::table::{GroupRecord as Reference, Table as ReferenceTable};

const NONE: Found = Found { number: 0, found: false, group: 0 };
const BAD_TABLE: Found = Found { number: 3, found: false, group: 0 };

/// The answer that names a group.
fn named(group: u32) -> Found {
    Found { number: 0, found: true, group }
}

/// A run of so many records, all of which are like this one.
fn run_of(length: usize, open: bool, index: u32) -> Tables {
    let session = Session { open, index, ..Session::CLOSED };
    Tables::of(ReferenceTable { records: vec![Reference { session, count: 0 }; length], allowance: 0 })
}

/// A table of closed records, but for these groups, which are open and have these indices.
fn open_with(indices: &[(u32, u32)]) -> Tables {
    let mut tables = run_of(32, false, 0);
    for (group, index) in indices {
        set(&mut tables, *group, true, *index);
    }
    tables
}

/// Sets on both sides whether a group is open, and its index.
fn set(tables: &mut Tables, group: u32, open: bool, index: u32) {
    let reference = &mut tables.reference.records[group as usize];
    (reference.session.open, reference.session.index) = (open, index);
    tables.records[group as usize] = group_record_of(reference);
}

#[test]
fn the_lowest_of_several() {
    let mut tables = open_with(&[(2, 5), (9, 100), (17, 6), (31, INDEX_MAX)]);
    for (mark, lowest) in [(0, 2), (4, 2), (5, 9), (6, 9), (99, 9), (100, 31), (INDEX_MAX - 1, 31)] {
        assert_eq!(tables.nearly_full(mark), named(lowest), "mark {mark}");
    }
    assert_eq!(tables.nearly_full(INDEX_MAX), NONE);
    // Once the lowest is closed, or renewed, the next one is named.
    set(&mut tables, 2, false, 5);
    assert_eq!(tables.nearly_full(4), named(9));
    tables.start_day(1);
    assert_eq!((tables.open_group(9, &[7; 16]).number, tables.nearly_full(4)), (0, named(17)));
    assert_eq!((tables.open_group(17, &[8; 16]).number, tables.nearly_full(4)), (0, named(31)));
    assert_eq!((tables.open_group(31, &[9; 16]).number, tables.nearly_full(4)), (0, NONE));
    assert_eq!(tables.nearly_full(0), NONE, "a session that was just opened");
}

#[test]
fn each_group_alone() {
    for group in 0..32 {
        for (index, mark) in [(1, 0), (INDEX_MAX, INDEX_MAX - 1), (u32::MAX, 0), (u32::MAX, u32::MAX - 1)] {
            assert_eq!(open_with(&[(group, index)]).nearly_full(mark), named(group), "index {index}, mark {mark}");
        }
    }
}

#[test]
fn all_groups() {
    let all: Vec<(u32, u32)> = (0..32).map(|group| (group, 1 + group)).collect();
    let tables = open_with(&all);
    for mark in 0..32 {
        assert_eq!(tables.nearly_full(mark), named(mark), "the groups below are at the mark, or below it");
    }
    assert_eq!(tables.nearly_full(32), NONE);
    assert_eq!(run_of(32, true, u32::MAX).nearly_full(0), named(0));
}

#[test]
fn an_index_equal_to_the_mark_is_not_above_it() {
    for mark in [0, 1, 47, 255, 256, 65_535, 65_536, INDEX_MAX, INDEX_MAX + 1, (1 << 31) - 1, 1 << 31, u32::MAX - 1] {
        assert_eq!(run_of(32, true, mark).nearly_full(mark), NONE, "mark {mark}");
        assert_eq!(open_with(&[(7, mark), (30, mark + 1)]).nearly_full(mark), named(30), "mark {mark}");
        assert_eq!(open_with(&[(7, mark + 1), (30, mark)]).nearly_full(mark), named(7), "mark {mark}");
    }
}

#[test]
fn no_index_is_above_the_highest_mark() {
    for index in [0, 1, INDEX_MAX, u32::MAX - 1, u32::MAX] {
        assert_eq!(run_of(32, true, index).nearly_full(u32::MAX), NONE, "index {index}");
    }
}

#[test]
fn closed_groups_are_not_named() {
    let mut tables = run_of(32, false, u32::MAX);
    for mark in [0, INDEX_MAX, u32::MAX - 1, u32::MAX] {
        assert_eq!(tables.nearly_full(mark), NONE, "mark {mark}");
    }
    set(&mut tables, 20, true, 5);
    assert_eq!((tables.nearly_full(4), tables.nearly_full(5)), (named(20), NONE));
    set(&mut tables, 20, false, u32::MAX);
    assert_eq!(tables.nearly_full(4), NONE);
}

#[test]
fn runs_of_other_lengths() {
    for length in [0, 1, 31, 33, 64] {
        for (open, index) in [(true, u32::MAX), (true, 0), (false, 0)] {
            for mark in [0, 1, INDEX_MAX, u32::MAX] {
                assert_eq!(run_of(length, open, index).nearly_full(mark), BAD_TABLE, "{length} records");
            }
        }
    }
    // A part of a table is no table.
    let tables = open_with(&[(0, 7), (31, 7)]);
    assert_eq!(raw::nearly_full(&tables.records[..31], 0), BAD_TABLE);
    assert_eq!(raw::nearly_full(&tables.records, 0), named(0));
}

/// A mark: any number, often one at an edge.
fn any_mark(random: &mut Random) -> u32 {
    match random.below(8) {
        0 => random.bits() as u32,
        1 | 2 => random.pick(&[0, 1, u32::MAX - 1]),
        3 => u32::MAX,
        4 => random.pick(&[INDEX_MAX - 1, INDEX_MAX, INDEX_MAX + 1]),
        _ => random.below(1_048_577) as u32,
    }
}

/// A number between these two, both included.
fn between(random: &mut Random, first: u32, last: u32) -> u32 {
    first + random.below((last - first) as usize + 1) as u32
}

/// A record that is open with an index above the mark, which is not the highest then; or one that is not: it is closed, or its
/// index is at most the mark. The other numbers are any.
fn a_record(random: &mut Random, mark: u32, nearly_full: bool) -> Reference {
    let (open, index) = match random.below(2) {
        _ if nearly_full => (true, [mark + 1, between(random, mark + 1, u32::MAX), u32::MAX][random.below(3)]),
        0 => (true, [0, between(random, 0, mark), mark][random.below(3)]),
        _ => (false, [mark, mark.saturating_add(1), random.bits() as u32, u32::MAX][random.below(4)]),
    };
    let record = any_record(random);
    Reference { session: Session { open, index, ..record.session }, ..record }
}

/// Records for a mark, of which none, one, some, or all from a place on are nearly full, as far as an index can be above the mark.
/// The others are any that are not, or now and then all closed and zero.
fn any_records(random: &mut Random, mark: u32) -> Vec<Reference> {
    let length = if random.once_in(4) { random.pick(&[0, 1, 31, 33, 64]) } else { 32 };
    let first = [0, 31, random.below(32)][random.below(3)];
    let (how, rate, zero) = (random.below(4), random.pick(&[2, 4, 16]), random.once_in(4));
    let mut records = Vec::new();
    for place in 0..length {
        let nearly_full = match how {
            0 => false,
            1 => place == first,
            2 => random.once_in(rate),
            _ => place >= first,
        };
        let nearly_full = nearly_full && mark < u32::MAX;
        records.push(if zero && !nearly_full { Reference::CLOSED } else { a_record(random, mark, nearly_full) });
    }
    records
}

/// What a question is like, of the kinds that should all be asked.
fn kinds(records: &[Reference], mark: u32) -> [(&'static str, bool); 17] {
    let (length, table, highest) = (records.len(), records.len() == 32, mark == u32::MAX);
    let above = |open| {
        let is = move |record: &Reference| record.session.open == open && record.session.index > mark;
        (0..length).filter(|place| is(&records[*place])).collect::<Vec<_>>()
    };
    let (full, closed) = (above(true), above(false));
    let at_mark = records.iter().any(|record| record.session.open && record.session.index == mark);
    let (some, none) = (table && !full.is_empty(), table && full.is_empty());
    let closed_below = some && closed.first().is_some_and(|place| *place < full[0]);
    [
        ("no record", length == 0),
        ("one record, nearly full", length == 1 && full == [0]),
        ("31 records, none nearly full", length == 31 && full.is_empty()),
        ("31 records, some nearly full", length == 31 && !full.is_empty()),
        ("33 records, none nearly full", length == 33 && full.is_empty()),
        ("33 records, some nearly full", length == 33 && !full.is_empty()),
        ("several, but not group 0", some && full.len() > 1 && full[0] > 0),
        ("all", some && full.len() == 32),
        ("only group 0", table && full == [0]),
        ("only group 31", table && full == [31]),
        ("only one in between", some && full.len() == 1 && (1..31).contains(&full[0])),
        ("some, and a closed group below with an index above the mark", closed_below),
        ("some, and an open group with an index at the mark", some && at_mark),
        ("none, but a closed group with an index above the mark", none && !closed.is_empty()),
        ("none, but an open group with an index at the mark", none && at_mark && !highest),
        ("the highest mark, and no open group at it", table && highest && !at_mark),
        ("the highest mark, and an open group at it", table && highest && at_mark),
    ]
}

/// Any table and any mark. Every kind of question is asked, and every group is named.
#[test]
fn any_table_and_any_mark() {
    let mut asked = BTreeMap::new();
    let mut answered = BTreeMap::new();
    cases("any_table_and_any_mark", |random| {
        for _ in 0..4 {
            let mark = any_mark(random);
            let tables = Tables::of(ReferenceTable { records: any_records(random, mark), allowance: 0 });
            let Found { number, found, group } = tables.nearly_full(mark);
            *answered.entry((number, found, group)).or_insert(0) += 1;
            for (kind, is) in kinds(&tables.reference.records, mark) {
                *asked.entry(kind).or_insert(0) += u32::from(is);
            }
        }
    });
    if is_whole_run() {
        assert!(asked.values().all(|times| *times >= 10), "{asked:#?}");
        assert_eq!(answered.len(), 34, "each of 32 groups, none, and the refusal: {answered:?}");
    }
}

/// The groups that a table lists.
fn all(table: &Table, mark: u32) -> Vec<u32> {
    table.all_nearly_full(mark).collect()
}

#[test]
fn all_in_rising_order() {
    let mut office = Table::new();
    assert_eq!((all(&office, 0), office.nearly_full(0)), (vec![], None));
    office.start_day(1_000);
    for (group, messages) in [(31, 3), (0, 1), (17, 3), (5, 2), (8, 0)] {
        office.open_group(group, &[group as u8; 16]).unwrap();
        for _ in 0..messages {
            // A message without bytes takes 2 of the index.
            let _ = office.wrap(group, &Plain { metadata: b"", message: b"" }).unwrap();
        }
    }
    for (mark, expected) in [
        (0, &[0, 5, 17, 31][..]),
        (1, &[0, 5, 17, 31]),
        (2, &[5, 17, 31]),
        (4, &[17, 31]),
        (5, &[17, 31]),
        (6, &[]),
        (INDEX_MAX, &[]),
        (u32::MAX, &[]),
    ] {
        assert_eq!(all(&office, mark), expected, "mark {mark}");
        assert_eq!(office.nearly_full(mark), expected.first().copied(), "mark {mark}");
    }
    // Down the list: each group that is renewed leaves it.
    for rest in [&[5, 17, 31][..], &[17, 31], &[31], &[]] {
        assert_eq!((all(&office, 2), office.nearly_full(2)), (rest.to_vec(), rest.first().copied()));
        if let Some(group) = office.nearly_full(2) {
            office.open_group(group, b"a new key of the group").unwrap();
        }
    }
}

/// The groups that the reference names, each of which is closed before it is asked again.
fn one_by_one(mut table: ReferenceTable, mark: u32) -> Vec<u32> {
    let mut named = Vec::new();
    while let Some(group) = table.nearly_full(mark).unwrap() {
        table.records[group as usize].session.open = false;
        named.push(group);
        assert!(named.len() <= table.records.len(), "the reference names a group again: {named:?}");
    }
    named
}

/// The table of the crate with these records, from its stored bytes.
fn table_of(reference: &ReferenceTable) -> Table {
    let mut bytes = Vec::new();
    for Reference { session, count } in &reference.records {
        let lanes = session.accumulator.iter().chain(&session.mask).chain([&session.index]);
        bytes.extend(lanes.flat_map(|lane| lane.to_le_bytes()));
        bytes.extend([session.toggle, session.open].map(u8::from));
        bytes.extend(count.to_le_bytes());
    }
    bytes.extend(reference.allowance.to_le_bytes());
    Table::from_bytes(&bytes).unwrap()
}

/// All nearly full groups of any table that can be stored: no index is above the limit, and closed records are zero.
#[test]
fn any_table_and_all_groups() {
    let mut lengths = [0; 33];
    cases("any_table_and_all_groups", |random| {
        let mark = [random.below(1_048_578) as u32, any_mark(random)][random.below(2)];
        let mut records = any_records(random, mark);
        records.resize(32, Reference::CLOSED);
        for record in &mut records {
            record.session.index = record.session.index.min(INDEX_MAX);
            if !record.session.open {
                record.session = Session::CLOSED;
            }
        }
        let reference = ReferenceTable { records, allowance: 0 };
        let table = table_of(&reference);
        let all = all(&table, mark);
        assert_eq!(all.first().copied(), table.nearly_full(mark));
        assert_eq!(all, one_by_one(reference, mark));
        lengths[all.len()] += 1;
    });
    if is_whole_run() {
        assert!([0, 1, 2, 8, 16, 31, 32].iter().all(|length| lengths[*length] >= 5), "{lengths:?}");
    }
}
