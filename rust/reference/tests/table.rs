//! The office's table at its edges.

use pevghazo_reference::limits::INDEX_MAX;
use pevghazo_reference::refusal::{Number, Refusal};
use pevghazo_reference::sanse::{count, growth};
use pevghazo_reference::session::Session;
use pevghazo_reference::table::{GROUPS, GroupRecord, Table};

/// The groups' counts, in their order.
fn counts(table: &Table) -> Vec<u32> {
    table.records.iter().map(|record| record.count).collect()
}

/// All counts 0, but for one group's.
fn only(group: usize, count: u32) -> Vec<u32> {
    (0..GROUPS).map(|other| if other == group { count } else { 0 }).collect()
}

#[test]
fn a_day_in_the_office() {
    let mut table = Table::new();
    assert_eq!(table.open_group(3, &[1; 16]), Err(Number::Allowance.into()));
    assert_eq!(table, Table::new());
    table.start_day(1 + 8 + 8);
    assert_eq!(table.open_group(3, &[1; 16]), Ok(1));
    assert_eq!(table.open_group(32, &[1; 15]), Err(Number::Group.into()));
    assert_eq!(table.open_group(3, &[1; 15]), Err(Number::Key.into()));
    let mut group = Session::start(&[1; 16]).unwrap();

    let (a, m) = ([5; 20], [6; 48]);
    let (mut c, mut tag) = (vec![0; 48], vec![0; 32]);
    assert_eq!(table.wrap(4, &a, &m, &mut c, &mut tag), Err(Number::Closed.into()));
    assert_eq!(table.wrap(3, &a, &m, &mut c, &mut tag), Ok(count(20, 48)));
    assert_eq!((counts(&table), table.allowance), (only(3, 9), 17));
    let mut back = vec![0; 48];
    group.unwrap(&a, &c, &tag, &mut back).unwrap();
    assert_eq!(back, m);
    assert_eq!(group, table.records[3].session);

    // A wrong tag is charged to its group, and leaves the session and the other groups as they were.
    let mut expected = table.clone();
    let answer = table.unwrap(3, &a, &c, &tag, &mut back);
    assert_eq!(answer, Err(Refusal { number: Number::Tag, count: 8 }));
    assert_eq!(back, vec![0; 48]);
    expected.records[3].count = 17;
    assert_eq!(table, expected);
    back.fill(9);
    assert_eq!(table.unwrap(3, &a, &c, &tag, &mut back), Err(Number::Allowance.into()));
    assert_eq!((back, &table), (vec![9; 48], &expected));
    assert_eq!(table.open_group(3, &[1; 16]), Err(Number::Allowance.into()));
    assert_eq!(table, expected);
}

#[test]
fn a_busy_group_does_not_stop_the_others() {
    let mut table = Table::new();
    let (mut out, mut tag) = ([0; 1], [0; 32]);
    table.start_day(7);
    assert_eq!((table.open_group(3, &[1; 16]), table.open_group(4, &[1; 16])), (Ok(1), Ok(1)));
    for answer in [Ok(3), Ok(3), Err(Number::Allowance.into())] {
        assert_eq!(table.wrap(3, &[], &[], &mut out, &mut tag), answer);
    }
    assert_eq!(table.wrap(4, &[], &[7], &mut out, &mut tag), Ok(6));
    assert_eq!((table.records[3].count, table.records[4].count), (7, 7));
    assert_eq!(table.open_group(5, &[1; 16]), Ok(1));
}

#[test]
fn opening_again_adds_to_the_count() {
    let mut table = Table::new();
    table.start_day(3);
    for (key, answer) in [(1, Ok(1)), (2, Ok(1)), (3, Ok(1)), (4, Err(Number::Allowance.into()))] {
        assert_eq!(table.open_group(31, &[key; 47]), answer);
    }
    assert_eq!(table.records[31], GroupRecord { session: Session::start(&[3; 47]).unwrap(), count: 3 });
    assert_eq!(counts(&table), only(31, 3));
}

#[test]
fn a_day_over_any_number_of_records() {
    for records in [0, 1, 31, 32, 33] {
        let record = |i| GroupRecord { session: Session::start(&[i as u8; 16]).unwrap(), count: u32::MAX - i };
        let mut table = Table { records: (0..records).map(record).collect(), allowance: 5 };
        let sessions: Vec<Session> = table.records.iter().map(|record| record.session.clone()).collect();
        for allowance in [u32::MAX, 0] {
            table.start_day(allowance);
            assert_eq!(table.allowance, allowance);
            assert_eq!(counts(&table), vec![0; records as usize]);
            assert!(table.records.iter().map(|record| &record.session).eq(&sessions));
        }
    }
}

#[test]
fn a_table_of_another_size_is_refused() {
    for records in [0, 1, 31, 33] {
        let mut table = Table { records: vec![GroupRecord::CLOSED; records], allowance: 0 };
        table.start_day(1_000);
        let before = table.clone();
        let (mut out, mut tag) = ([0; 4], [0; 32]);
        assert_eq!(table.open_group(0, &[1; 16]), Err(Number::Group.into()));
        assert_eq!(table.wrap(0, &[], &[], &mut out, &mut tag), Err(Number::Group.into()));
        assert_eq!(table.unwrap(0, &[], &[], &tag, &mut out), Err(Number::Group.into()));
        assert_eq!(table.nearly_full(0), Err(Number::Group));
        assert_eq!(table, before);
        let full = Session { index: INDEX_MAX, open: true, ..Session::CLOSED };
        table.records.fill(GroupRecord { session: full, count: 0 });
        assert_eq!((table.nearly_full(0), table.nearly_full(u32::MAX)), (Err(Number::Group), Err(Number::Group)));
    }
}

/// A table of closed records, but for these groups, which are open and have these indices.
fn open_with(indices: &[(usize, u32)]) -> Table {
    let mut table = Table::new();
    for (group, index) in indices {
        table.records[*group].session = Session { index: *index, open: true, ..Session::CLOSED };
    }
    table
}

#[test]
fn the_lowest_nearly_full_group() {
    assert_eq!(Table::new().nearly_full(0), Ok(None));
    let mut table = open_with(&[(2, 5), (9, 100), (17, 6), (31, INDEX_MAX)]);
    for (mark, lowest) in [(0, Some(2)), (4, Some(2)), (5, Some(9)), (99, Some(9)), (100, Some(31))] {
        assert_eq!(table.nearly_full(mark), Ok(lowest), "mark {mark}");
    }
    assert_eq!((table.nearly_full(INDEX_MAX - 1), table.nearly_full(INDEX_MAX)), (Ok(Some(31)), Ok(None)));
    // Renewed or closed, a group is named no more, and the next one is.
    table.start_day(1);
    assert_eq!((table.open_group(2, &[7; 16]), table.nearly_full(4)), (Ok(1), Ok(Some(9))));
    table.records[9].session.open = false;
    assert_eq!(table.nearly_full(4), Ok(Some(17)));
    table.records[17].session = Session::CLOSED;
    table.records[31].session = Session::CLOSED;
    assert_eq!(table.nearly_full(4), Ok(None));
}

#[test]
fn one_nearly_full_group_and_all_of_them() {
    for group in 0..GROUPS {
        assert_eq!(open_with(&[(group, 1)]).nearly_full(0), Ok(Some(group as u32)));
    }
    let all: Vec<(usize, u32)> = (0..GROUPS).map(|group| (group, 1 + group as u32)).collect();
    assert_eq!((open_with(&all).nearly_full(0), open_with(&all).nearly_full(31)), (Ok(Some(0)), Ok(Some(31))));
}

#[test]
fn an_index_equal_to_the_mark_is_not_above_it() {
    for mark in [0, 1, 47, INDEX_MAX, u32::MAX - 1] {
        assert_eq!(open_with(&[(7, mark)]).nearly_full(mark), Ok(None), "mark {mark}");
        assert_eq!(open_with(&[(7, mark), (30, mark + 1)]).nearly_full(mark), Ok(Some(30)), "mark {mark}");
    }
    assert_eq!(open_with(&[(0, u32::MAX), (31, u32::MAX)]).nearly_full(u32::MAX), Ok(None));
}

#[test]
fn closed_groups_are_not_nearly_full() {
    let mut table = Table::new();
    for record in &mut table.records {
        record.session.index = u32::MAX;
    }
    assert_eq!((table.nearly_full(0), table.nearly_full(u32::MAX - 1)), (Ok(None), Ok(None)));
    table.records[20].session.open = true;
    assert_eq!((table.nearly_full(0), table.nearly_full(u32::MAX)), (Ok(Some(20)), Ok(None)));
}

#[test]
fn the_last_check_met_before_the_tag_is_the_allowance() {
    let mut table = Table::new();
    table.start_day(2);
    table.records[0].session = Session { index: INDEX_MAX, ..Session::start(&[3; 16]).unwrap() };
    table.records[1].session = Session::start(&[3; 16]).unwrap();
    let (mut out, mut tag) = ([0; 1], [0; 32]);
    assert_eq!(table.wrap(0, &[], &[], &mut out, &mut tag), Err(Number::Full.into()));
    assert_eq!(table.wrap(1, &[], &[0, 0], &mut out, &mut tag), Err(Number::Buffer.into()));
    assert_eq!(table.wrap(1, &[], &[], &mut out, &mut tag), Err(Number::Allowance.into()));
    assert_eq!(table.unwrap(1, &[], &[], &tag, &mut out), Err(Number::Allowance.into()));
    table.start_day(3);
    assert_eq!(table.unwrap(1, &[], &[], &tag, &mut out), Err(Refusal { number: Number::Tag, count: 3 }));
    assert_eq!(counts(&table), only(1, 3));
}

/// Calls for envelopes: 1 before 3 and all others, also for a header of another group; counts and growth by the header and the
/// metadata together.
#[test]
fn envelopes_of_groups() {
    let mut table = Table::new();
    table.start_day(100);
    table.open_group(7, &[1; 16]).unwrap();
    table.open_group(8, &[1; 16]).unwrap();
    let (a, m, mut c, mut tag) = ([5; 38], [6; 48], vec![0; 48], vec![0; 32]);
    let before = table.clone();
    for (group, header) in [(8, "S,7,38,48,"), (32, "S,31,38,48,"), (7, "N,7,38,48,"), (7, "S,7,38,47,"), (32, "")] {
        let header = Some(header.as_bytes());
        assert_eq!(table.wrap_for(group, header, &a, &m, &mut c, &mut tag), Err(Number::Header.into()));
        assert_eq!(table.unwrap_for(group, header, &a, &m, &tag, &mut c), Err(Number::Header.into()));
    }
    let mut short = Table { records: table.records[..31].to_vec(), ..table.clone() };
    let header = Some(&b"S,7,38,48,"[..]);
    assert_eq!(short.wrap_for(8, header, &a, &m, &mut c, &mut tag), Err(Number::Header.into()));
    assert_eq!(short.wrap_for(7, header, &a, &m, &mut c, &mut tag), Err(Number::Group.into()));
    assert_eq!((&table, &c, &tag), (&before, &vec![0; 48], &vec![0; 32]));

    assert_eq!(table.wrap_for(7, header, &a, &m, &mut c, &mut tag), Ok(count(48, 48)));
    assert_eq!((table.records[7].count, table.records[7].session.index), (1 + count(48, 48), growth(48, 48)));
    // The other group has the same key: with the header of its own it refuses by the tag, and charges for it.
    let readdressed = Some(&b"S,8,38,48,"[..]);
    let wrong = Err(Refusal { number: Number::Tag, count: count(48, 48) });
    assert_eq!(table.unwrap_for(8, readdressed, &a, &c, &tag, &mut [0; 48]), wrong);
    assert_eq!(table.records[8].count, 1 + count(48, 48));
    let mut back = [0; 48];
    assert_eq!(Session::start(&[1; 16]).unwrap().unwrap_for(header, &a, &c, &tag, &mut back), Ok(count(48, 48)));
    assert_eq!(back, m);
}

#[test]
fn counts_up_to_the_highest_number() {
    let (mut out, mut tag) = ([0; 1], [0; 32]);
    let mut table = Table::new();
    table.start_day(u32::MAX);
    table.records[1] = GroupRecord { session: Session::start(&[3; 16]).unwrap(), count: u32::MAX - 3 };
    table.records[2].count = u32::MAX;
    assert_eq!(table.open_group(2, &[3; 16]), Err(Number::Allowance.into()), "a sum past 32 bits");
    assert_eq!(table.wrap(1, &[], &[5], &mut out, &mut tag), Err(Number::Allowance.into()));
    assert_eq!(table.wrap(1, &[], &[], &mut out, &mut tag), Ok(3));
    assert_eq!(table.records[1].count, u32::MAX);
    assert_eq!(table.wrap(1, &[], &[], &mut out, &mut tag), Err(Number::Allowance.into()));
    assert_eq!(table.open_group(3, &[3; 16]), Ok(1));
}
