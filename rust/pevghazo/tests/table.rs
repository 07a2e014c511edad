//! The office's table through the C library, beside the independent implementation: tables of any size, with any counts and any
//! allowance.

mod common;

use common::headers::{Ways, all_were_there, header, maybe_misfit};
use common::play::{Choices, any_envelope, next_arrival};
use common::tables::{Tables, any_number, any_record, group_record_of, same_group};
use common::{
    Arrival, Both, By, Held, cases, copy, is_whole_run, key, least_times, maybe_long, other_length, record_of, same,
    text,
};
use pevghazo::raw::{self, Answer, GroupRecord, Record};
use pevghazo_reference::envelope;
use pevghazo_reference::random::Random;
use pevghazo_reference::sanse::count;
use pevghazo_reference::session::Session;
use pevghazo_reference::table::{GroupRecord as Reference, Table};

/// A group's number, now and then one that is too high.
fn any_group(random: &mut Random) -> u32 {
    match random.below(15) {
        0 => random.pick(&[32, 33, 255, 256, u32::MAX]),
        1 => random.pick(&[0, 31]),
        _ => random.below(32) as u32,
    }
}

/// The number of records of a table, mostly the right one.
fn any_size(random: &mut Random) -> usize {
    if random.once_in(10) { random.pick(&[0, 1, 31, 33, 64]) } else { 32 }
}

/// Often sets the allowance and the group's count anew, mostly so that a call with this count just fits or just does not; where
/// the allowance is below it, the sum of the two counts passes 32 bits and comes out as the allowance.
fn set_numbers(random: &mut Random, tables: &mut Tables, group: u32, count: u32) {
    if random.once_in(4) {
        return;
    }
    let allowance = any_number(random);
    let fits = allowance.wrapping_sub(count);
    (tables.allowance, tables.reference.allowance) = (allowance, allowance);
    let count = match random.below(8) {
        0 => any_number(random),
        1 | 2 => fits.wrapping_add(1),
        3 => fits.saturating_sub(random.below(2_000) as u32),
        _ => fits,
    };
    tables.set_count(group, count);
}

/// Opens a group, now and then under a key of another length.
fn any_opening(random: &mut Random, tables: &mut Tables, group: u32) -> Answer {
    let usual = 16 + random.below(32);
    let length = other_length(random, usual, 6);
    set_numbers(random, tables, group, Session::START_COUNT);
    tables.open_group(group, &random.bytes(length))
}

/// The header of a call for a group with these lengths, mostly that of the group; or none, for a call without an envelope.
fn any_header(random: &mut Random, group: u32, (a, m): (usize, usize), ways: &mut Ways) -> Option<Vec<u8>> {
    let other = any_envelope(random)?;
    let named = if random.once_in(8) { other } else { group };
    Some(maybe_misfit(random, ways, 8, header(b'S', named, a, m), (a, m)))
}

/// Wraps for a group, now and then with texts or buffers of other lengths.
fn any_wrap(random: &mut Random, tables: &mut Tables, group: u32, ways: &mut Ways) -> (Option<Vec<u8>>, Answer) {
    let (metadata, message) = (text(random), text(random));
    let (a, m) = (maybe_long(random, &metadata, 20), maybe_long(random, &message, 20));
    let header = any_header(random, group, (a.len(), m.len()), ways);
    let string = header.as_ref().map_or(0, Vec::len) + metadata.len();
    set_numbers(random, tables, group, count(string, message.len()));
    let (room, tag_length) = (other_length(random, m.len(), 10), other_length(random, 32, 12));
    let (mut out, mut tag) = (random.bytes(room), random.bytes(tag_length));
    let answer = tables.by(By::any(random)).wrap_for(group, header.as_deref(), &a, &m, &mut out, &mut tag);
    (header, answer)
}

/// Unwraps for a group what its session takes, or something that is damaged.
fn any_unwrap(random: &mut Random, tables: &mut Tables, group: u32, ways: &mut Ways) -> (Option<Vec<u8>>, Answer) {
    let (metadata, message) = (text(random), text(random));
    let whole = any_envelope(random).map(|_| header(b'S', group.min(31), metadata.len(), message.len()));
    let record = tables.reference.records.get(group as usize);
    let session = record.map_or(Session::CLOSED, |record| record.session.clone());
    let mut arrival = next_arrival(&session, whole, metadata, message);
    let (string, length) = arrival.lengths();
    set_numbers(random, tables, group, count(string, length));
    arrival.tag.truncate(other_length(random, 32, 12));
    let bad = if random.once_in(3) { arrival.damaged(random, b'S', ways) } else { arrival.clone() };
    let room = other_length(random, arrival.message.len(), 10);
    let Arrival { header, metadata, cryptogram, tag, .. } = &bad;
    let mut out = random.bytes(room);
    let answer = tables.by(By::any(random)).unwrap_for(group, header.as_deref(), metadata, cryptogram, tag, &mut out);
    assert!(answer.number != 0 || bad.travels_as(&arrival));
    (bad.header, answer)
}

/// What calls that wrap or unwrap for a group were answered, by number: without an envelope, and for one; and the ways in which
/// headers were others.
#[derive(Default)]
struct Tally {
    numbers: [[u64; 13]; 2],
    ways: Ways,
}

impl Tally {
    /// Wraps or unwraps for a group.
    fn call(&mut self, random: &mut Random, tables: &mut Tables, group: u32) {
        let call = if random.once_in(2) { any_wrap } else { any_unwrap };
        let (header, answer) = call(random, tables, group, &mut self.ways);
        self.numbers[usize::from(header.is_some())][answer.number as usize] += 1;
    }

    /// Every number of such calls has been there, 1 for envelopes alone and 6 without one alone.
    fn check(&self) {
        let ([without, with], least) = (self.numbers, least_times());
        assert!([0, 3, 5, 6, 7, 8, 9, 10, 11].iter().all(|number| without[*number] >= least), "{without:?}");
        assert!([0, 1, 3, 5, 7, 8, 9, 10, 11].iter().all(|number| with[*number] >= least), "{with:?}");
        assert_eq!((without[1], with[6]), (0, 0));
        all_were_there(&self.ways, least / 5);
    }
}

/// The nearly-full question at some marks; the last answer's number.
fn any_question(random: &mut Random, tables: &Tables) -> u32 {
    let sessions = tables.reference.records.iter().map(|record| &record.session);
    let highest = sessions.filter(|session| session.open).map(|session| session.index).max().unwrap_or(0);
    for mark in [0, 1, highest.saturating_sub(1), highest, u32::MAX, random.bits() as u32] {
        let _ = tables.nearly_full(mark);
    }
    tables.nearly_full(random.below(1_048_600) as u32).number
}

/// Some calls on any table, most of them for one group, with starts of a day in between.
#[test]
fn any_table_and_any_numbers() {
    let (mut numbers, mut tally) = ([0; 13], Tally::default());
    cases("any_table_and_any_numbers", |random| {
        let records = (0..any_size(random)).map(|_| any_record(random)).collect();
        let mut tables = Tables::of(Table { records, allowance: any_number(random) });
        let mostly = any_group(random);
        for _ in 0..6 {
            let group = if random.once_in(3) { any_group(random) } else { mostly };
            let number = match random.below(12) {
                0 => {
                    tables.start_day(any_number(random));
                    continue;
                }
                1 | 2 => any_opening(random, &mut tables, group).number,
                3..10 => {
                    tally.call(random, &mut tables, group);
                    continue;
                }
                10 if !tables.records.is_empty() => tables.code(random, group as usize % tables.records.len()).number,
                _ => any_question(random, &tables),
            };
            numbers[number as usize] += 1;
        }
    });
    if is_whole_run() {
        assert!([0, 3, 4, 5, 8, 10, 12].iter().all(|number| numbers[*number] >= 20), "{numbers:?}");
        tally.check();
    }
}

/// A table with these counts, whose sessions are open.
fn open_table(counts: impl Fn(u32) -> u32) -> Table {
    let session = |group| Session::start(&[group as u8 + 1; 16]).unwrap();
    let records = (0..32).map(|group| Reference { session: session(group), count: counts(group) });
    Table { records: records.collect(), allowance: 0 }
}

/// Wraps a message without bytes, which counts 3.
fn wrap_nothing(tables: &mut Tables, group: u32) -> Answer {
    tables.wrap(group, &[], &[], &mut [], &mut [0; 32])
}

const POOR: Answer = Answer { number: 10, count: 0 };

#[test]
fn a_busy_group_does_not_stop_the_others() {
    let mut tables = Tables::of(open_table(|_| u32::MAX));
    tables.start_day(7);
    for expected in [Answer { number: 0, count: 3 }, Answer { number: 0, count: 3 }, POOR, POOR] {
        assert_eq!(wrap_nothing(&mut tables, 5), expected);
    }
    assert_eq!(tables.unwrap(5, &[], &[], &[0; 32], &mut []), POOR);
    assert_eq!(tables.open_group(5, &[7; 16]), Answer { number: 0, count: 1 }, "one is left");
    assert_eq!(tables.open_group(5, &[7; 16]), POOR);
    for group in (0..32).filter(|group| *group != 5) {
        assert_eq!(wrap_nothing(&mut tables, group), Answer { number: 0, count: 3 }, "group {group}");
        assert_eq!(tables.records[group as usize].count, 3);
    }
    assert_eq!(tables.records[5].count, 7);
    assert_eq!(wrap_nothing(&mut tables, 5), POOR);
    tables.start_day(7);
    assert_eq!(wrap_nothing(&mut tables, 5), Answer { number: 0, count: 3 }, "a new day");
}

#[test]
fn opening_again_adds_one() {
    let mut tables = Tables::of(open_table(|group| group));
    tables.allowance = 33;
    tables.reference.allowance = 33;
    for expected in [Answer { number: 0, count: 1 }, Answer { number: 0, count: 1 }, POOR] {
        assert_eq!(tables.open_group(31, &[9; 47]), expected);
    }
    assert_eq!(tables.records[31].count, 33, "the count is not set back");
    assert!(same(&tables.records[31].session, &record_of(&Session::start(&[9; 47]).unwrap())));
    let before = group_record_of(&tables.reference.records[30]);
    for (group, key, number) in [(30, 15, 4), (30, 48, 4), (30, 0, 4), (32, 16, 3), (u32::MAX, 15, 3)] {
        assert_eq!(tables.open_group(group, &vec![9; key]), Answer { number, count: 0 });
    }
    (tables.allowance, tables.reference.allowance) = (30, 30);
    assert_eq!(tables.open_group(30, &[9; 16]), POOR);
    assert!(same_group(&tables.records[30], &before), "a refused opening leaves the record");
}

#[test]
fn a_wrong_tag_adds_to_its_group_alone() {
    let mut tables = Tables::of(open_table(|group| 100 * group));
    (tables.allowance, tables.reference.allowance) = (1_000, 1_000);
    let mut expected = group_record_of(&tables.reference.records[3]);
    let mut out = [0xA5; 49];
    assert_eq!(tables.unwrap(3, &[1; 20], &[2; 48], &[3; 32], &mut out), Answer { number: 11, count: 8 });
    assert_eq!((&out[..48], out[48]), (&[0; 48][..], 0xA5));
    expected.count = 308;
    assert!(same_group(&tables.records[3], &expected));
    assert!((0..32).filter(|group| *group != 3).all(|group| tables.records[group].count == 100 * group as u32));
}

#[test]
fn a_day_over_any_number_of_records() {
    cases("a_day_over_any_number_of_records", |random| {
        for size in [0, 1, 31, 32, 33] {
            let records: Vec<Reference> = (0..size).map(|_| any_record(random)).collect();
            let mut library: Vec<_> = records.iter().map(group_record_of).collect();
            let allowance = any_number(random);
            assert_eq!(raw::start_day(&mut library, allowance), allowance);
            for (record, before) in library.iter().zip(&records) {
                assert!(record.count == 0 && same(&record.session, &record_of(&before.session)));
            }
            Tables::of(Table { records, allowance: !allowance }).start_day(allowance);
        }
    });
}

#[test]
fn a_day_over_more_records_than_a_table_has() {
    for size in [64, 65, 1_000] {
        let mut records: Vec<_> =
            (0..size).map(|_| GroupRecord { session: Record::closed(), count: u32::MAX }).collect();
        assert_eq!(raw::start_day(&mut records, 7), 7);
        assert!(records.iter().all(|record| record.count == 0 && same(&record.session, &Record::closed())));
    }
}

#[test]
fn counts_near_the_highest_number() {
    let accepted = |count| Answer { number: 0, count };
    let mut tables = Tables::of(open_table(|group| u32::MAX - group));
    (tables.allowance, tables.reference.allowance) = (u32::MAX, u32::MAX);
    assert_eq!((wrap_nothing(&mut tables, 2), wrap_nothing(&mut tables, 0)), (POOR, POOR), "a sum past 32 bits");
    assert_eq!((tables.open_group(0, &[1; 16]), tables.open_group(1, &[1; 16])), (POOR, accepted(1)));
    assert_eq!((wrap_nothing(&mut tables, 3), wrap_nothing(&mut tables, 4)), (accepted(3), accepted(3)));
    assert_eq!(tables.unwrap(8, &[], &[], &[0; 32], &mut []), Answer { number: 11, count: 3 });
    assert_eq!(tables.unwrap(6, &[], &[1], &[0; 32], &mut [0]), Answer { number: 11, count: 6 });
    assert_eq!([1, 3, 4, 6, 8].map(|group: usize| tables.records[group].count), [0, 0, 1, 0, 5].map(|n| u32::MAX - n));
    assert_eq!((wrap_nothing(&mut tables, 3), tables.open_group(3, &[1; 16])), (POOR, POOR));
    // A count above the allowance, which no call leaves behind; and allowances that the sum would pass as 32 bits.
    for allowance in [0, 1, 2, u32::MAX - 4, u32::MAX - 1] {
        (tables.allowance, tables.reference.allowance) = (allowance, allowance);
        assert_eq!((wrap_nothing(&mut tables, 3), tables.open_group(3, &[1; 16])), (POOR, POOR), "{allowance}");
    }
    tables.start_day(u32::MAX);
    assert_eq!((wrap_nothing(&mut tables, 3), tables.records[3].count), (accepted(3), 3));
}

/// What has happened.
#[derive(Default)]
struct Happened {
    accepted: u32,
    refused: u32,
    poor: u32,
    ways: Ways,
    choices: Choices,
}

/// The office and its groups, each group with a lone session at its own end; and what has happened.
struct Season<'a> {
    office: Tables,
    groups: Vec<Option<Both>>,
    happened: &'a mut Happened,
}

/// Up to 199 bytes, now and then up to nine blocks.
fn short(random: &mut Random) -> Vec<u8> {
    let length = if random.once_in(4) { random.below(433) } else { random.below(200) };
    random.bytes(length)
}

impl Season<'_> {
    /// Something happens to a group: its session is opened, or a message goes one way or the other.
    fn turn(&mut self, random: &mut Random, group: u32) {
        let place = group as usize;
        if self.groups[place].is_none() || random.once_in(20) {
            let key = key(random);
            if self.office.open_group(group, &key).number == 0 {
                self.groups[place] = Some(Both::start(random, &key).0);
            }
            return;
        }
        let Some(mut lone) = self.groups[place].take() else { unreachable!() };
        let out = random.once_in(2);
        let went = if out { self.send_out(random, group, &mut lone) } else { self.send_back(random, group, &mut lone) };
        if went {
            assert!(same(&lone.library, &self.office.records[place].session));
            let _ = self.office.code(random, place);
        }
        self.groups[place] = Some(lone);
    }

    /// A message goes out to the group, in an envelope or without one, and so does a forged one, unless the group's allowance does
    /// not cover it.
    fn send_out(&mut self, random: &mut Random, group: u32, lone: &mut Both) -> bool {
        let (metadata, message) = (short(random), short(random));
        let header = any_envelope(random).map(|_| header(b'S', group, metadata.len(), message.len()));
        let (mut out, mut tag) = (random.bytes(message.len()), random.bytes(32));
        let office = self.office.by(By::any(random));
        let answer = office.wrap_for(group, header.as_deref(), &metadata, &message, &mut out, &mut tag);
        if answer.number == 10 {
            self.happened.poor += 1;
            return false;
        }
        assert_eq!(answer.number, 0);
        let sent = Arrival { header, metadata, cryptogram: out, tag, message };
        let forged = sent.damaged(random, b'S', &mut self.happened.ways);
        if !forged.travels_as(&sent) {
            let expected = if forged.header_fits(b'S') { 11 } else { 1 };
            let mut out = random.bytes(forged.cryptogram.len());
            assert_eq!(unwrap_at(lone.by(By::any(random)), &forged, &mut out).number, expected);
            self.happened.refused += 1;
        }
        let mut back = random.bytes(sent.message.len());
        assert_eq!(unwrap_at(lone.by(By::any(random)), &sent, &mut back).number, 0);
        assert!(back == sent.message);
        self.happened.choices.take(self.office.by, lone.by, &sent.metadata, &sent.message);
        self.happened.accepted += 1;
        true
    }

    /// A message goes back to the office, in an envelope whose header may be damaged on the way, and then once more. It was wrapped
    /// for the envelope, or without one.
    fn send_back(&mut self, random: &mut Random, group: u32, lone: &mut Both) -> bool {
        let before = copy(&lone.library);
        let (metadata, message) = (short(random), short(random));
        let header = any_envelope(random).map(|_| header(b'S', group, metadata.len(), message.len()));
        let header = header.as_deref();
        let (mut out, mut tag) = (random.bytes(message.len()), random.bytes(32));
        let sent = lone.by(By::any(random)).wrap_for(header, &metadata, &message, &mut out, &mut tag);
        assert_eq!(sent.number, 0);
        self.damaged_header(random, group, header.is_some(), [&metadata, &out, &tag]);
        let mut back = random.bytes(message.len());
        let answer = self.office.by(By::any(random)).unwrap_for(group, header, &metadata, &out, &tag, &mut back);
        if answer.number == 10 {
            // The group takes it back, as nobody has opened it: tests may.
            lone.reference = before.reference();
            lone.library = before;
            self.happened.poor += 1;
            return false;
        }
        assert!(answer.number == 0 && back == message);
        self.happened.choices.take(lone.by, self.office.by, &metadata, &message);
        self.happened.accepted += 1;
        let repeated = self.office.unwrap_for(group, header, &metadata, &out, &tag, &mut back);
        assert!([10, 11].contains(&repeated.number));
        self.happened.refused += 1;
        true
    }

    /// The envelope with another byte in its header is no envelope, or the office refuses it, whether it unwraps for the envelope or
    /// without it.
    fn damaged_header(&mut self, random: &mut Random, group: u32, for_envelope: bool, parts: [&[u8]; 3]) {
        let [metadata, cryptogram, tag] = parts;
        let mut bytes = vec![0; 17 + metadata.len() + cryptogram.len() + 32];
        let len = envelope::write(b'S', group, metadata, cryptogram, tag, &mut bytes).unwrap();
        bytes.truncate(len);
        bytes.extend(random.bytes(40));
        let header = len - 32 - metadata.len() - cryptogram.len();
        let mut damaged = bytes.clone();
        damaged[random.below(header)] = random.pick(b"0123456789,SN");
        if damaged == bytes {
            return;
        }
        let Ok(parts) = envelope::read(&damaged) else { return };
        let mut out = random.bytes(parts.cryptogram.len());
        let envelope::Parts { group, metadata, cryptogram, tag, .. } = parts;
        let header = for_envelope.then_some(parts.header);
        let answer = self.office.unwrap_for(group, header, metadata, cryptogram, tag, &mut out);
        // The other letter is not the call's, and goes with a shorter tag.
        let expected = match (parts.letter, for_envelope) {
            (b'N', true) => &[1][..],
            (b'N', false) => &[7],
            _ => &[5, 10, 11],
        };
        assert!(expected.contains(&answer.number), "{answer:?}");
        self.happened.refused += 1;
    }
}

/// Hands an arrival to a lone session.
fn unwrap_at(lone: &mut Both, arrival: &Arrival, out: &mut [u8]) -> Answer {
    let Arrival { header, metadata, cryptogram, tag, .. } = arrival;
    lone.unwrap_for(header.as_deref(), metadata, cryptogram, tag, out)
}

/// The office and its groups, for some days.
#[test]
fn an_office_and_its_groups() {
    let mut happened = Happened::default();
    cases("an_office_and_its_groups", |random| {
        let groups = (0..32).map(|_| None).collect();
        let mut season = Season { office: Tables::of(Table::new()), groups, happened: &mut happened };
        for _ in 0..12 {
            let group = if random.once_in(3) { random.below(32) } else { random.below(4) };
            if random.once_in(8) {
                season.office.start_day(random.below(120) as u32);
            }
            season.turn(random, group as u32);
        }
    });
    if is_whole_run() {
        let Happened { accepted, refused, poor, choices, .. } = happened;
        assert!(accepted > 1_000 && refused > 1_000 && poor > 100, "{accepted} {refused} {poor}");
        choices.all_were_there(least_times());
    }
}
