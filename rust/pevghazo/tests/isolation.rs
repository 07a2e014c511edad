//! A group's day depends on its own calls alone, through the C library: two tables that agree in one group's record, or before the
//! start of a day in its session alone, under one allowance. The same calls for that group give it the same answers, buffers,
//! counts and record, however the other groups' calls differ or fall between; they are those of a table where no other group calls.
//! All lists hold calls without an envelope and calls for one.

mod common;

use common::headers::{Ways, header, maybe_misfit};
use common::play::{any_envelope, next_arrival};
use common::tables::{any_number, any_record, group_record_of, unwrap_group, wrap_group};
use common::{Arrival, By, Held, answer_of, any_session, cases, is_whole_run, key, maybe_long, other_length};
use pevghazo::raw::{self, Answer, GroupRecord};
use pevghazo_reference::random::Random;
use pevghazo_reference::session::Session;
use pevghazo_reference::table::{GroupRecord as Reference, Table};

/// A call for a group, with all that it is handed beside the table and the allowance.
#[derive(Clone)]
struct Call {
    group: u32,
    kind: Kind,
}

#[derive(Clone)]
enum Kind {
    Open { key: Vec<u8> },
    Wrap { header: Option<Vec<u8>>, metadata: Vec<u8>, message: Vec<u8>, out: Vec<u8>, tag: Vec<u8> },
    Unwrap { header: Option<Vec<u8>>, metadata: Vec<u8>, cryptogram: Vec<u8>, tag: Vec<u8>, out: Vec<u8> },
}

/// What a call gives: its answer, and what its output and tag buffers hold then.
#[derive(Debug, PartialEq, Eq)]
struct Given {
    answer: Answer,
    out: Vec<u8>,
    tag: Vec<u8>,
}

impl Call {
    /// The call on the library's records, by either of its functions where there are two.
    fn on_library(&self, random: &mut Random, table: &mut [GroupRecord], allowance: u32) -> Given {
        let (by, at) = (By::any(random), (self.group, allowance));
        match self.kind.clone() {
            Kind::Open { key } => {
                Given { answer: raw::open_group(table, self.group, allowance, &key), out: vec![], tag: vec![] }
            }
            Kind::Wrap { header, metadata, message, mut out, mut tag } => {
                let (texts, buffers) = ([&metadata[..], &message], [&mut out[..], &mut tag]);
                let answer = wrap_group(by, table, at, header.as_deref(), texts, buffers);
                Given { answer, out, tag }
            }
            Kind::Unwrap { header, metadata, cryptogram, tag, mut out } => {
                let arrived = [&metadata[..], &cryptogram, &tag];
                let answer = unwrap_group(by, table, at, header.as_deref(), arrived, &mut out);
                Given { answer, out, tag }
            }
        }
    }

    /// The call on a table of the reference.
    fn on_reference(&self, table: &mut Table) -> Given {
        match self.kind.clone() {
            Kind::Open { key } => {
                Given { answer: answer_of(table.open_group(self.group, &key)), out: vec![], tag: vec![] }
            }
            Kind::Wrap { header, metadata, message, mut out, mut tag } => {
                let answer = table.wrap_for(self.group, header.as_deref(), &metadata, &message, &mut out, &mut tag);
                Given { answer: answer_of(answer), out, tag }
            }
            Kind::Unwrap { header, metadata, cryptogram, tag, mut out } => {
                let answer = table.unwrap_for(self.group, header.as_deref(), &metadata, &cryptogram, &tag, &mut out);
                Given { answer: answer_of(answer), out, tag }
            }
        }
    }
}

/// Some bytes, now and then four blocks or more than a call takes.
fn some_bytes(random: &mut Random) -> Vec<u8> {
    let length = if random.once_in(6) { random.pick(&[0, 47, 48, 49, 96, 192, 400]) } else { random.below(120) };
    let bytes = random.bytes(length);
    maybe_long(random, &bytes, 40)
}

/// The header of a call for a group, now and then of another one; or none, for a call without an envelope.
fn some_header(random: &mut Random, group: u32, metadata: &[u8], message: &[u8]) -> Option<Vec<u8>> {
    let other = any_envelope(random)?;
    let named = if random.once_in(12) { other } else { group };
    Some(header(b'S', named, metadata.len(), message.len()))
}

/// What this group's session takes for the next message, mostly; a damaged one, or one of another session, is refused.
fn some_arrival(random: &mut Random, group: u32, session: &Session) -> Arrival {
    let (metadata, message) = (some_bytes(random), some_bytes(random));
    let header = some_header(random, group, &metadata, &message);
    let mut arrival = next_arrival(session, header, metadata, message);
    arrival.tag.truncate(other_length(random, 32, 20));
    if random.once_in(3) { arrival.damaged(random, b'S', &mut Ways::default()) } else { arrival }
}

/// A call for a group with this session.
fn some_call(random: &mut Random, group: u32, session: &Session) -> Call {
    let kind = match random.below(8) {
        0 => {
            let usual = key(random);
            let length = other_length(random, usual.len(), 4);
            Kind::Open { key: random.bytes(length) }
        }
        1..4 => {
            let (metadata, message) = (some_bytes(random), some_bytes(random));
            let lengths = (metadata.len(), message.len());
            let whole = some_header(random, group, &metadata, &message);
            let header = whole.map(|whole| maybe_misfit(random, &mut Ways::default(), 12, whole, lengths));
            let (room, tag) = (other_length(random, message.len(), 20), other_length(random, 32, 20));
            Kind::Wrap { header, metadata, message, out: random.bytes(room), tag: random.bytes(tag) }
        }
        _ => {
            let Arrival { header, metadata, cryptogram, tag, .. } = some_arrival(random, group, session);
            let room = other_length(random, cryptogram.len(), 20);
            Kind::Unwrap { header, metadata, cryptogram, tag, out: random.bytes(room) }
        }
    };
    Call { group, kind }
}

/// A call for any number but this group's, also for one that no group has.
fn call_beside(random: &mut Random, group: u32, table: &[GroupRecord]) -> Call {
    let other = match random.below(10) {
        0 => random.pick(&[32, 33, 32 + group, 256 + group, 1 << 31 | group, u32::MAX]),
        _ => (group + 1 + random.below(31) as u32) % 32,
    };
    let session = table.get(other as usize).map_or(Session::CLOSED, |record| record.session.reference());
    some_call(random, other, &session)
}

/// 32 records of the library, with any numbers but for this group's.
fn table_with(random: &mut Random, group: u32, record: &Reference) -> Vec<GroupRecord> {
    let any = (0..32).map(|other| if other == group { record.clone() } else { any_record(random) });
    any.map(|record| group_record_of(&record)).collect()
}

/// A session that can go on: any record, or a fresh one.
fn some_session(random: &mut Random) -> Session {
    if random.once_in(3) { any_session(random) } else { Session::start(&key(random)).unwrap() }
}

/// A group's calls of a day under an allowance; with what they give and the record that they leave where no other group calls,
/// which the independent implementation works out.
struct Day {
    group: u32,
    allowance: u32,
    calls: Vec<Call>,
    given: Vec<Given>,
    left: Reference,
}

impl Day {
    /// Some calls from this record on, each one for the session as the calls before it leave it.
    fn of(random: &mut Random, group: u32, record: &Reference, allowance: u32) -> Day {
        let mut alone = Table { allowance, ..Table::new() };
        alone.records[group as usize] = record.clone();
        let (mut calls, mut given) = (Vec::new(), Vec::new());
        for _ in 0..1 + random.below(8) {
            let call = some_call(random, group, &alone.records[group as usize].session);
            given.push(call.on_reference(&mut alone));
            calls.push(call);
        }
        Day { group, allowance, calls, given, left: alone.records.swap_remove(group as usize) }
    }

    /// Up to three calls for other groups.
    fn calls_beside(&self, random: &mut Random, table: &mut [GroupRecord]) {
        for _ in 0..random.below(4) {
            let beside = call_beside(random, self.group, table);
            beside.on_library(random, table, self.allowance);
        }
    }

    /// The group's calls on this table, in their order, with other groups' calls before, between and after them.
    fn check(&self, random: &mut Random, mut table: Vec<GroupRecord>) {
        for (call, expected) in self.calls.iter().zip(&self.given) {
            self.calls_beside(random, &mut table);
            let given = call.on_library(random, &mut table, self.allowance);
            assert!(given == *expected, "group {}: another answer or buffer, {:?}", self.group, given.answer);
        }
        self.calls_beside(random, &mut table);
        let GroupRecord { session, count } = &table[self.group as usize];
        assert_eq!(*count, self.left.count, "the count of group {}", self.group);
        assert!(session.reference() == self.left.session, "the session of group {}", self.group);
    }
}

/// An allowance under which a group with this count makes some calls, and some that it does not cover.
fn some_allowance(random: &mut Random, count: u32) -> u32 {
    if random.once_in(8) { any_number(random) } else { count.saturating_add(random.below(120) as u32) }
}

/// Counts the answers by their numbers.
fn tally(numbers: &mut [u32; 13], given: &[Given]) {
    given.iter().for_each(|given| numbers[given.answer.number as usize] += 1);
}

/// Accepted calls and the refusals that a group's calls meet have all been there.
fn check_numbers(numbers: &[u32; 13]) {
    if is_whole_run() {
        assert!([0, 1, 4, 5, 6, 7, 8, 9, 10, 11].iter().all(|number| numbers[*number] >= 5), "{numbers:?}");
        assert!(numbers[0] > 1_000 && numbers[10] > 200 && numbers[11] > 200, "{numbers:?}");
    }
}

#[test]
fn tables_that_agree_in_a_record() {
    let mut numbers = [0; 13];
    cases("tables_that_agree_in_a_record", |random| {
        let group = random.below(32) as u32;
        let record = Reference { session: some_session(random), count: any_number(random) };
        let allowance = some_allowance(random, record.count);
        let day = Day::of(random, group, &record, allowance);
        for _ in 0..2 {
            let table = table_with(random, group, &record);
            day.check(random, table);
        }
        tally(&mut numbers, &day.given);
    });
    check_numbers(&numbers);
}

#[test]
fn days_of_tables_that_agree_in_a_session() {
    let mut numbers = [0; 13];
    cases("days_of_tables_that_agree_in_a_session", |random| {
        let group = random.below(32) as u32;
        let record = Reference { session: some_session(random), count: 0 };
        let allowance = some_allowance(random, 0);
        let day = Day::of(random, group, &record, allowance);
        for _ in 0..2 {
            let mut table = table_with(random, group, &record);
            table[group as usize].count = any_number(random);
            assert_eq!(raw::start_day(&mut table, allowance), allowance);
            day.check(random, table);
        }
        tally(&mut numbers, &day.given);
    });
    check_numbers(&numbers);
}
