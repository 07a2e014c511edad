//! The office's table, held twice: by the library, and by the reference.

use pevghazo::raw::{self, Answer, Found, GroupRecord};
use pevghazo_reference::random::Random;
use pevghazo_reference::refusal::Number;
use pevghazo_reference::session::Header;
use pevghazo_reference::table::{GroupRecord as Reference, Table};

use super::{By, Held, answer_of, any_session, other_length, packet, record_of, same};

/// A table held twice. Each call is made on both with buffers of the same content, and answers, whole buffers, all sessions and all
/// counts must be the same. Wraps and unwraps are made by each of the library's two functions; the office's choice goes on.
pub struct Tables {
    pub records: Vec<GroupRecord>,
    pub allowance: u32,
    pub reference: Table,
    pub by: By,
}

/// The library's record for one of the reference.
pub fn group_record_of(reference: &Reference) -> GroupRecord {
    GroupRecord { session: record_of(&reference.session), count: reference.count }
}

/// The reference's answer to the nearly-full question as the library gives it.
pub fn found_of(answer: Result<Option<u32>, Number>) -> Found {
    match answer {
        Ok(Some(group)) => Found { number: 0, found: true, group },
        Ok(None) => Found { number: 0, found: false, group: 0 },
        Err(number) => Found { number: number.number().into(), found: false, group: 0 },
    }
}

/// Whether two records have the same session and count. Only tests compare them.
pub fn same_group(a: &GroupRecord, b: &GroupRecord) -> bool {
    same(&a.session, &b.session) && a.count == b.count
}

/// A count or an allowance: any number, often one near 0 or near 2^32, or one that some calls fit in.
pub fn any_number(random: &mut Random) -> u32 {
    match random.below(6) {
        0 => random.bits() as u32,
        1 => u32::MAX - random.below(1_100) as u32,
        2 => random.pick(&[0, 1, u32::MAX - 1, u32::MAX]),
        _ => random.below(5_000) as u32,
    }
}

/// A record with any numbers, also ones that no calls leave behind.
pub fn any_record(random: &mut Random) -> Reference {
    Reference { session: any_session(random), count: any_number(random) }
}

/// Wraps for a group with the library, for the envelope with this header or without one.
pub fn wrap_group(
    by: By,
    table: &mut [GroupRecord],
    (group, allowance): (u32, u32),
    header: Header<'_>,
    [a, m]: [&[u8]; 2],
    [out, tag]: [&mut [u8]; 2],
) -> Answer {
    match (by, header) {
        (By::One, Some(header)) => raw::wrap_envelope_group(table, group, allowance, header, a, m, out, tag),
        (By::One, None) => raw::wrap_group(table, group, allowance, a, m, out, tag),
        (By::Four, Some(header)) => raw::wrap_envelope_group_four(table, group, allowance, header, a, m, out, tag),
        (By::Four, None) => raw::wrap_group_four(table, group, allowance, a, m, out, tag),
    }
}

/// Unwraps for a group with the library, for the envelope with this header or without one.
pub fn unwrap_group(
    by: By,
    table: &mut [GroupRecord],
    (group, allowance): (u32, u32),
    header: Header<'_>,
    [a, c, tag]: [&[u8]; 3],
    out: &mut [u8],
) -> Answer {
    match (by, header) {
        (By::One, Some(header)) => raw::unwrap_envelope_group(table, group, allowance, header, a, c, tag, out),
        (By::One, None) => raw::unwrap_group(table, group, allowance, a, c, tag, out),
        (By::Four, Some(header)) => raw::unwrap_envelope_group_four(table, group, allowance, header, a, c, tag, out),
        (By::Four, None) => raw::unwrap_group_four(table, group, allowance, a, c, tag, out),
    }
}

impl Tables {
    /// The same table on both sides.
    pub fn of(reference: Table) -> Tables {
        let records = reference.records.iter().map(group_record_of).collect();
        Tables { records, allowance: reference.allowance, reference, by: By::One }
    }

    /// The office with a choice for its next calls.
    pub fn by(&mut self, by: By) -> &mut Tables {
        self.by = by;
        self
    }

    /// What the library's records hold.
    fn content(&self) -> Vec<Reference> {
        let content = |record: &GroupRecord| Reference { session: record.session.reference(), count: record.count };
        self.records.iter().map(content).collect()
    }

    /// Both sides hold the same, and the library gave the reference's answer.
    fn check(&self, given: Answer, answer: Answer) {
        assert_eq!(given, answer);
        self.check_records();
    }

    /// Both sides hold the same records and the same allowance.
    fn check_records(&self) {
        assert_eq!((self.records.len(), self.allowance), (self.reference.records.len(), self.reference.allowance));
        for (group, (library, reference)) in self.records.iter().zip(&self.reference.records).enumerate() {
            assert_eq!(library.count, reference.count, "the counts of group {group} differ");
            assert!(same(&library.session, &record_of(&reference.session)), "the sessions of group {group} differ");
        }
    }

    /// Sets a group's count on both sides; where there is no such record nothing happens.
    pub fn set_count(&mut self, group: u32, count: u32) {
        if let Some(record) = self.records.get_mut(group as usize) {
            record.count = count;
            self.reference.records[group as usize].count = count;
        }
    }

    pub fn start_day(&mut self, allowance: u32) {
        self.reference.start_day(allowance);
        self.allowance = raw::start_day(&mut self.records, allowance);
        self.check_records();
    }

    pub fn open_group(&mut self, group: u32, key: &[u8]) -> Answer {
        let answer = answer_of(self.reference.open_group(group, key));
        let given = raw::open_group(&mut self.records, group, self.allowance, key);
        self.check(given, answer);
        given
    }

    pub fn wrap(&mut self, group: u32, metadata: &[u8], message: &[u8], out: &mut [u8], tag: &mut [u8]) -> Answer {
        self.wrap_for(group, None, metadata, message, out, tag)
    }

    /// Wraps for the envelope with this header, or without one.
    pub fn wrap_for(
        &mut self,
        group: u32,
        header: Header<'_>,
        metadata: &[u8],
        message: &[u8],
        out: &mut [u8],
        tag: &mut [u8],
    ) -> Answer {
        let (before, kept) = (self.content(), (out.to_vec(), tag.to_vec()));
        let (mut out_too, mut tag_too) = kept.clone();
        let answer = answer_of(self.reference.wrap_for(group, header, metadata, message, &mut out_too, &mut tag_too));
        for by in [self.by.other(), self.by] {
            self.records = before.iter().map(group_record_of).collect();
            out.copy_from_slice(&kept.0);
            tag.copy_from_slice(&kept.1);
            let (at, buffers) = ((group, self.allowance), [&mut *out, &mut *tag]);
            let given = wrap_group(by, &mut self.records, at, header, [metadata, message], buffers);
            assert!(out == out_too && tag == tag_too, "wrap by {by:?}: the buffers differ");
            self.check(given, answer);
        }
        answer
    }

    pub fn unwrap(&mut self, group: u32, metadata: &[u8], cryptogram: &[u8], tag: &[u8], out: &mut [u8]) -> Answer {
        self.unwrap_for(group, None, metadata, cryptogram, tag, out)
    }

    /// Unwraps for the envelope with this header, or without one.
    pub fn unwrap_for(
        &mut self,
        group: u32,
        header: Header<'_>,
        metadata: &[u8],
        cryptogram: &[u8],
        tag: &[u8],
        out: &mut [u8],
    ) -> Answer {
        let (before, kept) = (self.content(), out.to_vec());
        let mut out_too = kept.clone();
        let answer = answer_of(self.reference.unwrap_for(group, header, metadata, cryptogram, tag, &mut out_too));
        for by in [self.by.other(), self.by] {
            self.records = before.iter().map(group_record_of).collect();
            out.copy_from_slice(&kept);
            let (at, arrived) = ((group, self.allowance), [metadata, cryptogram, tag]);
            let given = unwrap_group(by, &mut self.records, at, header, arrived, out);
            assert!(out == out_too, "unwrap by {by:?}: the buffers differ");
            self.check(given, answer);
        }
        answer
    }

    /// A code is asked of the group's session, past the table: its size, its other records, counts and allowance play no part.
    pub fn code(&self, random: &mut Random, group: usize) -> Answer {
        let (packet, room) = (packet(random), other_length(random, 8, 4));
        let mut out = random.bytes(room);
        let mut out_too = out.clone();
        let given = raw::code(&self.records[group].session, packet, &mut out);
        let answer = self.reference.records[group].session.code(packet, &mut out_too);
        assert!(out == out_too, "code: the buffers differ");
        self.check(given, answer_of(answer));
        given
    }

    /// The nearly-full question: number and group must be the reference's.
    pub fn nearly_full(&self, mark: u32) -> Found {
        let given = raw::nearly_full(&self.records, mark);
        assert_eq!(given, found_of(self.reference.nearly_full(mark)), "mark {mark}");
        self.check_records();
        given
    }
}
