//! The office's table of sessions (document 01, "The row"; the counts of document 02, request 4; the lowest nearly full group of
//! its request 5; the calls for an envelope of its request 7).
//!
//! The table has 32 records, one for each group: a session and, beside it, the group's own count of the day's permutations. One
//! allowance holds for every group.

use crate::envelope::{SANSE_LETTER, check_header};
use crate::refusal::{Number, Refusal};
use crate::session::{Header, Session};

/// The number of records of a table.
pub const GROUPS: usize = 32;

/// A group's record. Its fields are open so that tests can make any record.
#[derive(Clone, Debug, PartialEq, Eq)]
pub struct GroupRecord {
    /// The session.
    pub session: Session,
    /// The permutations of this group's calls of the day so far.
    pub count: u32,
}

/// The table and its allowance. The fields are open so that tests can make any table, also one that is too short or too long.
#[derive(Clone, Debug, PartialEq, Eq)]
pub struct Table {
    /// The records, by group.
    pub records: Vec<GroupRecord>,
    /// The most permutations that the calls of each group may make in a day.
    pub allowance: u32,
}

impl GroupRecord {
    /// A closed session and a count of 0.
    pub const CLOSED: GroupRecord = GroupRecord { session: Session::CLOSED, count: 0 };

    /// Check 10, which looks at this group alone.
    fn check_allowance(&self, allowance: u32, count: u32) -> Result<(), Number> {
        let needed = u64::from(self.count) + u64::from(count);
        if u64::from(allowance) < needed { Err(Number::Allowance) } else { Ok(()) }
    }

    /// Adds the count of an answer to the group's: that of an accepted call, or of a wrong tag.
    fn charge(&mut self, answer: Result<u32, Refusal>) -> Result<u32, Refusal> {
        self.count += answer.unwrap_or_else(|refusal| refusal.count);
        answer
    }
}

impl Default for Table {
    fn default() -> Table {
        Table::new()
    }
}

impl Table {
    /// The table before the first day: 32 closed records, counts and allowance 0.
    pub fn new() -> Table {
        Table { records: vec![GroupRecord::CLOSED; GROUPS], allowance: 0 }
    }

    /// Starts a day: every group has this allowance and a count of 0, however many records there are. Never refused.
    pub fn start_day(&mut self, allowance: u32) {
        self.allowance = allowance;
        for record in &mut self.records {
            record.count = 0;
        }
    }

    /// Check 3.
    fn check_group(&self, group: u32) -> Result<(), Number> {
        if self.records.len() == GROUPS && (group as usize) < GROUPS { Ok(()) } else { Err(Number::Group) }
    }

    /// The allowance, and a group's record. Meets 3.
    fn group(&mut self, group: u32) -> Result<(u32, &mut GroupRecord), Number> {
        self.check_group(group)?;
        Ok((self.allowance, &mut self.records[group as usize]))
    }

    /// Replaces a group's session by a fresh one under this key, and gives the count, which is added to the group's. Meets 3, 4
    /// and 10.
    pub fn open_group(&mut self, group: u32, key: &[u8]) -> Result<u32, Refusal> {
        let (allowance, record) = self.group(group)?;
        let session = Session::start(key)?;
        record.check_allowance(allowance, Session::START_COUNT)?;
        record.session = session;
        record.charge(Ok(Session::START_COUNT))
    }

    /// Wraps for a group; see [`Session::wrap`]. Meets 3 and 5 to 10.
    pub fn wrap(
        &mut self,
        group: u32,
        metadata: &[u8],
        message: &[u8],
        cryptogram: &mut [u8],
        tag: &mut [u8],
    ) -> Result<u32, Refusal> {
        self.wrap_for(group, None, metadata, message, cryptogram, tag)
    }

    /// [`Table::wrap`] for the envelope with this header, which meets 1 first, also for a header of another group; or without one.
    pub fn wrap_for(
        &mut self,
        group: u32,
        header: Header<'_>,
        metadata: &[u8],
        message: &[u8],
        cryptogram: &mut [u8],
        tag: &mut [u8],
    ) -> Result<u32, Refusal> {
        check_group_header(group, header, metadata, message)?;
        let (allowance, record) = self.group(group)?;
        let count = record.session.check(header, metadata.len(), message.len(), tag.len(), cryptogram.len())?;
        record.check_allowance(allowance, count)?;
        let answer = record.session.wrap_for(header, metadata, message, cryptogram, tag);
        record.charge(answer)
    }

    /// Unwraps for a group; see [`Session::unwrap`]. Meets 3 and 5 to 11; number 11 adds its count to the group's.
    pub fn unwrap(
        &mut self,
        group: u32,
        metadata: &[u8],
        cryptogram: &[u8],
        tag: &[u8],
        message: &mut [u8],
    ) -> Result<u32, Refusal> {
        self.unwrap_for(group, None, metadata, cryptogram, tag, message)
    }

    /// [`Table::unwrap`] of what arrived in the envelope with this header, which meets 1 first, also for a header of another group;
    /// or without one.
    pub fn unwrap_for(
        &mut self,
        group: u32,
        header: Header<'_>,
        metadata: &[u8],
        cryptogram: &[u8],
        tag: &[u8],
        message: &mut [u8],
    ) -> Result<u32, Refusal> {
        check_group_header(group, header, metadata, cryptogram)?;
        let (allowance, record) = self.group(group)?;
        let count = record.session.check(header, metadata.len(), cryptogram.len(), tag.len(), message.len())?;
        record.check_allowance(allowance, count)?;
        let answer = record.session.unwrap_for(header, metadata, cryptogram, tag, message);
        record.charge(answer)
    }

    /// The lowest group whose session is open with an index above the mark, or none if there is no such group. Meets 3 for a
    /// table that does not hold 32 records.
    pub fn nearly_full(&self, mark: u32) -> Result<Option<u32>, Number> {
        self.check_group(0)?;
        let is_nearly_full = |session: &Session| session.open && session.index > mark;
        Ok((0..).zip(&self.records).find(|(_, record)| is_nearly_full(&record.session)).map(|(group, _)| group))
    }
}

/// Check 1 of a call for a group, where it is handed a header.
fn check_group_header(group: u32, header: Header<'_>, metadata: &[u8], text: &[u8]) -> Result<(), Number> {
    match header {
        Some(bytes) => check_header(bytes, SANSE_LETTER, Some(group), metadata.len(), text.len()),
        None => Ok(()),
    }
}
