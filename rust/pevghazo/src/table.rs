//! The office's table of sessions.

use std::fmt;

use crate::by_four::by_four;
use crate::code::Code;
use crate::envelope::{self, Envelope, Letter, header_for, sealed};
use crate::raw::{self, Answer, GroupRecord};
use crate::record;
use crate::refusal::{BadBytes, Number, Refusal, answer};
use crate::secret::Secret;
use crate::texts::{Arrival, Opened, Plain, Sealed, Unwrapped, Wrapped};
use crate::{GROUPS, Tag};

/// The office's table: for each of 32 groups a session and, beside it, the group's own count of the day's permutations; and one
/// allowance, the most that each group may count in a day.
///
/// Its memory is set to zero when it is dropped, and like a session it cannot be copied. Its calls are those of a
/// [`Session`](crate::Session), for a group.
///
/// ```
/// use pevghazo::{Number, Plain, Session, Table};
///
/// # fn main() -> Result<(), pevghazo::Refusal> {
/// let key = b"the key of group 7.....";
/// let mut office = Table::new();
/// // Before the first day there is no allowance.
/// assert_eq!(office.open_group(7, key).unwrap_err().number, Number::Allowance);
///
/// office.start_day(10);
/// office.open_group(7, key)?;
/// let (mut group, _) = Session::start(key)?;
///
/// let block = Plain { metadata: b"size C", message: b"12001-12100" };
/// let sealed = office.seal(7, &block)?;
/// assert_eq!(group.open(&sealed.envelope)?.message, b"12001-12100");
/// assert_eq!(office.group(7).unwrap().count, 1 + sealed.count);
/// assert_eq!(office.left(7), Some(9 - sealed.count));
///
/// assert_eq!(office.seal(7, &block).unwrap_err().number, Number::Allowance);
/// assert_eq!(office.seal(8, &block).unwrap_err().number, Number::NotOpen);
/// assert_eq!(office.nearly_full(3), Some(7));
///
/// // A group that has used its allowance does not stop the others.
/// office.open_group(8, b"the key of group 8.....")?;
/// let _for_group_8 = office.seal(8, &block)?;
///
/// // An envelope names its group, so the office opens it without being told.
/// office.start_day(10);
/// let sealed = group.seal(7, &Plain { metadata: b"", message: b"12096-12100" })?;
/// let opened = office.open(&sealed.envelope)?;
/// assert_eq!((opened.group, &opened.message[..]), (7, &b"12096-12100"[..]));
/// # Ok(())
/// # }
/// ```
///
/// ```compile_fail,E0599
/// let table = pevghazo::Table::new();
/// let copy = table.clone();
/// ```
pub struct Table {
    /// In a box, so that a moved table leaves nothing behind.
    records: Box<[GroupRecord; GROUPS]>,
    allowance: u32,
}

/// What may be seen of a group's session, and its count of the day.
#[derive(Clone, Copy, Debug, PartialEq, Eq)]
pub struct Group {
    /// The group's number, 0 to 31.
    pub group: u32,
    /// Whether the session is open.
    pub is_open: bool,
    /// The index, up to 1,048,576.
    pub index: u32,
    /// The toggle, which changes with each accepted message.
    pub toggle: bool,
    /// The permutations of this group's calls since the day began.
    pub count: u32,
}

impl Default for Table {
    fn default() -> Table {
        Table::new()
    }
}

impl Table {
    /// The bytes of a stored table.
    pub const BYTES: usize = GROUPS * GROUP_BYTES + 4;

    /// The bytes of a table as versions up to 0.4 stored it.
    pub const BYTES_BEFORE: usize = GROUPS * record::BYTES + 8;

    /// The table before the first day: 32 closed sessions, and all counts and the allowance 0.
    #[must_use]
    pub fn new() -> Table {
        let records: Box<[GroupRecord]> = (0..GROUPS).map(|_| GroupRecord::closed()).collect();
        let Ok(records) = records.try_into() else { unreachable!("there are as many as groups") };
        Table { records, allowance: 0 }
    }

    /// Starts a day: every group has this allowance and a count of 0, and every session stays. Never refused.
    pub fn start_day(&mut self, allowance: u32) {
        self.allowance = raw::start_day(&mut self.records[..], allowance);
    }

    /// The allowance: the most permutations that each group may count in the day.
    #[must_use]
    pub fn allowance(&self) -> u32 {
        self.allowance
    }

    /// What is left of a group's allowance: nothing where its count is above it. None for a group above 31.
    ///
    /// ```
    /// use pevghazo::Table;
    ///
    /// # fn main() -> Result<(), pevghazo::Refusal> {
    /// let mut table = Table::new();
    /// table.start_day(1_000);
    /// table.open_group(31, &[7; 16])?;
    /// assert_eq!((table.left(30), table.left(31), table.left(32)), (Some(1_000), Some(999), None));
    /// # Ok(())
    /// # }
    /// ```
    #[must_use]
    pub fn left(&self, group: u32) -> Option<u32> {
        Some(self.allowance.saturating_sub(self.record(group)?.count))
    }

    /// Replaces a group's session by a fresh one under this key, and gives the permutations done. They are added to the
    /// group's count, which is not set back. Checks 3, 4 and 10; a refusal leaves the old session and the count.
    pub fn open_group(&mut self, group: u32, key: &[u8]) -> Result<u32, Refusal> {
        given(raw::open_group(&mut self.records[..], group, self.allowance, key))
    }

    /// [`Session::wrap`](crate::Session::wrap) for a group. Checks 3, 5, 6, 9 and 10.
    pub fn wrap(&mut self, group: u32, plain: &Plain<'_>) -> Result<Wrapped, Refusal> {
        Wrapped::by(plain.message.len(), |out, tag| self.wrap_to(group, plain, out, tag))
    }

    /// [`Session::wrap_to`](crate::Session::wrap_to) for a group. Checks 3, 5, 6 and 8 to 10.
    pub fn wrap_to(&mut self, group: u32, plain: &Plain<'_>, out: &mut [u8], tag: &mut Tag) -> Result<u32, Refusal> {
        let Plain { metadata, message } = *plain;
        let wrap = if by_four(metadata, message) { raw::wrap_group_four } else { raw::wrap_group };
        given(wrap(&mut self.records[..], group, self.allowance, metadata, message, out, tag))
    }

    /// [`Session::unwrap`](crate::Session::unwrap) for a group. Checks 3, 5, 6 and 9 to 11; 11 adds its count to the group's.
    pub fn unwrap(&mut self, group: u32, arrival: &Arrival<'_>) -> Result<Unwrapped, Refusal> {
        Unwrapped::by(arrival.cryptogram.len(), |out| self.unwrap_to(group, arrival, out))
    }

    /// [`Session::unwrap_to`](crate::Session::unwrap_to) for a group. Checks 3, 5, 6 and 8 to 11; 11 adds its count to the
    /// group's.
    pub fn unwrap_to(&mut self, group: u32, arrival: &Arrival<'_>, out: &mut [u8]) -> Result<u32, Refusal> {
        let Arrival { metadata, cryptogram, tag } = *arrival;
        let unwrap = if by_four(metadata, cryptogram) { raw::unwrap_group_four } else { raw::unwrap_group };
        given(unwrap(&mut self.records[..], group, self.allowance, metadata, cryptogram, tag, out))
    }

    /// [`Session::wrap_envelope`](crate::Session::wrap_envelope) for a group. Checks 1, 5, 9 and 10; a header of another group
    /// gets 1.
    pub fn wrap_envelope(&mut self, group: u32, header: &[u8], plain: &Plain<'_>) -> Result<Wrapped, Refusal> {
        Wrapped::by(plain.message.len(), |out, tag| self.wrap_envelope_to(group, header, plain, out, tag))
    }

    /// [`Session::wrap_envelope_to`](crate::Session::wrap_envelope_to) for a group. Checks 1, 5 and 8 to 10.
    pub fn wrap_envelope_to(
        &mut self,
        group: u32,
        header: &[u8],
        plain: &Plain<'_>,
        out: &mut [u8],
        tag: &mut Tag,
    ) -> Result<u32, Refusal> {
        let Plain { metadata, message } = *plain;
        let wrap = if by_four(metadata, message) { raw::wrap_envelope_group_four } else { raw::wrap_envelope_group };
        given(wrap(&mut self.records[..], group, self.allowance, header, metadata, message, out, tag))
    }

    /// [`Session::unwrap_envelope`](crate::Session::unwrap_envelope) for a group. Checks 1, 5 and 9 to 11; an envelope of another
    /// group gets 1, and 11 adds its count to the group's.
    pub fn unwrap_envelope(&mut self, group: u32, envelope: &Envelope<'_>) -> Result<Unwrapped, Refusal> {
        Unwrapped::by(envelope.cryptogram.len(), |out| self.unwrap_envelope_to(group, envelope, out))
    }

    /// [`Session::unwrap_envelope_to`](crate::Session::unwrap_envelope_to) for a group. Checks 1, 5 and 8 to 11; 11 adds its count
    /// to the group's.
    pub fn unwrap_envelope_to(&mut self, group: u32, envelope: &Envelope<'_>, out: &mut [u8]) -> Result<u32, Refusal> {
        let Envelope { header, metadata, cryptogram, tag, .. } = *envelope;
        let four = by_four(metadata, cryptogram);
        let unwrap = if four { raw::unwrap_envelope_group_four } else { raw::unwrap_envelope_group };
        given(unwrap(&mut self.records[..], group, self.allowance, header, metadata, cryptogram, tag, out))
    }

    /// Seals a message into an envelope for a group. Checks 3, 5, 6, 9 and 10.
    pub fn seal(&mut self, group: u32, plain: &Plain<'_>) -> Result<Sealed, Refusal> {
        let is_open = self.record(group).is_some_and(|record| record.session.opened);
        let header = header_for(Letter::S, group, is_open, plain)?;
        let wrapped = self.wrap_envelope(group, &header, plain)?;
        Ok(sealed(Letter::S, group, plain, &wrapped))
    }

    /// Opens the envelope at the start of the bytes, with the session of the group that its header names; more bytes may
    /// follow. Checks 1, 2, 5 and 9 to 11; 11 adds its count to the group's. An envelope with another
    /// [letter](Letter) gets 1.
    pub fn open<'a>(&mut self, bytes: &'a [u8]) -> Result<Opened<'a>, Refusal> {
        let envelope = envelope::read(bytes)?;
        envelope.opened(|out| self.unwrap_envelope_to(envelope.group, &envelope, out))
    }

    /// [`Session::code`](crate::Session::code) of a group's session: the code of a packet, 0 to 2,047, and the permutations
    /// done. Checks 3, 5 and 12. The allowance is not looked at, and the group's count stays.
    pub fn code(&self, group: u32, packet: u32) -> Result<(Code, u32), Refusal> {
        let record = self.record(group).ok_or(Refusal { number: Number::BadGroup, count: 0 })?;
        Code::of(&record.session, packet)
    }

    /// The lowest group that is open with an index above the mark; none exactly where there is none.
    #[must_use]
    pub fn nearly_full(&self, mark: u32) -> Option<u32> {
        let given = raw::nearly_full(&self.records[..], mark);
        assert_eq!(given.number, 0, "a table has 32 records");
        given.found.then_some(given.group)
    }

    /// All groups that are open with an index above the mark, in rising order. The first is that of [`Table::nearly_full`]. They are
    /// read off the table here, and not by the proved library.
    ///
    /// ```
    /// use pevghazo::{Plain, Table};
    ///
    /// # fn main() -> Result<(), pevghazo::Refusal> {
    /// let mut office = Table::new();
    /// office.start_day(1_000);
    /// for group in [21, 9, 4] {
    ///     office.open_group(group, &[group as u8; 16])?;
    /// }
    /// // A message without bytes takes 2 of the index.
    /// for group in [21, 21, 9, 4, 4] {
    ///     let _sealed = office.seal(group, &Plain { metadata: b"", message: b"" })?;
    /// }
    /// assert!(office.all_nearly_full(2).eq([4, 21]));
    ///
    /// office.open_group(4, b"a new key of group 4")?;
    /// assert!(office.all_nearly_full(2).eq([21]));
    /// # Ok(())
    /// # }
    /// ```
    pub fn all_nearly_full(&self, mark: u32) -> impl Iterator<Item = u32> {
        self.groups().filter(move |group| group.is_open && group.index > mark).map(|group| group.group)
    }

    /// A group's record; none for a group above 31.
    fn record(&self, group: u32) -> Option<&GroupRecord> {
        self.records.get(usize::try_from(group).ok()?)
    }

    /// What may be seen of a group's session, and its count of the day; none for a group above 31.
    #[must_use]
    pub fn group(&self, group: u32) -> Option<Group> {
        let GroupRecord { session, count } = self.record(group)?;
        let (is_open, index, toggle) = (session.opened, session.index, session.toggle);
        Some(Group { group, is_open, index, toggle, count: *count })
    }

    /// All 32 groups, in their order.
    pub fn groups(&self) -> impl Iterator<Item = Group> {
        (0..GROUPS as u32).filter_map(|group| self.group(group))
    }

    /// The table's bytes, for storing it: for each group, in their order, the session as in
    /// [`Session::to_bytes`](crate::Session::to_bytes) and the count; then the allowance. Counts and allowance have 32 bits
    /// each and are little-endian. The bytes are as secret as the sessions, and set to zero when they are dropped.
    ///
    /// ```
    /// use pevghazo::Table;
    ///
    /// # fn main() -> Result<(), pevghazo::Refusal> {
    /// let mut table = Table::new();
    /// table.start_day(1_000);
    /// table.open_group(31, &[7; 16])?;
    /// let bytes = table.to_bytes();
    /// drop(table);
    ///
    /// let table = Table::from_bytes(&bytes).unwrap();
    /// let group = table.group(31).unwrap();
    /// assert_eq!((group.is_open, group.count, table.allowance()), (true, 1, 1_000));
    /// # Ok(())
    /// # }
    /// ```
    #[must_use]
    pub fn to_bytes(&self) -> Secret {
        let mut bytes = Secret::zeros(Table::BYTES);
        let (records, allowance) = bytes.bytes_mut().split_at_mut(GROUPS * GROUP_BYTES);
        for (place, record) in records.chunks_exact_mut(GROUP_BYTES).zip(self.records.iter()) {
            let (session, count) = place.split_at_mut(record::BYTES);
            record::store(&record.session, session);
            count.copy_from_slice(&record.count.to_le_bytes());
        }
        allowance.copy_from_slice(&self.allowance.to_le_bytes());
        bytes
    }

    /// A table from its stored bytes, which are refused as [`Session::from_bytes`](crate::Session::from_bytes) refuses them.
    pub fn from_bytes(bytes: &[u8]) -> Result<Table, BadBytes> {
        record::check_length(Table::BYTES, bytes.len())?;
        let (records, allowance) = bytes.split_at(GROUPS * GROUP_BYTES);
        Table::load(records.chunks_exact(GROUP_BYTES).map(|record| record.split_at(record::BYTES)), allowance)
    }

    /// A table from the bytes that versions up to 0.4 stored: the sessions in their order, then the one count and the allowance
    /// of a day that all groups shared. Each group's count is that one, so none has more left than all had together. They
    /// are refused as by [`Table::from_bytes`].
    pub fn from_bytes_before(bytes: &[u8]) -> Result<Table, BadBytes> {
        record::check_length(Table::BYTES_BEFORE, bytes.len())?;
        let (sessions, day) = bytes.split_at(GROUPS * record::BYTES);
        let (count, allowance) = day.split_at(4);
        Table::load(sessions.chunks_exact(record::BYTES).map(|session| (session, count)), allowance)
    }

    /// The table of these groups, each the bytes of its session and of its count, with these bytes' allowance.
    fn load<'a>(groups: impl Iterator<Item = (&'a [u8], &'a [u8])>, allowance: &[u8]) -> Result<Table, BadBytes> {
        let mut table = Table { allowance: number(allowance), ..Table::new() };
        for ((session, count), record) in groups.zip(table.records.iter_mut()) {
            record::load(&mut record.session, session)?;
            record.count = number(count);
        }
        Ok(table)
    }
}

/// The bytes of a group's stored record: its session and its count.
const GROUP_BYTES: usize = record::BYTES + 4;

/// A number of 32 bits from its four bytes, little-endian.
fn number(bytes: &[u8]) -> u32 {
    u32::from_le_bytes(bytes.try_into().expect("four bytes"))
}

/// The count of a call for a group, or its refusal.
fn given(given: Answer) -> Result<u32, Refusal> {
    answer(given.number, given.count)
}

impl fmt::Debug for Table {
    /// What is not secret: the allowance, the open groups, and the closed ones that have counted something.
    fn fmt(&self, f: &mut fmt::Formatter<'_>) -> fmt::Result {
        let shown: Vec<Group> = self.groups().filter(|group| group.is_open || group.count > 0).collect();
        f.debug_struct("Table").field("allowance", &self.allowance).field("groups", &shown).finish_non_exhaustive()
    }
}

#[cfg(test)]
mod tests {
    use super::*;

    /// Calls and stored bytes leave no index in a closed record; the questions do not count on it.
    #[test]
    fn closed_groups_are_not_nearly_full() {
        let mut table = Table::new();
        for record in table.records.iter_mut() {
            record.session.index = u32::MAX;
        }
        assert_eq!((table.nearly_full(0), table.all_nearly_full(0).count()), (None, 0));
        for group in [30, 20] {
            table.records[group].session.opened = true;
        }
        assert_eq!(table.nearly_full(u32::MAX - 1), Some(20));
        assert!(table.all_nearly_full(u32::MAX - 1).eq([20, 30]));
        assert_eq!((table.nearly_full(u32::MAX), table.all_nearly_full(u32::MAX).count()), (None, 0));
    }
}
