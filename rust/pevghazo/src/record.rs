//! The bytes in which records of all modes are stored, and what people may see of one.

use std::fmt;
use std::hint::black_box;

use crate::INDEX_MAX;
use crate::raw::{Record, SaeRecord, SaneRecord, clear_stack};
use crate::refusal::BadBytes;
use crate::secret::Secret;

/// The bytes of a stored record: accumulator and mask, lane by lane, and the index, all little-endian, then toggle and
/// openness, each 0 or 1.
pub(crate) const BYTES: usize = 2 * 48 + 4 + 2;

/// A kind of record. Each mode has its own, all with the same fields.
pub(crate) trait Kind {
    /// A closed record.
    fn closed() -> Self;
    /// The fields.
    fn fields(&self) -> Fields<'_>;
    /// The fields, to be written to.
    fn fields_mut(&mut self) -> FieldsMut<'_>;
}

/// The fields of a record; the lanes stay where they are.
pub(crate) struct Fields<'a> {
    acc: &'a [u32; 12],
    mask: &'a [u32; 12],
    index: u32,
    toggle: bool,
    opened: bool,
}

/// The fields of a record, to be written to.
pub(crate) struct FieldsMut<'a> {
    acc: &'a mut [u32; 12],
    mask: &'a mut [u32; 12],
    index: &'a mut u32,
    toggle: &'a mut bool,
    opened: &'a mut bool,
}

/// The records of all modes have fields of the same names.
macro_rules! kind {
    ($record:ident) => {
        impl Kind for $record {
            fn closed() -> $record {
                $record::closed()
            }

            fn fields(&self) -> Fields<'_> {
                let $record { acc, mask, index, toggle, opened } = self;
                Fields { acc, mask, index: *index, toggle: *toggle, opened: *opened }
            }

            fn fields_mut(&mut self) -> FieldsMut<'_> {
                let $record { acc, mask, index, toggle, opened } = self;
                FieldsMut { acc, mask, index, toggle, opened }
            }
        }
    };
}

kind!(Record);
kind!(SaneRecord);
kind!(SaeRecord);

/// A record's bytes.
pub(crate) fn to_bytes(record: &impl Kind) -> Secret {
    let mut bytes = Secret::zeros(BYTES);
    store(record, bytes.bytes_mut());
    bytes
}

/// A record from its bytes, in a box, so that a moved one leaves nothing behind.
pub(crate) fn from_bytes<R: Kind>(bytes: &[u8]) -> Result<Box<R>, BadBytes> {
    check_length(BYTES, bytes.len())?;
    let mut record = Box::new(R::closed());
    load(&mut *record, bytes)?;
    Ok(record)
}

/// Writes a record to its bytes.
pub(crate) fn store(record: &impl Kind, bytes: &mut [u8]) {
    store_fields(&record.fields(), bytes);
    clear_stack();
}

#[inline(never)]
fn store_fields(fields: &Fields<'_>, bytes: &mut [u8]) {
    let (numbers, flags) = bytes.split_at_mut(BYTES - 2);
    let lanes = fields.acc.iter().chain(fields.mask).chain([&fields.index]);
    for (place, lane) in numbers.chunks_exact_mut(4).zip(lanes) {
        place.copy_from_slice(&lane.to_le_bytes());
    }
    flags.copy_from_slice(&[u8::from(fields.toggle), u8::from(fields.opened)]);
}

/// Reads a record from its bytes; a refusal leaves the record part written.
pub(crate) fn load(record: &mut impl Kind, bytes: &[u8]) -> Result<(), BadBytes> {
    load_fields(record.fields_mut(), bytes);
    let checked = check(&record.fields(), bytes);
    clear_stack();
    checked
}

#[inline(never)]
fn load_fields(fields: FieldsMut<'_>, bytes: &[u8]) {
    let (numbers, flags) = bytes.split_at(BYTES - 2);
    let lanes = fields.acc.iter_mut().chain(fields.mask).chain([fields.index]);
    for (place, lane) in numbers.chunks_exact(4).zip(lanes) {
        *lane = u32::from_le_bytes([place[0], place[1], place[2], place[3]]);
    }
    (*fields.toggle, *fields.opened) = (flags[0] == 1, flags[1] == 1);
}

/// The checks of a record that was read from these bytes.
#[inline(never)]
fn check(fields: &Fields<'_>, bytes: &[u8]) -> Result<(), BadBytes> {
    if bytes[BYTES - 2..].iter().any(|flag| *flag > 1) {
        return Err(BadBytes::Flag);
    }
    if fields.index > INDEX_MAX {
        return Err(BadBytes::Index);
    }
    if !fields.opened && !is_zero(fields) {
        return Err(BadBytes::Closed);
    }
    Ok(())
}

/// Whether all numbers but openness are zero. All of them are looked at, whatever they are.
fn is_zero(fields: &Fields<'_>) -> bool {
    let lanes = fields.acc.iter().chain(fields.mask);
    black_box(lanes.fold(fields.index | u32::from(fields.toggle), |all, lane| all | lane)) == 0
}

/// The check of stored bytes' length.
pub(crate) fn check_length(expected: usize, found: usize) -> Result<(), BadBytes> {
    if expected == found { Ok(()) } else { Err(BadBytes::Length { expected, found }) }
}

/// Shows what is not secret of a record.
pub(crate) fn debug(name: &str, record: &impl Kind, f: &mut fmt::Formatter<'_>) -> fmt::Result {
    let Fields { index, toggle, opened, .. } = record.fields();
    f.debug_struct(name).field("open", &opened).field("index", &index).field("toggle", &toggle).finish_non_exhaustive()
}
