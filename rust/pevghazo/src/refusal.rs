//! Why a call was refused.

use std::fmt;

/// The numbers of refusals. A call's checks are made in the order of these numbers, and the first that is met is given; but a
/// code meets 5, 12 and 8, an addition to a pool inside the season 13, 16, 17, 14 and 15, in these orders, and 18 is met before every
/// other. There are no numbers 20 and 21 yet.
///
/// More may follow, so a `match` on one has an arm for the others:
///
/// ```compile_fail,E0004
/// fn is_damaged(number: pevghazo::Number) -> bool {
///     use pevghazo::Number::*;
///     match number {
///         BadHeader | TooFewBytes | WrongTag => true,
///         BadGroup | BadKey | NotOpen | TooLong | BadTagLength | NoRoom | IndexFull | Allowance | NoCode => false,
///         BadLine | Pooled | PoolFull | NoSuchDay | OutOfSeason | ReadOnly | NotSold | TillFull => false,
///     }
/// }
/// ```
#[derive(Clone, Copy, Debug, PartialEq, Eq, PartialOrd, Ord, Hash)]
#[non_exhaustive]
#[repr(u8)]
pub enum Number {
    /// 1: the envelope's header does not follow the layout, or it is not that of the call: its letter, its lengths or, in a table,
    /// its group are others.
    BadHeader = 1,
    /// 2: fewer bytes follow the header than its lengths and the tag's together; a tag has 32 bytes, or 16 with the letters N and F.
    TooFewBytes = 2,
    /// 3: the group is above 31.
    BadGroup = 3,
    /// 4: the key does not have 16 to 47 bytes.
    BadKey = 4,
    /// 5: the session is not open.
    NotOpen = 5,
    /// 6: metadata, message or nonce has more than 16,384 bytes.
    TooLong = 6,
    /// 7: the tag does not have 32 bytes, or 16 in SANE and in old letters. The types of this crate rule it out, but for an envelope
    /// that is written, or whose parts were altered after it was read.
    BadTagLength = 7,
    /// 8: the output buffer is too short.
    NoRoom = 8,
    /// 9: the index after the call would exceed 1,048,576.
    IndexFull = 9,
    /// 10: the allowance is smaller than the group's count of the day plus this call's count.
    Allowance = 10,
    /// 11: the tag differs.
    WrongTag = 11,
    /// 12: no message was accepted yet, or the packet is above 2,047.
    NoCode = 12,
    /// 13: the bytes are not exactly one issue line.
    BadLine = 13,
    /// 14: a number of the line is pooled already in its size.
    Pooled = 14,
    /// 15: the pool would need more than 256 runs after joining.
    PoolFull = 15,
    /// 16: the line's day does not exist in the years 1900 to 2199, or a date in the window of its size is one that no leap year has.
    NoSuchDay = 16,
    /// 17: the line's day is outside the window of its size.
    OutOfSeason = 17,
    /// 18: old letters, those with the letter F, are only opened: none is wrapped, and no envelope of one is written.
    ReadOnly = 18,
    /// 19: rings of the line's size are not sold: its price is 0, or above 1,000,000 pence for a hundred.
    NotSold = 19,
    /// 22: the till has 65,536 lines or more, or one of its totals would pass 64 bits.
    TillFull = 22,
}

impl Number {
    /// All numbers, in their order.
    pub const ALL: [Number; 20] = [
        Number::BadHeader,
        Number::TooFewBytes,
        Number::BadGroup,
        Number::BadKey,
        Number::NotOpen,
        Number::TooLong,
        Number::BadTagLength,
        Number::NoRoom,
        Number::IndexFull,
        Number::Allowance,
        Number::WrongTag,
        Number::NoCode,
        Number::BadLine,
        Number::Pooled,
        Number::PoolFull,
        Number::NoSuchDay,
        Number::OutOfSeason,
        Number::ReadOnly,
        Number::NotSold,
        Number::TillFull,
    ];

    /// The number itself, 1 to 19 or 22.
    pub const fn number(self) -> u8 {
        self as u8
    }

    /// A plain sentence for people.
    pub const fn sentence(self) -> &'static str {
        match self {
            Number::BadHeader => {
                "This is no envelope for this call: its header does not follow the layout, or is not the call's own."
            }
            Number::TooFewBytes => "The envelope ends before all that its header announces.",
            Number::BadGroup => "There is no such group: groups are numbered 0 to 31.",
            Number::BadKey => "The key must have 16 to 47 bytes.",
            Number::NotOpen => "The session is not open.",
            Number::TooLong => "The metadata, the message or the nonce has more than 16,384 bytes.",
            Number::BadTagLength => {
                "The tag must have 32 bytes in SANSE (letter S), and 16 in SANE (letter N) and in old letters (letter F)."
            }
            Number::NoRoom => "The output buffer is too short.",
            Number::IndexFull => {
                "The session is full: start a new one with a new key, or in SANE with a new nonce; of old letters (letter F) no more can be opened in it."
            }
            Number::Allowance => "The group's allowance for the day does not cover this call.",
            Number::WrongTag => {
                "The tag is wrong: the arrival is damaged, repeated, out of order or not meant for this session."
            }
            Number::NoCode => "There is no such code: no message was accepted yet, or the packet is above 2,047.",
            Number::BadLine => {
                "This is not an issue line: it must be group,size,first,last,day, as 7,C,12001,12100,20250304, and a line feed."
            }
            Number::Pooled => "A number of this line is in the pool already, in its size.",
            Number::PoolFull => "The pool is full: with this line it would need more than 256 runs.",
            Number::NoSuchDay => {
                "The line's day does not exist in the years 1900 to 2199, or its size's window has a date that no year has."
            }
            Number::OutOfSeason => "The line's day is outside the window in which rings of its size may be issued.",
            Number::ReadOnly => {
                "Old letters, those of the first version (letter F), are only opened: none is sealed any more."
            }
            Number::NotSold => {
                "Rings of this size are not sold: the price list has 0 for it, or a price above 1,000,000 pence a hundred."
            }
            Number::TillFull => {
                "The till is full: it has 65,536 lines, or a total would pass 64 bits. Start a new one."
            }
        }
    }
}

impl fmt::Display for Number {
    fn fmt(&self, f: &mut fmt::Formatter<'_>) -> fmt::Result {
        f.write_str(self.sentence())
    }
}

/// A refused call. Sessions, pools, tills, buffers and counts of the day are as they were before it, but for [`Number::WrongTag`]: there the
/// group's count in a table has grown by `count`, and the part of the output buffer that the message would have taken is zero.
/// That holds of this crate's types; [`raw::start`](crate::raw::start), [`raw::sane_start`](crate::raw::sane_start) and
/// [`raw::sae_start`](crate::raw::sae_start) close the record that they are lent where they are refused.
///
/// ```
/// use pevghazo::{Number, Session};
///
/// let refusal = Session::start(b"too short").unwrap_err();
/// assert_eq!((refusal.number, refusal.number.number(), refusal.count), (Number::BadKey, 4, 0));
/// assert_eq!(refusal.to_string(), "The key must have 16 to 47 bytes.");
/// ```
#[derive(Clone, Copy, Debug, PartialEq, Eq, Hash)]
pub struct Refusal {
    /// Why.
    pub number: Number,
    /// The permutations done: 0, but for a wrong tag, which costs as much as a right one.
    pub count: u32,
}

impl fmt::Display for Refusal {
    fn fmt(&self, f: &mut fmt::Formatter<'_>) -> fmt::Result {
        self.number.fmt(f)
    }
}

impl std::error::Error for Refusal {}

/// The count of an accepted call, or the refusal.
pub(crate) fn answer(number: u32, count: u32) -> Result<u32, Refusal> {
    match Number::ALL.into_iter().find(|known| u32::from(known.number()) == number) {
        None if number == 0 => Ok(count),
        None => unreachable!("the library has no number {number}"),
        Some(number) => Err(Refusal { number, count }),
    }
}

/// Why stored bytes were not taken for a session or a table.
#[derive(Clone, Copy, Debug, PartialEq, Eq, Hash)]
#[non_exhaustive]
pub enum BadBytes {
    /// There are too few or too many.
    Length {
        /// How many there should be.
        expected: usize,
        /// How many there are.
        found: usize,
    },
    /// A flag is neither 0 nor 1.
    Flag,
    /// The index is above 1,048,576.
    Index,
    /// The session is not open, and not zero in all its numbers.
    Closed,
}

impl fmt::Display for BadBytes {
    fn fmt(&self, f: &mut fmt::Formatter<'_>) -> fmt::Result {
        match self {
            BadBytes::Length { expected, found } => {
                write!(f, "The stored bytes are {found}, and there should be {expected}.")
            }
            BadBytes::Flag => f.write_str("The stored bytes hold a flag that is neither 0 nor 1."),
            BadBytes::Index => f.write_str("The stored bytes hold an index above 1,048,576."),
            BadBytes::Closed => f.write_str("The stored bytes are those of a closed session that is not all zero."),
        }
    }
}

impl std::error::Error for BadBytes {}
