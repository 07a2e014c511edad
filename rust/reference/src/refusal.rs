//! The numbers under which a call is refused (document 01, "What stops a call, in checking order"; from 12 on document 02).

use std::fmt;

/// Why a call was refused. A call's checks are made in the order of these numbers, but for a code's, which are 5, 12 and 8, those
/// of an addition inside the season, which are 13, 16, 17, 14 and 15, and number 18, which is met before every other; the first that
/// is met is given.
#[derive(Clone, Copy, Debug, PartialEq, Eq, PartialOrd, Ord, Hash)]
#[repr(u8)]
pub enum Number {
    /// 1: the envelope's header does not follow the layout, or is not that of the call; in writing, there is no such letter.
    Header = 1,
    /// 2: fewer bytes follow the header than its two lengths and the tag need.
    Truncated = 2,
    /// 3: the table does not hold 32 records, or the group is above 31.
    Group = 3,
    /// 4: the key is shorter than 16 or longer than 47 bytes.
    Key = 4,
    /// 5: the session is not open.
    Closed = 5,
    /// 6: metadata, message or nonce is longer than 16,384 bytes.
    TooLong = 6,
    /// 7: the tag, or the buffer for it, has not the length of the mode's tags: 32 bytes, in SANE and of old letters 16.
    TagLength = 7,
    /// 8: the output buffer is too short.
    Buffer = 8,
    /// 9: the index after the call would exceed its limit.
    Full = 9,
    /// 10: the allowance is smaller than the group's count of the day plus this call's count.
    Allowance = 10,
    /// 11: the tag is not the one that this session finds.
    Tag = 11,
    /// 12: the session has accepted no message yet, or the packet is above 2,047.
    NoCode = 12,
    /// 13: the bytes are not exactly one issue line.
    Line = 13,
    /// 14: a number of the line is pooled already in its size.
    Pooled = 14,
    /// 15: after joining, the pool would have more than 256 runs.
    Runs = 15,
    /// 16: the line's day does not exist in the years 1900 to 2199, or a date in the window of its size is one that no leap year has.
    NoDay = 16,
    /// 17: the line's day is outside the window of its size.
    OutOfSeason = 17,
    /// 18: old letters are only opened: none is wrapped, and no envelope of one is written.
    ReadOnly = 18,
    /// 19: the price of the line's size is 0 or above 1,000,000.
    NotSold = 19,
    /// 22: the till has 65,536 lines or more, or a sum would pass 64 bits.
    TillFull = 22,
}

impl Number {
    /// The number itself.
    pub fn number(self) -> u8 {
        self as u8
    }

    /// A plain sentence for people.
    pub fn sentence(self) -> &'static str {
        match self {
            Number::Header => "The envelope's header does not follow the layout, or is not that of the call.",
            Number::Truncated => "The envelope ends before all that its header announces.",
            Number::Group => "There is no such group: groups are 0 to 31, in a table of 32.",
            Number::Key => "The key must have 16 to 47 bytes.",
            Number::Closed => "The session is not open.",
            Number::TooLong => "Metadata, message or nonce has more than 16,384 bytes.",
            Number::TagLength => "The tag must have 32 bytes, in SANE and of old letters 16.",
            Number::Buffer => "The output buffer is too short.",
            Number::Full => "The session is full: start a new one with a new key.",
            Number::Allowance => "The group's allowance for the day does not cover this call.",
            Number::Tag => "The tag is wrong: the arrival is damaged, repeated, out of order or not for this session.",
            Number::NoCode => "There is no code: no message was accepted yet, or the packet is above 2,047.",
            Number::Line => "The bytes are not exactly one issue line.",
            Number::Pooled => "A number of the line is pooled already.",
            Number::Runs => "The pool would have more than 256 runs.",
            Number::NoDay => {
                "There is no such day in 1900 to 2199, or no such date in any year in the window of the size."
            }
            Number::OutOfSeason => "The line's day is outside the window of its size.",
            Number::ReadOnly => "Old letters are only opened.",
            Number::NotSold => "The price of the line's size is 0 or above 1,000,000.",
            Number::TillFull => "The till has 65,536 lines or more, or a sum would pass 64 bits.",
        }
    }
}

impl fmt::Display for Number {
    fn fmt(&self, f: &mut fmt::Formatter<'_>) -> fmt::Result {
        write!(f, "{} (number {})", self.sentence(), self.number())
    }
}

/// A refusal of a call that has a count of permutations.
#[derive(Clone, Copy, Debug, PartialEq, Eq)]
pub struct Refusal {
    /// Why.
    pub number: Number,
    /// The permutations made: 0, but for a wrong tag, which costs as much as a right one.
    pub count: u32,
}

impl From<Number> for Refusal {
    /// A refusal before any permutation was made.
    fn from(number: Number) -> Refusal {
        Refusal { number, count: 0 }
    }
}

impl fmt::Display for Refusal {
    fn fmt(&self, f: &mut fmt::Formatter<'_>) -> fmt::Result {
        self.number.fmt(f)
    }
}

impl std::error::Error for Number {}
impl std::error::Error for Refusal {}
