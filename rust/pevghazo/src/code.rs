//! Codes for packets of rings.

use std::fmt;
use std::hint::black_box;
use std::str::FromStr;

use crate::CODE_LENGTH;
use crate::raw::{self, Record};
use crate::refusal::{Refusal, answer};

/// The code that is printed on a packet of rings.
///
/// [`Session::code`](crate::Session::code) and [`Table::code`](crate::Table::code) give it. It is shown as 16 hexadecimal
/// digits in groups of four, and read from what a person reads off a packet: 16 digits in either case, between whose groups of
/// four there may be spaces and hyphens.
///
/// ```
/// use pevghazo::Code;
///
/// let code = Code::from([0x5F, 0x0C, 0x91, 0xA4, 0x00, 0x2B, 0xE7, 0x38]);
/// assert_eq!(code.to_string(), "5f0c 91a4 002b e738");
/// assert_eq!("5F0C-91A4-002B-E738".parse(), Ok(code));
/// assert_eq!("5f0c91a4002be738".parse(), Ok(code));
/// assert_eq!(
///     "5f0c 91a4 002b".parse::<Code>().unwrap_err().to_string(),
///     "A code has 16 hexadecimal digits, and between its groups of four there may be spaces and hyphens."
/// );
/// ```
///
/// Codes are compared in constant time, so that the time of a check does not tell how many bytes of a guess were right. They
/// have no order and no hash, since finding a code by these would take other times for other codes:
///
/// ```compile_fail,E0277
/// let codes = std::collections::HashSet::from([pevghazo::Code::from([0; 8])]);
/// ```
#[derive(Clone, Copy)]
pub struct Code([u8; CODE_LENGTH]);

impl Code {
    /// A packet's code by this record, and the permutations done.
    pub(crate) fn of(record: &Record, packet: u32) -> Result<(Code, u32), Refusal> {
        let mut code = Code([0; CODE_LENGTH]);
        let given = raw::code(record, packet, &mut code.0);
        let count = answer(given.number, given.count)?;
        Ok((code, count))
    }

    /// The code's bytes.
    #[must_use]
    pub const fn bytes(self) -> [u8; CODE_LENGTH] {
        self.0
    }
}

impl From<[u8; CODE_LENGTH]> for Code {
    fn from(bytes: [u8; CODE_LENGTH]) -> Code {
        Code(bytes)
    }
}

impl PartialEq for Code {
    /// All bytes are looked at, wherever they differ.
    fn eq(&self, other: &Code) -> bool {
        black_box(self.0.iter().zip(&other.0).fold(0, |all, (one, other)| all | (one ^ other))) == 0
    }
}

impl Eq for Code {}

impl fmt::Display for Code {
    fn fmt(&self, f: &mut fmt::Formatter<'_>) -> fmt::Result {
        let [a, b, c, d, e, g, h, i] = self.0;
        write!(f, "{a:02x}{b:02x} {c:02x}{d:02x} {e:02x}{g:02x} {h:02x}{i:02x}")
    }
}

impl fmt::Debug for Code {
    fn fmt(&self, f: &mut fmt::Formatter<'_>) -> fmt::Result {
        write!(f, "Code({self})")
    }
}

impl FromStr for Code {
    type Err = BadCode;

    fn from_str(text: &str) -> Result<Code, BadCode> {
        let mut bytes = [0; CODE_LENGTH];
        let mut rest = text.as_bytes();
        for (i, byte) in bytes.iter_mut().enumerate() {
            if i > 0 && i % 2 == 0 {
                rest = after_separators(rest);
            }
            let (digits, after) = rest.split_first_chunk::<2>().ok_or(BadCode)?;
            *byte = digit(digits[0])? << 4 | digit(digits[1])?;
            rest = after;
        }
        if rest.is_empty() { Ok(Code(bytes)) } else { Err(BadCode) }
    }
}

/// The text from the first byte on that is neither a space nor a hyphen.
fn after_separators(mut text: &[u8]) -> &[u8] {
    while let [b' ' | b'-', after @ ..] = text {
        text = after;
    }
    text
}

/// The value of a hexadecimal digit.
fn digit(byte: u8) -> Result<u8, BadCode> {
    match byte {
        b'0'..=b'9' => Ok(byte - b'0'),
        b'a'..=b'f' => Ok(byte - b'a' + 10),
        b'A'..=b'F' => Ok(byte - b'A' + 10),
        _ => Err(BadCode),
    }
}

/// A text that was not taken for a [`Code`].
#[derive(Clone, Copy, Debug, PartialEq, Eq, Hash)]
#[non_exhaustive]
pub struct BadCode;

impl fmt::Display for BadCode {
    fn fmt(&self, f: &mut fmt::Formatter<'_>) -> fmt::Result {
        f.write_str("A code has 16 hexadecimal digits, and between its groups of four there may be spaces and hyphens.")
    }
}

impl std::error::Error for BadCode {}
