//! The sizes of rings.

use std::fmt;
use std::str::FromStr;

/// A size of rings: one letter, A to H.
///
/// ```
/// use pevghazo::Size;
///
/// assert_eq!("C".parse(), Ok(Size::C));
/// assert_eq!((Size::C.byte(), Size::C.to_string()), (b'C', "C".to_string()));
/// assert!(Size::A < Size::H);
/// assert_eq!("c".parse::<Size>().unwrap_err().to_string(), "A size is one letter, A to H.");
/// ```
#[derive(Clone, Copy, Debug, PartialEq, Eq, PartialOrd, Ord, Hash)]
#[allow(missing_docs)] // Each is its letter.
#[repr(u8)]
pub enum Size {
    A = b'A',
    B = b'B',
    C = b'C',
    D = b'D',
    E = b'E',
    F = b'F',
    G = b'G',
    H = b'H',
}

impl Size {
    /// All sizes, in their order.
    pub const ALL: [Size; 8] = [Size::A, Size::B, Size::C, Size::D, Size::E, Size::F, Size::G, Size::H];

    /// The letter's byte.
    #[must_use]
    pub const fn byte(self) -> u8 {
        self as u8
    }
}

impl TryFrom<u8> for Size {
    type Error = BadSize;

    /// The size whose letter has this byte.
    fn try_from(byte: u8) -> Result<Size, BadSize> {
        Size::ALL.into_iter().find(|size| size.byte() == byte).ok_or(BadSize)
    }
}

impl FromStr for Size {
    type Err = BadSize;

    /// The size of this letter.
    fn from_str(text: &str) -> Result<Size, BadSize> {
        match text.as_bytes() {
            [byte] => Size::try_from(*byte),
            _ => Err(BadSize),
        }
    }
}

impl fmt::Display for Size {
    /// The letter.
    fn fmt(&self, f: &mut fmt::Formatter<'_>) -> fmt::Result {
        fmt::Display::fmt(&char::from(self.byte()), f)
    }
}

/// A byte or a text that was not taken for a [`Size`].
#[derive(Clone, Copy, Debug, PartialEq, Eq, Hash)]
#[non_exhaustive]
pub struct BadSize;

impl fmt::Display for BadSize {
    fn fmt(&self, f: &mut fmt::Formatter<'_>) -> fmt::Result {
        f.write_str("A size is one letter, A to H.")
    }
}

impl std::error::Error for BadSize {}
