//! The tag of a start with a nonce, as people see, send and type it.

use std::fmt;
use std::str::FromStr;

use pevghazo::{BadCode, CODE_LENGTH, Code, SaneTag};

/// The tag of a start: shown, read and compared as a packet's code is, which has half as many bytes.
#[derive(Clone, Copy, Debug)]
pub struct StartTag([Code; 2]);

impl From<SaneTag> for StartTag {
    fn from(tag: SaneTag) -> StartTag {
        let half = |from: usize| Code::from(std::array::from_fn::<u8, CODE_LENGTH, _>(|place| tag[from + place]));
        StartTag([half(0), half(CODE_LENGTH)])
    }
}

impl PartialEq for StartTag {
    /// In constant time, as codes are compared; both halves are, whatever the first says.
    fn eq(&self, other: &StartTag) -> bool {
        (self.0[0] == other.0[0]) & (self.0[1] == other.0[1])
    }
}

impl fmt::Display for StartTag {
    /// 32 hexadecimal digits in groups of four.
    fn fmt(&self, f: &mut fmt::Formatter<'_>) -> fmt::Result {
        write!(f, "{} {}", self.0[0], self.0[1])
    }
}

impl FromStr for StartTag {
    type Err = BadCode;

    /// 32 hexadecimal digits in either case, with spaces and hyphens between the groups of four, or without.
    fn from_str(text: &str) -> Result<StartTag, BadCode> {
        let digits = text.char_indices().filter(|(_, letter)| letter.is_ascii_hexdigit());
        // Where the second half starts.
        let place = digits.map(|(place, _)| place).nth(2 * CODE_LENGTH).unwrap_or(text.len());
        let (first, second) = text.split_at(place);
        Ok(StartTag([first.trim_end_matches([' ', '-']).parse()?, second.parse()?]))
    }
}

#[cfg(test)]
mod tests {
    use super::*;

    const TAG: SaneTag = [0x5F, 0x0C, 0x91, 0xA4, 0, 0x2B, 0xE7, 0x38, 1, 0x23, 0x45, 0x67, 0x89, 0xAB, 0xCD, 0xEF];
    const SHOWN: &str = "5f0c 91a4 002b e738 0123 4567 89ab cdef";

    #[test]
    fn what_is_shown_is_read() {
        let tag = StartTag::from(TAG);
        assert_eq!(tag.to_string(), SHOWN);
        for text in [
            SHOWN,
            &SHOWN.replace(' ', ""),
            &SHOWN.replace(' ', "-"),
            &SHOWN.replace(' ', " - "),
            &SHOWN.to_uppercase(),
            "5f0c91a4002be738 0123456789abcdef",
        ] {
            assert!(text.parse::<StartTag>().unwrap() == tag, "{text}");
        }
        for text in [
            "",
            &SHOWN[..19],
            &SHOWN[..38],
            &format!("{SHOWN}0"),
            &format!("{SHOWN} "),
            &format!(" {SHOWN}"),
            &SHOWN.replace(' ', "."),
            &SHOWN.replace('f', "g"),
            "5f0c 91a4 002b e73 80123 4567 89ab cdef",
            "5f0c 91a4 002b e738 x0123 4567 89ab cdef",
            "5f0c 91a4 002b e738x 0123 4567 89ab cdef",
        ] {
            assert!(text.parse::<StartTag>().is_err(), "{text}");
        }
    }

    #[test]
    fn every_bit_counts() {
        for bit in 0..128 {
            let mut other = TAG;
            other[bit / 8] ^= 1 << (bit % 8);
            assert!(StartTag::from(other) != StartTag::from(TAG), "{bit}");
        }
        assert!(StartTag::from(TAG) == StartTag::from(TAG));
    }
}
