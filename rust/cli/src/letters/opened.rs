//! The letters that were opened in a state file, known by their fingerprints.
//!
//! A fingerprint covers every byte of a letter, the header too, which the letter's own tag does not cover. It is made under a key of the
//! state file's own, which comes from the session's key, so that nobody who has neither makes other bytes that pass for a letter.

use pevghazo::{Envelope, Refusal, TAG_LENGTH};
use pevghazo_store::Secret;

use crate::keys::{Fingerprint, fingerprint_of, tag_of};
use crate::state::{Bad, Part, Reader, put_count};

/// The fixed text that the key of the fingerprints is made from, under the session's key.
const TEXT: &[u8] = b"pevghazo: the fingerprints of letters";

/// The letters that were opened, in their order.
#[derive(Debug, PartialEq, Eq)]
pub struct Opened {
    /// The key of the fingerprints.
    key: Secret,
    letters: Vec<Fingerprint>,
}

impl Opened {
    /// The most letters: more than a session takes, whose index grows by at least 2 with each.
    pub const MOST: usize = 1 << 19;

    /// None, of a session under this key; number 4 for one of a wrong length.
    pub fn none(key: &[u8]) -> Result<Opened, Refusal> {
        Ok(Opened { key: Secret::from(&tag_of(key, &[TEXT])?[..]), letters: Vec::new() })
    }

    /// How many they are.
    pub fn count(&self) -> usize {
        self.letters.len()
    }

    /// The fingerprint of a letter. Its parts are taken apart from each other, since all of it may be longer than a message.
    pub fn fingerprint(&self, letter: &Envelope) -> Result<Fingerprint, Refusal> {
        let ends = [letter.header, letter.tag].concat();
        fingerprint_of(&self.key, &[&ends, letter.metadata, letter.cryptogram])
    }

    /// The place in its session, from 1 on, of the letter with this fingerprint, if it was opened.
    pub fn place(&self, fingerprint: &Fingerprint) -> Option<usize> {
        self.letters.iter().position(|known| known == fingerprint).map(|place| place + 1)
    }

    /// Notes the letter with this fingerprint as the next one.
    pub fn add(&mut self, fingerprint: Fingerprint) {
        self.letters.push(fingerprint);
    }
}

impl Part for Opened {
    fn put(&self, bytes: &mut Secret) {
        bytes.add(&self.key);
        put_count(bytes, self.letters.len());
        self.letters.iter().for_each(|fingerprint| bytes.add(fingerprint));
    }

    fn read(reader: &mut Reader) -> Result<Opened, Bad> {
        let key = Secret::from(reader.take(TAG_LENGTH)?);
        Ok(Opened { key, letters: reader.list(Opened::MOST, Reader::array)? })
    }
}

#[cfg(test)]
mod tests {
    use pevghazo::envelope;

    use super::*;

    /// A letter with metadata and message, whatever its tag.
    const LETTER: &[u8] = b"F,5,6,11,size C12001-12100the letter's tag";

    fn fingerprint(opened: &Opened, letter: &[u8]) -> Fingerprint {
        opened.fingerprint(&envelope::read(letter).unwrap()).unwrap()
    }

    /// Every bit of a letter counts, but those that break its layout, and so does the key.
    #[test]
    fn letters_are_told_apart() {
        let mut opened = Opened::none(&[7; 16]).unwrap();
        let own = fingerprint(&opened, LETTER);
        assert_eq!((own, opened.place(&own), opened.count()), (fingerprint(&opened, LETTER), None, 0));
        let [first, last] = [b"F,5,0,0,the first letter", b"F,6,0,0,the first letter"];
        for letter in [&first[..], LETTER, last] {
            opened.add(fingerprint(&opened, letter));
        }
        assert_eq!((opened.place(&own), opened.count()), (Some(2), 3));
        let mut told_apart = 0;
        for bit in 0..8 * LETTER.len() {
            let mut other = LETTER.to_vec();
            other[bit / 8] ^= 1 << (bit % 8);
            if let Ok(other) = envelope::read(&other) {
                assert_eq!(opened.place(&opened.fingerprint(&other).unwrap()), None, "bit {bit}");
                told_apart += 1;
            }
        }
        assert!(told_apart >= 8 * (LETTER.len() - 9), "{told_apart}");
        let other = Opened::none(&[8; 16]).unwrap();
        assert_ne!(fingerprint(&other, LETTER), own);
        assert_eq!(Opened::none(&[7; 15]).unwrap_err().number.number(), 4);
    }

    /// The same bytes cut in another way are another letter, also of the greatest lengths.
    #[test]
    fn the_parts_are_kept_apart() {
        let opened = Opened::none(&[7; 16]).unwrap();
        let moved = b"F,5,11,6,size C12001-12100the letter's tag";
        assert_ne!(fingerprint(&opened, LETTER), fingerprint(&opened, moved));
        let long = [&b"F,31,16384,16384,"[..], &[b'x'; 2 * 16_384 + 16]].concat();
        let mut other = long.clone();
        *other.last_mut().unwrap() ^= 1;
        assert_ne!(fingerprint(&opened, &long), fingerprint(&opened, &other));
    }
}
