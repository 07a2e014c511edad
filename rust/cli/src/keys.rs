//! The keys that were used in a state file, known by their fingerprints.
//!
//! A fingerprint is the first half of the tag that a fresh session under the key gives a fixed text: enough to tell keys apart, and not
//! enough to pass for a message. It says nothing about the key to those who do not have it, but belongs to the state file, which
//! is as secret as the key.

use pevghazo::{Plain, Refusal, Session, TAG_LENGTH, Tag};
use pevghazo_store::Secret;

use crate::failure::Failure;
use crate::state::{Bad, Part, Reader, put_count};

/// The bytes of a fingerprint.
pub const FINGERPRINT: usize = TAG_LENGTH / 2;

/// The fingerprint of a key, or of something else under a key.
pub type Fingerprint = [u8; FINGERPRINT];

/// The fixed text, as metadata without a message.
const TEXT: &[u8] = b"pevghazo: the fingerprint of a key";

/// The fingerprint of a key; number 4 for one of a wrong length.
pub fn fingerprint(key: &[u8]) -> Result<Fingerprint, Refusal> {
    fingerprint_of(key, &[TEXT])
}

/// The fingerprint of some texts under a key.
pub fn fingerprint_of(key: &[u8], texts: &[&[u8]]) -> Result<Fingerprint, Refusal> {
    let tag = tag_of(key, texts)?;
    Ok(std::array::from_fn(|place| tag[place]))
}

/// The last tag of a fresh session under a key that is given these texts one after the other, as metadata without a message. It
/// covers all of them.
pub fn tag_of(key: &[u8], texts: &[&[u8]]) -> Result<Tag, Refusal> {
    let (mut session, _) = Session::start(key)?;
    let mut tag = [0; TAG_LENGTH];
    for metadata in texts {
        tag = session.wrap(&Plain { metadata, message: &[] })?.tag;
    }
    Ok(tag)
}

/// The keys that were used in a state file.
#[derive(Debug, Default, PartialEq, Eq)]
pub struct Keys(Vec<Fingerprint>);

impl Keys {
    /// The most keys of a state file.
    pub const MOST: usize = 1 << 16;

    /// How many they are.
    pub fn count(&self) -> usize {
        self.0.len()
    }

    /// Notes a key, and refuses one that was used before, unless that is wanted.
    pub fn add(&mut self, key: &[u8], reuse: bool) -> Result<(), Failure> {
        let fingerprint = fingerprint(key)?;
        if self.0.contains(&fingerprint) {
            return if reuse { Ok(()) } else { Err(Failure::UsedKey) };
        }
        if self.0.len() >= Keys::MOST {
            return Err(Failure::NotNow(
                "As many keys were used in this state file as it holds: begin a new one.".to_string(),
            ));
        }
        self.0.push(fingerprint);
        Ok(())
    }
}

impl Part for Keys {
    fn put(&self, bytes: &mut Secret) {
        put_count(bytes, self.0.len());
        self.0.iter().for_each(|fingerprint| bytes.add(fingerprint));
    }

    fn read(reader: &mut Reader) -> Result<Keys, Bad> {
        reader.list(Keys::MOST, Reader::array).map(Keys)
    }
}

#[cfg(test)]
impl From<Vec<Fingerprint>> for Keys {
    fn from(fingerprints: Vec<Fingerprint>) -> Keys {
        Keys(fingerprints)
    }
}

#[cfg(test)]
mod tests {
    use super::*;

    #[test]
    fn keys_are_told_apart() {
        let keys = [&[7; 16][..], &[7; 17], &[7; 47], &[8; 16], b"another key of a group"];
        for (place, key) in keys.iter().enumerate() {
            assert_eq!(fingerprint(key).unwrap(), fingerprint(key).unwrap());
            for other in &keys[..place] {
                assert_ne!(fingerprint(key).unwrap(), fingerprint(other).unwrap());
            }
        }
        assert!(fingerprint(&[7; 15]).is_err() && fingerprint(&[7; 48]).is_err());
    }

    #[test]
    fn a_key_is_taken_once_unless_it_is_wanted() {
        let mut keys = Keys::default();
        keys.add(&[7; 16], false).unwrap();
        keys.add(&[8; 16], true).unwrap();
        for key in [[7; 16], [8; 16]] {
            assert_eq!(keys.add(&key, false).unwrap_err().status(), 7);
            keys.add(&key, true).unwrap();
        }
        assert_eq!(keys.count(), 2);
        keys.0.resize(Keys::MOST, [0; FINGERPRINT]);
        assert_eq!(keys.add(&[9; 16], false).unwrap_err().status(), 5);
    }
}
