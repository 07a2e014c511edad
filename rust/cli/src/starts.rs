//! The starts of SANE sessions in a state file: which nonces were used under which key.
//!
//! The keystream of a message in SANE comes from the key, the nonce and the messages before it. So under one key a nonce must not
//! repeat. A state file keeps, for each key that was used in it, the last counter, which the next one has to exceed, and the
//! nonces that were no counters. Such a nonce is known by the tag of its start: other nonces under one key have other tags. A key is
//! known by its [fingerprint], which is made of a history that no session in SANE has: it starts with metadata and not with a
//! nonce, and their strings never equal each other, since metadata have frame bits.

use pevghazo::SaneTag;
use pevghazo_store::Secret;

use crate::failure::Failure;
use crate::keys::{Fingerprint, fingerprint};
use crate::state::{Bad, Part, Reader, put_count};

/// A nonce. One of eight bytes, the lowest first, is a counter, wherever it comes from.
pub struct Nonce(Secret);

impl Nonce {
    /// Its bytes.
    pub fn bytes(&self) -> &[u8] {
        &self.0
    }

    /// The counter that it is, if it is one.
    pub fn counter(&self) -> Option<u64> {
        self.0[..].try_into().ok().map(u64::from_le_bytes)
    }
}

impl From<u64> for Nonce {
    fn from(counter: u64) -> Nonce {
        Nonce(Secret::from(&counter.to_le_bytes()[..]))
    }
}

impl From<Secret> for Nonce {
    fn from(bytes: Secret) -> Nonce {
        Nonce(bytes)
    }
}

/// How a session was started.
#[derive(Clone, Copy, Debug, Default, PartialEq, Eq)]
pub struct Start {
    /// The start's tag; zeros before the first start.
    pub tag: SaneTag,
    /// The counter that the nonce was, if it was one.
    pub counter: Option<u64>,
}

/// What was used under one key.
#[derive(Debug, PartialEq, Eq)]
struct Key {
    /// The key's fingerprint.
    fingerprint: Fingerprint,
    /// The last and highest counter.
    counter: Option<u64>,
    /// The tags of the starts with nonces that were no counters.
    others: Vec<SaneTag>,
}

impl Key {
    /// Whether a nonce may be used under this key.
    fn takes(&self, nonce: &Nonce, tag: &SaneTag) -> Result<(), Failure> {
        match (nonce.counter(), self.counter) {
            (Some(counter), Some(last)) if counter <= last => Err(Failure::UsedCounter { counter, last }),
            (None, _) if self.others.contains(tag) => Err(Failure::UsedNonce),
            _ => Ok(()),
        }
    }

    /// Notes a nonce.
    fn note(&mut self, nonce: &Nonce, tag: SaneTag) {
        match nonce.counter() {
            Some(counter) => self.counter = Some(counter),
            None => self.others.push(tag),
        }
    }
}

/// The starts in a state file.
#[derive(Debug, Default, PartialEq, Eq)]
pub struct Starts {
    /// The last one.
    last: Start,
    /// The keys that were used.
    keys: Vec<Key>,
}

impl Starts {
    /// The most keys, and nonces that are no counters, of a state file.
    pub const MOST: usize = 1 << 16;

    /// The last start.
    pub fn last(&self) -> Start {
        self.last
    }

    /// How many keys were used.
    pub fn keys(&self) -> usize {
        self.keys.len()
    }

    /// Notes a start with its tag, and refuses a nonce that was used under this key, or may have been.
    pub fn add(&mut self, key: &[u8], nonce: &Nonce, tag: SaneTag) -> Result<(), Failure> {
        let fingerprint = fingerprint(key)?;
        let place = self.keys.iter().position(|known| known.fingerprint == fingerprint);
        place.map_or(Ok(()), |place| self.keys[place].takes(nonce, &tag))?;
        let more = usize::from(place.is_none()) + usize::from(nonce.counter().is_none());
        if self.noted() + more > Starts::MOST {
            return Err(Failure::NotNow(FULL.to_string()));
        }
        let place = place.unwrap_or_else(|| {
            self.keys.push(Key { fingerprint, counter: None, others: Vec::new() });
            self.keys.len() - 1
        });
        self.keys[place].note(nonce, tag);
        self.last = Start { tag, counter: nonce.counter() };
        Ok(())
    }

    /// How many keys, and nonces that are no counters, are noted.
    fn noted(&self) -> usize {
        self.keys.iter().map(|key| 1 + key.others.len()).sum()
    }
}

/// What is said where no more can be noted.
const FULL: &str = "\
As many keys, and nonces that are no counters, were used in this state file as it holds: begin a new one with a new key.";

impl Part for Start {
    fn put(&self, bytes: &mut Secret) {
        bytes.add(&self.tag);
        put_counter(bytes, self.counter);
    }

    fn read(reader: &mut Reader) -> Result<Start, Bad> {
        Ok(Start { tag: reader.array()?, counter: read_counter(reader)? })
    }
}

impl Part for Starts {
    fn put(&self, bytes: &mut Secret) {
        self.last.put(bytes);
        put_count(bytes, self.keys.len());
        self.keys.iter().for_each(|key| key.put(bytes));
    }

    fn read(reader: &mut Reader) -> Result<Starts, Bad> {
        Ok(Starts { last: Start::read(reader)?, keys: reader.list(Starts::MOST, Key::read)? })
    }
}

impl Part for Key {
    fn put(&self, bytes: &mut Secret) {
        bytes.add(&self.fingerprint);
        put_counter(bytes, self.counter);
        put_count(bytes, self.others.len());
        self.others.iter().for_each(|tag| bytes.add(tag));
    }

    fn read(reader: &mut Reader) -> Result<Key, Bad> {
        let (fingerprint, counter) = (reader.array()?, read_counter(reader)?);
        Ok(Key { fingerprint, counter, others: reader.list(Starts::MOST, Reader::array)? })
    }
}

/// A byte 0 for none, or 1 and the counter.
fn put_counter(bytes: &mut Secret, counter: Option<u64>) {
    bytes.add(&[u8::from(counter.is_some())]);
    if let Some(counter) = counter {
        bytes.add(&counter.to_le_bytes());
    }
}

fn read_counter(reader: &mut Reader) -> Result<Option<u64>, Bad> {
    match reader.array()? {
        [0] => Ok(None),
        [1] => reader.array().map(|bytes| Some(u64::from_le_bytes(bytes))),
        _ => Err(Bad::Format),
    }
}

#[cfg(test)]
impl Starts {
    /// As many as a state file holds, under so many keys.
    pub fn full(keys: usize) -> Starts {
        let key = |others| Key { fingerprint: [2; 16], counter: Some(u64::MAX), others: vec![[3; 16]; others] };
        let mut keys: Vec<_> = (1..keys).map(|_| key(0)).collect();
        keys.push(key(Starts::MOST - keys.len() - 1));
        Starts { last: Start { tag: [1; 16], counter: Some(u64::MAX) }, keys }
    }
}

#[cfg(test)]
mod tests {
    use super::*;

    const KEYS: [[u8; 16]; 2] = [[7; 16], [8; 16]];

    /// The tag that stands for a nonce here: a start's is the library's.
    fn tag(nonce: &Nonce) -> SaneTag {
        let mut tag = [0; 16];
        tag.iter_mut().zip(nonce.bytes()).for_each(|(place, byte)| *place = *byte);
        tag
    }

    fn add(starts: &mut Starts, key: usize, nonce: &Nonce) -> Result<(), u8> {
        starts.add(&KEYS[key], nonce, tag(nonce)).map_err(|failure| failure.status())
    }

    fn file(bytes: &[u8]) -> Nonce {
        Nonce::from(Secret::from(bytes))
    }

    #[test]
    fn a_nonce_of_eight_bytes_is_a_counter() {
        for (nonce, counter) in [
            (Nonce::from(0), Some(0)),
            (Nonce::from(0x0807_0605_0403_0201), Some(0x0807_0605_0403_0201)),
            (file(&[1, 2, 3, 4, 5, 6, 7, 8]), Some(0x0807_0605_0403_0201)),
            (file(&[255; 8]), Some(u64::MAX)),
            (file(b""), None),
            (file(b"1234567"), None),
            (file(b"123456789"), None),
        ] {
            assert_eq!(nonce.counter(), counter);
        }
        assert_eq!(Nonce::from(513).bytes(), [1, 2, 0, 0, 0, 0, 0, 0]);
    }

    #[test]
    fn a_counter_has_to_grow_under_each_key() {
        let mut starts = Starts::default();
        for (key, counter, taken) in [
            (0, 5, Ok(())),
            (0, 5, Err(7)),
            (0, 4, Err(7)),
            (0, 0, Err(7)),
            (1, 0, Ok(())),
            (1, 0, Err(7)),
            (0, 6, Ok(())),
            (0, u64::MAX, Ok(())),
            (0, u64::MAX, Err(7)),
            (1, 5, Ok(())),
        ] {
            assert_eq!(add(&mut starts, key, &Nonce::from(counter)), taken, "{key} {counter}");
        }
        assert_eq!((starts.keys(), starts.last()), (2, Start { tag: tag(&Nonce::from(5)), counter: Some(5) }));
    }

    #[test]
    fn a_nonce_of_a_file_is_used_once_under_each_key() {
        let mut starts = Starts::default();
        for (key, bytes, taken) in [
            (0, &b""[..], Ok(())),
            (0, b"", Err(7)),
            (1, b"", Ok(())),
            (0, b"a nonce", Ok(())),
            (0, b"another nonce", Ok(())),
            (0, b"a nonce", Err(7)),
            // These spell the counter 2.
            (0, b"\x02\0\0\0\0\0\0\0", Ok(())),
            (0, b"\x01\0\0\0\0\0\0\0", Err(7)),
            (1, b"a nonce", Ok(())),
        ] {
            assert_eq!(add(&mut starts, key, &file(bytes)), taken, "{key} {bytes:?}");
        }
        assert_eq!((starts.keys(), starts.last()), (2, Start { tag: tag(&file(b"a nonce")), counter: None }));
        assert_eq!(add(&mut starts, 0, &Nonce::from(2)), Err(7));
        assert_eq!(add(&mut starts, 0, &Nonce::from(3)), Ok(()));
    }

    /// So many keys that the fingerprints of some begin alike: each has counters of its own.
    #[test]
    fn keys_are_told_apart() {
        let mut starts = Starts::default();
        let start = |starts: &mut Starts, key: u64, counter: u64| {
            let (key, nonce) = ([key.to_le_bytes(), [7; 8]].concat(), Nonce::from(counter));
            starts.add(&key, &nonce, tag(&nonce)).map_err(|failure| failure.status())
        };
        for key in 0..300 {
            assert_eq!(start(&mut starts, key, 300 - key), Ok(()), "{key}");
        }
        for key in 0..300 {
            assert_eq!(start(&mut starts, key, 300 - key), Err(7), "{key}");
            assert_eq!(start(&mut starts, key, 301 - key), Ok(()), "{key}");
        }
        assert_eq!(starts.keys(), 300);
    }

    #[test]
    fn a_refused_start_is_not_noted() {
        let mut starts = Starts::default();
        add(&mut starts, 0, &Nonce::from(5)).unwrap();
        add(&mut starts, 0, &file(b"a nonce")).unwrap();
        let before = format!("{starts:?}");
        for nonce in [Nonce::from(5), file(b"a nonce")] {
            add(&mut starts, 0, &nonce).unwrap_err();
        }
        assert_eq!(starts.add(&[7; 15], &Nonce::from(9), [0; 16]).unwrap_err().status(), 14);
        assert_eq!(format!("{starts:?}"), before);
    }

    #[test]
    fn no_more_is_noted_than_fits() {
        let mut starts = Starts::default();
        add(&mut starts, 0, &Nonce::from(5)).unwrap();
        starts.keys[0].others.resize(Starts::MOST - 1, [0xAA; 16]);
        assert_eq!(add(&mut starts, 0, &file(b"a nonce")), Err(5));
        assert_eq!(add(&mut starts, 1, &Nonce::from(5)), Err(5));
        // A counter under a key that is known takes no room.
        assert_eq!(add(&mut starts, 0, &Nonce::from(6)), Ok(()));
        starts.keys[0].others.pop();
        assert_eq!(add(&mut starts, 1, &file(b"a nonce")), Err(5));
        assert_eq!(add(&mut starts, 1, &Nonce::from(5)), Ok(()));
    }
}
