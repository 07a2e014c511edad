//! Bytes that are set to zero when they are no longer needed.

use std::fmt;
use std::io::{self, ErrorKind, Read};
use std::ops::Deref;

use crate::system::wipe;

/// Bytes that are overwritten when they are dropped, and when they outgrow the memory that they are in.
#[derive(Default)]
pub struct Secret(Vec<u8>);

impl Secret {
    /// No bytes, with room for so many.
    pub fn with_room(room: usize) -> Secret {
        Secret(Vec::with_capacity(room))
    }

    /// Adds bytes at the end.
    pub fn add(&mut self, bytes: &[u8]) {
        self.make_room(bytes.len());
        self.0.extend_from_slice(bytes);
    }

    /// At most so many bytes of a reader, until its end.
    pub fn read(mut from: impl Read, most: usize) -> io::Result<Secret> {
        const AT_ONCE: usize = 4_096;
        let mut secret = Secret::default();
        loop {
            let length = secret.0.len();
            let room = AT_ONCE.max(length).min(most - length);
            secret.make_room(room);
            secret.0.resize(length + room, 0);
            let got = match from.read(&mut secret.0[length..]) {
                Err(error) if error.kind() == ErrorKind::Interrupted => {
                    secret.0.truncate(length);
                    continue;
                }
                got => got?,
            };
            secret.0.truncate(length + got);
            if got == 0 {
                return Ok(secret);
            }
        }
    }

    /// Removes so many bytes at the start, all of them if there are fewer.
    pub fn skip(&mut self, count: usize) {
        let count = count.min(self.0.len());
        self.0.copy_within(count.., 0);
        let length = self.0.len() - count;
        wipe(&mut self.0[length..]);
        self.0.truncate(length);
    }

    /// Moves to larger memory where more bytes do not fit, and wipes the old.
    fn make_room(&mut self, more: usize) {
        if self.0.capacity() - self.0.len() < more {
            let mut larger = Secret::with_room((self.0.len() + more).max(2 * self.0.capacity()));
            larger.0.extend_from_slice(&self.0);
            *self = larger;
        }
    }
}

impl Drop for Secret {
    fn drop(&mut self) {
        // All of the memory, also behind the last byte.
        self.0.resize(self.0.capacity(), 0);
        wipe(&mut self.0);
    }
}

impl Deref for Secret {
    type Target = [u8];

    fn deref(&self) -> &[u8] {
        &self.0
    }
}

impl From<Vec<u8>> for Secret {
    fn from(bytes: Vec<u8>) -> Secret {
        Secret(bytes)
    }
}

impl From<&[u8]> for Secret {
    fn from(bytes: &[u8]) -> Secret {
        Secret(bytes.to_vec())
    }
}

impl PartialEq for Secret {
    fn eq(&self, other: &Secret) -> bool {
        self.0 == other.0
    }
}

impl Eq for Secret {}

impl fmt::Debug for Secret {
    /// How many they are, and not which.
    fn fmt(&self, f: &mut fmt::Formatter<'_>) -> fmt::Result {
        write!(f, "Secret({} bytes)", self.0.len())
    }
}

#[cfg(test)]
mod tests {
    use super::*;

    /// Gives a byte at a time, with interruptions.
    struct Slow<'a>(&'a [u8], bool);

    impl Read for Slow<'_> {
        fn read(&mut self, buffer: &mut [u8]) -> io::Result<usize> {
            self.1 = !self.1;
            if self.1 { Err(ErrorKind::Interrupted.into()) } else { self.0.read(&mut buffer[..1.min(self.0.len())]) }
        }
    }

    #[test]
    fn bytes_are_read_up_to_a_limit() {
        let bytes: Vec<u8> = (0..20_000u32).map(|place| place as u8).collect();
        for (most, length) in [(0, 0), (1, 1), (4_096, 4_096), (19_999, 19_999), (20_000, 20_000), (90_000, 20_000)] {
            assert_eq!(&*Secret::read(&bytes[..], most).unwrap(), &bytes[..length]);
        }
        let slow = Slow(&bytes[..300], false);
        assert_eq!(&*Secret::read(slow, 1_000).unwrap(), &bytes[..300]);
    }

    #[test]
    fn bytes_are_added_and_skipped() {
        let mut secret = Secret::with_room(2);
        for part in [&b"12001"[..], b"", b"-", b"12100"] {
            secret.add(part);
        }
        assert_eq!(&*secret, b"12001-12100");
        assert_eq!(format!("{secret:?}"), "Secret(11 bytes)");
        secret.skip(6);
        assert_eq!(&*secret, b"12100");
        secret.skip(100);
        assert_eq!(&*secret, b"");
    }
}
