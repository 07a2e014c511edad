//! The bytes of a state: how each kind of state file starts, and what its parts are made of.

use std::fmt;

use pevghazo::TEXT_MAX;
use pevghazo_store::Secret;

use super::{ENVELOPE_MAX, Held, Kept, Message};

/// A kind of state file. It starts with the kind's word and a digit, that of its version.
#[derive(Debug)]
pub struct Kind {
    /// Whose it is.
    pub name: &'static str,
    /// The word that it starts with.
    pub word: &'static [u8; 7],
    /// The version that is written, 1 to 9. Those before it are read too.
    pub version: u8,
}

/// The office's state file.
pub const OFFICE: Kind = Kind { name: "the office's", word: b"office-", version: 3 };

/// A group's state file.
pub const GROUP: Kind = Kind { name: "a group's", word: b"group--", version: 2 };

/// The state file of a session in SANE.
pub const SANE: Kind = Kind { name: "a SANE session's", word: b"sane---", version: 1 };

/// The state file of a session of the first version.
pub const SAE: Kind = Kind { name: "that of old letters", word: b"sae----", version: 1 };

/// The state file of a pool of unused rings.
pub const POOL: Kind = Kind { name: "a pool's", word: b"pool---", version: 1 };

/// The state file of a till.
pub const TILL: Kind = Kind { name: "a till's", word: b"till---", version: 1 };

/// All kinds.
const KINDS: [&Kind; 6] = [&OFFICE, &GROUP, &SANE, &SAE, &POOL, &TILL];

/// Why bytes are not those of a state.
#[derive(Clone, Copy, Debug, PartialEq, Eq)]
pub enum Bad {
    /// They do not follow the format.
    Format,
    /// They have a version that is not known here.
    Version(u8),
    /// They are a state of another kind.
    Kind {
        /// Whose it is.
        is: &'static str,
        /// Whose it should be.
        not: &'static str,
    },
}

impl fmt::Display for Bad {
    fn fmt(&self, f: &mut fmt::Formatter<'_>) -> fmt::Result {
        match self {
            Bad::Format => f.write_str("its content does not follow the format"),
            Bad::Version(version) => write!(f, "its content has version {version}, which only a newer program reads"),
            Bad::Kind { is, not } => write!(f, "it is {is} and not {not}"),
        }
    }
}

/// Room for the state with few messages kept; one that outgrows it is moved.
const ROOM: usize = 1 << 14;

/// The start of a state's bytes.
pub fn started(kind: &Kind) -> Secret {
    let mut bytes = Secret::with_room(ROOM);
    bytes.add(kind.word);
    bytes.add(&[b'0' + kind.version]);
    bytes
}

/// Adds a number of 32 bits. All that is counted here is far less than they can say.
pub fn put_count(bytes: &mut Secret, count: usize) {
    bytes.add(&(count as u32).to_le_bytes());
}

/// A part of a state.
pub trait Part: Sized {
    /// Adds its bytes.
    fn put(&self, bytes: &mut Secret);
    /// Reads it.
    fn read(reader: &mut Reader) -> Result<Self, Bad>;
}

impl Part for Kept {
    fn put(&self, bytes: &mut Secret) {
        put_held(bytes, &self.envelope, |bytes, envelope| put_string(bytes, envelope));
        put_held(bytes, &self.message, |bytes, message| {
            put_string(bytes, &message.metadata);
            put_string(bytes, &message.text);
        });
    }

    fn read(reader: &mut Reader) -> Result<Kept, Bad> {
        Ok(Kept {
            envelope: reader.held(|reader| reader.string(ENVELOPE_MAX).map(<[u8]>::to_vec))?,
            message: reader.held(|reader| {
                let mut text = || reader.string(TEXT_MAX).map(Secret::from);
                Ok(Message { metadata: text()?, text: text()? })
            })?,
        })
    }
}

fn put_held<T>(bytes: &mut Secret, held: &Option<Held<T>>, put: impl FnOnce(&mut Secret, &T)) {
    match held {
        None => bytes.add(&[0]),
        Some(held) => {
            bytes.add(&[if held.handed_out { 2 } else { 1 }]);
            put(bytes, &held.content);
        }
    }
}

/// A string with its length before it.
fn put_string(bytes: &mut Secret, string: &[u8]) {
    put_count(bytes, string.len());
    bytes.add(string);
}

/// The bytes that are still to be read.
pub struct Reader<'a>(&'a [u8]);

impl<'a> Reader<'a> {
    /// The version of a state file of this kind, and the bytes after its start.
    pub fn after(bytes: &'a [u8], kind: &Kind) -> Result<(u8, Reader<'a>), Bad> {
        let (word, rest) = bytes.split_first_chunk().ok_or(Bad::Format)?;
        let ([digit @ b'1'..=b'9'], rest) = rest.split_first_chunk().ok_or(Bad::Format)? else {
            return Err(Bad::Format);
        };
        let is = KINDS.iter().find(|known| known.word == word).ok_or(Bad::Format)?;
        match digit - b'0' {
            _ if word != kind.word => Err(Bad::Kind { is: is.name, not: kind.name }),
            version if version > kind.version => Err(Bad::Version(version)),
            version => Ok((version, Reader(rest))),
        }
    }

    /// So many bytes.
    pub fn take(&mut self, length: usize) -> Result<&'a [u8], Bad> {
        let (taken, rest) = self.0.split_at_checked(length).ok_or(Bad::Format)?;
        self.0 = rest;
        Ok(taken)
    }

    /// As many bytes as an array has.
    pub fn array<const N: usize>(&mut self) -> Result<[u8; N], Bad> {
        let (taken, rest) = self.0.split_first_chunk().ok_or(Bad::Format)?;
        self.0 = rest;
        Ok(*taken)
    }

    /// A number of 32 bits.
    pub fn number(&mut self) -> Result<u32, Bad> {
        self.array().map(u32::from_le_bytes)
    }

    /// A count of at most so many.
    pub fn count(&mut self, most: usize) -> Result<usize, Bad> {
        usize::try_from(self.number()?).ok().filter(|count| *count <= most).ok_or(Bad::Format)
    }

    /// At most so many things, with their count before them.
    pub fn list<T>(&mut self, most: usize, read: impl Fn(&mut Self) -> Result<T, Bad>) -> Result<Vec<T>, Bad> {
        let count = self.count(most)?;
        // Room for no more than there are bytes: the count may be any.
        let mut list = Vec::with_capacity(count.min(self.0.len() / size_of::<T>().max(1)));
        for _ in 0..count {
            list.push(read(self)?);
        }
        Ok(list)
    }

    fn string(&mut self, most: usize) -> Result<&'a [u8], Bad> {
        let length = self.count(most)?;
        self.take(length)
    }

    fn held<T>(&mut self, read: impl FnOnce(&mut Self) -> Result<T, Bad>) -> Result<Option<Held<T>>, Bad> {
        match self.take(1)? {
            [0] => Ok(None),
            [1] => Ok(Some(Held { content: read(self)?, handed_out: false })),
            [2] => Ok(Some(Held { content: read(self)?, handed_out: true })),
            _ => Err(Bad::Format),
        }
    }

    /// The state that was read, if nothing is left over.
    pub fn end<T>(self, state: T) -> Result<T, Bad> {
        if self.0.is_empty() { Ok(state) } else { Err(Bad::Format) }
    }
}
