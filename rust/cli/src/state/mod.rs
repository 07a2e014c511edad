//! What a state file holds, and its bytes.
//!
//! The office's file holds the table of sessions with the groups' counts and, for each group, what is *kept*: the last envelope that
//! was sealed and the last message that was opened. A group's file, and that of a session in SANE, holds the group's number, the
//! session and what is kept. They are in the file because a call and what belongs to it must be committed together: a kill between
//! the commit and the handing out must not lose it. All these hold the fingerprint of every key that was ever used in the file. The file
//! of a session of the first version holds the letters that were opened, that of a pool of unused rings its runs, and that of a till its
//! totals, with what its last receipt is worked out from and whether that was handed out; `sae`, `pool` and `till` say how.
//!
//! | bytes | content |
//! |---|---|
//! | 8 | `office-3`, `group--2` or `sane---1` |
//! | [`Table::BYTES`], or 4 and [`Session::BYTES`](pevghazo::Session::BYTES) | the table, or the group's number and its session |
//! | for each group | the kept envelope, then the kept message |
//! | 16, and a counter | in SANE alone: the tag of the last start, and its counter |
//! | 4 | how many keys were used |
//! | 16 for each of them | its fingerprint |
//! | a counter, 4, and 16 for each of them | in SANE alone, after each fingerprint: the last counter under this key, how many other nonces were used under it, and the tags of their starts |
//!
//! Older files are read too. `office-1` and `group--1` end after what is kept: their keys are not known. The table of `office-1` and
//! `office-2` has [`Table::BYTES_BEFORE`], with one count for all groups, which each group then has as its own.
//!
//! A counter is a byte 0 for none, or a byte 1 and 64 bits, the lowest byte first.
//!
//! A kept thing starts with a byte: 0 for none, 1 for one that waits to be handed out, 2 for one that was handed out. Then, but
//! for 0, come its strings: the envelope's bytes, or the metadata and the message, each with its length before it. Numbers have
//! 32 bits, the lowest byte first.

mod format;
mod lone;
mod pool;
mod sae;
mod till;

use pevghazo::{GROUPS, HEADER_MAX, Number, Refusal, TAG_LENGTH, TEXT_MAX, Table};
use pevghazo_store::Secret;

use crate::keys::Keys;
pub use format::{Bad, Part, Reader, put_count};
pub use lone::{Group, Lone, Mode, Sane};
pub use sae::{Sae, open_letter};
pub use till::TillBook;

/// The most bytes of an envelope.
pub const ENVELOPE_MAX: usize = HEADER_MAX + 2 * TEXT_MAX + TAG_LENGTH;

/// What is kept of one session's last messages.
#[derive(Debug, Default, PartialEq, Eq)]
pub struct Kept {
    /// The last envelope that was sealed, until an arrival shows that the other end has it.
    pub envelope: Option<Held<Vec<u8>>>,
    /// The last message that was opened.
    pub message: Option<Held<Message>>,
}

/// Something that is kept, and whether it was handed out.
#[derive(Debug, PartialEq, Eq)]
pub struct Held<T> {
    /// The thing itself.
    pub content: T,
    /// Whether it went out whole at least once.
    pub handed_out: bool,
}

impl<T> Held<T> {
    /// A thing that waits to be handed out.
    pub fn waiting(content: T) -> Held<T> {
        Held { content, handed_out: false }
    }
}

/// Whether there is something that waits to be handed out.
pub fn waits<T>(held: &Option<Held<T>>) -> bool {
    held.as_ref().is_some_and(|held| !held.handed_out)
}

/// An opened message.
#[derive(Debug, PartialEq, Eq)]
pub struct Message {
    /// The metadata that came with it.
    pub metadata: Secret,
    /// The message.
    pub text: Secret,
}

/// The office's state.
#[derive(Debug)]
pub struct Office {
    /// The sessions, each group's count of the day, and the allowance.
    pub table: Table,
    /// The keys that were used.
    pub keys: Keys,
    kept: [Kept; GROUPS],
}

impl Office {
    /// The state before the first day.
    pub fn new() -> Office {
        Office { table: Table::new(), keys: Keys::default(), kept: Default::default() }
    }

    /// What is kept of a group; number 3 for a group above 31.
    pub fn kept(&mut self, group: u32) -> Result<&mut Kept, Refusal> {
        let kept = usize::try_from(group).ok().and_then(|group| self.kept.get_mut(group));
        kept.ok_or(Refusal { number: Number::BadGroup, count: 0 })
    }
}

/// What is said of an older copy of a state file with sessions.
const OLDER: &str = "\
What is sealed from it takes the place of what was sealed since, and in SANE also shares its keystream: replace its sessions \
under new keys. `--restore` takes it all the same, which is right only if nothing was sealed or opened since the copy was made.";

/// A state that lives in a file.
pub trait State: Sized {
    /// Whether it knows nonces, which must not repeat: then none is begun in the place of one that was lost.
    const KNOWS_NONCES: bool = false;
    /// What is said of an older copy besides that it is one.
    const OLDER: &'static str = OLDER;
    /// Its bytes.
    fn encode(&self) -> Secret;
    /// The state with these bytes.
    fn decode(bytes: &[u8]) -> Result<Self, Bad>;
}

/// The first version of the office's state file that has the keys that were used.
const WITH_KEYS: u8 = 2;

/// The first version of the office's state file that has a count for each group.
const WITH_COUNTS: u8 = 3;

/// The table of an office's state file of this version.
fn read_table(version: u8, reader: &mut Reader) -> Result<Table, Bad> {
    let table = if version >= WITH_COUNTS {
        Table::from_bytes(reader.take(Table::BYTES)?)
    } else {
        Table::from_bytes_before(reader.take(Table::BYTES_BEFORE)?)
    };
    table.map_err(|_| Bad::Format)
}

impl State for Office {
    fn encode(&self) -> Secret {
        let mut bytes = format::started(&format::OFFICE);
        bytes.add(&self.table.to_bytes());
        self.kept.iter().for_each(|kept| kept.put(&mut bytes));
        self.keys.put(&mut bytes);
        bytes
    }

    fn decode(bytes: &[u8]) -> Result<Office, Bad> {
        let (version, mut reader) = Reader::after(bytes, &format::OFFICE)?;
        let mut office = Office { table: read_table(version, &mut reader)?, ..Office::new() };
        for kept in &mut office.kept {
            *kept = Kept::read(&mut reader)?;
        }
        if version >= WITH_KEYS {
            office.keys = Keys::read(&mut reader)?;
        }
        reader.end(office)
    }
}

#[cfg(test)]
mod tests {
    use pevghazo::{INDEX_MAX, Pool, RING_MAX, Run, SaeSession, SaneSession, Session, Size, Till, envelope};

    use super::*;
    use crate::keys::FINGERPRINT;
    use crate::letters::Opened;
    use crate::prices::PriceList;
    use crate::receipt::{Receipt, Sale};
    use crate::starts::{Nonce, Start, Starts};

    fn kept(envelope: usize, message: usize) -> Kept {
        Kept {
            envelope: Some(Held::waiting(vec![1; envelope])),
            message: Some(Held {
                content: Message { metadata: vec![2; 3].into(), text: vec![3; message].into() },
                handed_out: true,
            }),
        }
    }

    fn office() -> Office {
        let mut office = Office::new();
        office.table.start_day(1_000);
        office.table.open_group(5, &[7; 16]).unwrap();
        office.keys.add(&[7; 16], false).unwrap();
        *office.kept(5).unwrap() = kept(40, 9);
        *office.kept(31).unwrap() = kept(ENVELOPE_MAX, TEXT_MAX);
        office
    }

    fn group() -> Group {
        let mut keys = Keys::default();
        keys.add(&[7; 16], false).unwrap();
        Group { group: 5, session: Session::start(&[7; 16]).unwrap().0, kept: kept(40, 9), starts: keys }
    }

    fn sane() -> Sane {
        let mut starts = Starts::default();
        let mut session = None;
        for nonce in [Nonce::from(5), Nonce::from(Secret::from(&b"a nonce of a file"[..])), Nonce::from(6)] {
            let (started, tag, _) = SaneSession::start(&[7; 16], nonce.bytes()).unwrap();
            starts.add(&[7; 16], &nonce, tag).unwrap();
            session = Some(started);
        }
        Sane { group: 5, session: session.unwrap(), kept: kept(40, 9), starts }
    }

    fn sae(letters: usize) -> Sae {
        let (session, tag, _) = SaeSession::start(&[7; 16], &6u64.to_le_bytes()).unwrap();
        let mut opened = Opened::none(&[7; 16]).unwrap();
        let fingerprint = opened.fingerprint(&envelope::read(b"F,5,0,0,the letter's tag").unwrap()).unwrap();
        (0..letters).for_each(|_| opened.add(fingerprint));
        Sae { group: 5, session, start: Start { tag, counter: Some(6) }, opened }
    }

    fn pool() -> Pool {
        let runs = [(Size::H, 5, 5), (Size::C, 12_001, 12_100), (Size::C, 1, 9), (Size::A, 7, RING_MAX)];
        Pool::from_runs(&runs.map(|(size, first, last)| Run { size, first, last })).unwrap()
    }

    /// A till after two receipts, the last of which has refused lines too.
    fn till() -> TillBook {
        let (list, mut book) = (PriceList::new([0, 99, 250, 1_000_000, 1, 2, 3, 4]).unwrap(), TillBook::new());
        for lines in [&["7,C,12101,12103,20250304\n"][..], &["7,D,1,5,20250304\n", "\n", "7,A,1,5,20250304\n", "7,B"]] {
            let lines = lines.iter().map(|line| line.as_bytes().to_vec()).collect();
            let sale = Sale { before: book.till, list, lines };
            let after = Receipt::new(1, &sale).after;
            book.book(sale, after);
        }
        book
    }

    #[test]
    fn what_is_encoded_is_decoded() {
        let bytes = office().encode();
        let mut back = Office::decode(&bytes).unwrap();
        assert_eq!(back.encode(), bytes);
        assert_eq!((back.table.allowance(), back.table.left(5), back.table.left(6)), (1_000, Some(999), Some(1_000)));
        assert_eq!(back.kept(5).unwrap(), &kept(40, 9));
        assert_eq!(back.kept(6).unwrap(), &Kept::default());
        assert_eq!(back.kept(32).unwrap_err().number, Number::BadGroup);
        let bytes = group().encode();
        let back = Group::decode(&bytes).unwrap();
        assert_eq!((back.encode(), back.group, back.kept, back.starts), (bytes, 5, kept(40, 9), group().starts));
        let bytes = sane().encode();
        let back = Sane::decode(&bytes).unwrap();
        assert_eq!((back.encode(), back.group, back.kept), (bytes, 5, kept(40, 9)));
        assert_eq!((back.starts.last().counter, back.starts), (Some(6), sane().starts));
        let bytes = sae(3).encode();
        let back = Sae::decode(&bytes).unwrap();
        assert_eq!((back.encode(), back.group, back.start, back.opened), (bytes, 5, sae(0).start, sae(3).opened));
        let mut handed_out = till();
        handed_out.handed_out();
        assert!(waits(&till().last) && !waits(&handed_out.last));
        for book in [till(), handed_out, TillBook::new()] {
            let bytes = book.encode();
            let back = TillBook::decode(&bytes).unwrap();
            assert_eq!((back.encode(), back), (bytes, book));
        }
        for pool in [pool(), Pool::new()] {
            let bytes = pool.encode();
            let back = Pool::decode(&bytes).unwrap();
            assert_eq!((back.encode(), back), (bytes, pool));
        }
    }

    /// The bytes of the office after their start, with the table as it was before each group had a count.
    fn before(bytes: &[u8], count: u32) -> Vec<u8> {
        let (table, rest) = bytes[8..].split_at(Table::BYTES);
        let (records, allowance) = table.split_at(Table::BYTES - 4);
        let sessions = records.chunks(Session::BYTES + 4).flat_map(|record| &record[..Session::BYTES]);
        sessions.chain(&count.to_le_bytes()).chain(allowance).chain(rest).copied().collect()
    }

    #[test]
    fn the_count_of_version_2_is_that_of_every_group() {
        let office = office();
        let bytes = office.encode();
        for count in [0, 1, 1_000, u32::MAX] {
            let old = [b"office-2", &before(&bytes, count)[..]].concat();
            let back = Office::decode(&old).unwrap();
            assert!(back.table.groups().all(|group| group.count == count));
            assert_eq!(back.table.allowance(), 1_000);
            assert_eq!((&back.kept, &back.keys), (&office.kept, &office.keys));
            let new = back.encode();
            assert!(new.starts_with(b"office-3"));
            assert_eq!(Office::decode(&new).unwrap().encode(), new);
        }
        // The bytes of one version under the start of another.
        assert!(Office::decode(&[b"office-2", &bytes[8..]].concat()).is_err());
        assert!(Office::decode(&[b"office-3", &before(&bytes, 1)[..]].concat()).is_err());
    }

    /// The bytes of version 1 are those of version 2 up to the keys.
    #[test]
    fn version_1_is_read_without_keys() {
        let group = group();
        let bytes = group.encode();
        let keys = 4 + FINGERPRINT;
        let old = [b"group--1", &bytes[8..bytes.len() - keys]].concat();
        let back = Group::decode(&old).unwrap();
        assert_eq!((back.group, back.kept, back.starts), (5, kept(40, 9), Keys::default()));
        assert!(Group::decode(&[b"group--1", &bytes[8..]].concat()).is_err());
        assert_eq!(Group::decode(&[b"group--0", &old[8..]].concat()).unwrap_err(), Bad::Format);
        assert_eq!(Office::decode(&old).unwrap_err().to_string(), "it is a group's and not the office's");
        let office = office();
        let bytes = office.encode();
        let old = before(&bytes, 1);
        let back = Office::decode(&[b"office-1", &old[..old.len() - keys]].concat()).unwrap();
        assert_eq!(Office::decode(&[b"office-0", &old[..old.len() - keys]].concat()).unwrap_err(), Bad::Format);
        assert_eq!((back.kept, back.keys), (office.kept, Keys::default()));
    }

    #[test]
    fn the_largest_state_fits_a_state_file() {
        let mut office = office();
        office.keys = Keys::from(vec![[0; FINGERPRINT]; Keys::MOST]);
        for group in 0..GROUPS as u32 {
            *office.kept(group).unwrap() = kept(ENVELOPE_MAX, TEXT_MAX);
        }
        let bytes = office.encode();
        assert!(bytes.len() <= pevghazo_store::MAX_BYTES);
        assert_eq!(Office::decode(&bytes).unwrap().keys, office.keys);
        let runs: Vec<Run> =
            (0..256).map(|place| Run { size: Size::C, first: 1 + 2 * place, last: 1 + 2 * place }).collect();
        let pool = Pool::from_runs(&runs).unwrap();
        assert_eq!(Pool::decode(&pool.encode()).unwrap(), pool);
        // As many lines as a till takes, each as long as one can be.
        let mut lines = vec![b"31,C,10000001,10000001,20250304\n".to_vec(); Sale::MOST];
        lines[0] = vec![b'x'; 33];
        let (before, list) = (Till::new(), PriceList::new([250; 8]).unwrap());
        let (sale, mut book) = (Sale { before, list, lines }, TillBook::new());
        let after = Receipt::new(1, &sale).after;
        book.book(sale, after);
        let bytes = book.encode();
        assert!(bytes.len() <= pevghazo_store::MAX_BYTES && after.lines() == 65_535);
        assert_eq!(TillBook::decode(&bytes).unwrap(), book);
        // More letters than a session takes.
        let state = sae(Opened::MOST);
        let bytes = state.encode();
        assert!(bytes.len() <= pevghazo_store::MAX_BYTES && Opened::MOST > INDEX_MAX as usize / 2 - 1);
        assert_eq!(Sae::decode(&bytes).unwrap().opened, state.opened);
        for keys in [1, 2, Starts::MOST] {
            let state = Sane { starts: Starts::full(keys), kept: kept(ENVELOPE_MAX, TEXT_MAX), ..sane() };
            let bytes = state.encode();
            assert!(bytes.len() <= pevghazo_store::MAX_BYTES);
            assert_eq!(Sane::decode(&bytes).unwrap().starts, state.starts);
        }
    }

    #[test]
    fn one_end_is_not_taken_for_the_other() {
        let lone = [group().encode(), sane().encode(), sae(3).encode(), pool().encode(), till().encode()];
        let states = std::iter::once(office().encode()).chain(lone);
        let names = ["the office's", "a group's", "a SANE session's", "that of old letters", "a pool's", "a till's"];
        for (bytes, is) in states.zip(names) {
            let bytes = &bytes;
            let decoded = [
                Office::decode(bytes).map(drop).map_err(|bad| bad.to_string()),
                Group::decode(bytes).map(drop).map_err(|bad| bad.to_string()),
                Sane::decode(bytes).map(drop).map_err(|bad| bad.to_string()),
                Sae::decode(bytes).map(drop).map_err(|bad| bad.to_string()),
                Pool::decode(bytes).map(drop).map_err(|bad| bad.to_string()),
                TillBook::decode(bytes).map(drop).map_err(|bad| bad.to_string()),
            ];
            for (decoded, name) in decoded.into_iter().zip(names) {
                assert_eq!(decoded, if name == is { Ok(()) } else { Err(format!("it is {is} and not {name}")) });
            }
        }
        assert_eq!(Group::decode(b"").unwrap_err(), Bad::Format);
        assert_eq!(Sane::decode(b"sane---2").unwrap_err(), Bad::Version(2));
        assert_eq!(Sae::decode(b"sae----2").unwrap_err(), Bad::Version(2));
        assert_eq!(Pool::decode(b"pool---2").unwrap_err(), Bad::Version(2));
        assert_eq!(TillBook::decode(b"till---2").unwrap_err(), Bad::Version(2));
        assert_eq!(Office::decode(b"office-4").unwrap_err(), Bad::Version(4));
        for start in [&b"office-0"[..], b"office--", b"office3", b"offices3", b"office\xff3"] {
            assert_eq!(Office::decode(start).unwrap_err(), Bad::Format);
        }
    }

    fn any_bytes<S: State>(bytes: &[u8]) {
        for length in 0..bytes.len() {
            assert!(S::decode(&bytes[..length]).is_err(), "cut to {length} bytes");
        }
        assert!(S::decode(&[bytes, &[0]].concat()).is_err());
        for place in 0..bytes.len() {
            for byte in 0..=255 {
                let mut changed = bytes.to_vec();
                changed[place] = byte;
                if let Ok(state) = S::decode(&changed) {
                    assert_eq!(*state.encode(), changed);
                }
            }
        }
    }

    /// Cut, lengthened and changed bytes are refused or are another state, and never stop the program.
    #[test]
    fn any_bytes_are_decoded_or_refused() {
        any_bytes::<Group>(&group().encode());
        any_bytes::<Sane>(&sane().encode());
        any_bytes::<Sae>(&sae(3).encode());
        any_bytes::<Pool>(&pool().encode());
        any_bytes::<TillBook>(&till().encode());
        any_bytes::<TillBook>(&TillBook::new().encode());
        let bytes = office().encode();
        for length in (0..bytes.len()).step_by(97) {
            assert!(Office::decode(&bytes[..length]).is_err(), "cut to {length} bytes");
        }
    }
}
