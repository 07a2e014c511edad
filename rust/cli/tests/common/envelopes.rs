//! Envelopes by the independent implementation, as this version seals them and as versions before 0.8 did, whose tags do not cover the
//! header; and what they count.

use pevghazo::{Letter, SaneSession, Session, envelope};
use pevghazo_reference::envelope::{SANSE_LETTER, header_bytes, read};
use pevghazo_reference::sanse;
use pevghazo_reference::session::{Mode, Record};

use super::Folder;

/// The envelope of a message.
pub fn sealed<M: Mode>(session: &mut Record<M>, group: u32, metadata: &[u8], message: &[u8]) -> Vec<u8> {
    sealed_by(session, group, metadata, message, true)
}

/// The envelope of a message as versions before 0.8 sealed it.
pub fn sealed_before<M: Mode>(session: &mut Record<M>, group: u32, metadata: &[u8], message: &[u8]) -> Vec<u8> {
    sealed_by(session, group, metadata, message, false)
}

/// The envelope of a message, whose header is under the tag or not.
fn sealed_by<M: Mode>(session: &mut Record<M>, group: u32, metadata: &[u8], message: &[u8], under: bool) -> Vec<u8> {
    let header = header_bytes(M::LETTER, group, metadata.len(), message.len());
    let (mut cryptogram, mut tag) = (vec![0; message.len()], vec![0; M::TAG]);
    session.wrap_for(under.then_some(&header), metadata, message, &mut cryptogram, &mut tag).unwrap();
    [&header, metadata, &cryptogram, &tag].concat()
}

/// The message of an envelope.
pub fn opened<M: Mode>(session: &mut Record<M>, bytes: &[u8]) -> Vec<u8> {
    let parts = read(bytes).unwrap();
    let mut message = vec![0; parts.cryptogram.len()];
    session.unwrap_for(Some(parts.header), parts.metadata, parts.cryptogram, parts.tag, &mut message).unwrap();
    message
}

/// An envelope with another start in the place of its own.
pub fn readdressed(bytes: &[u8], old: &str, new: &str) -> Vec<u8> {
    [new.as_bytes(), bytes.strip_prefix(old.as_bytes()).unwrap()].concat()
}

/// The bytes of header and metadata in SANSE, which go into the history as one string.
fn string(group: u32, metadata: usize, message: usize) -> usize {
    header_bytes(SANSE_LETTER, group, metadata, message).len() + metadata
}

/// The count of sealing or opening an envelope with metadata and message of these lengths, in SANSE.
pub fn count(group: u32, metadata: usize, message: usize) -> u32 {
    sanse::count(string(group, metadata, message), message)
}

/// By how much that raises the index.
pub fn growth(group: u32, metadata: usize, message: usize) -> u32 {
    sanse::growth(string(group, metadata, message), message)
}

/// A version before 0.8 opens an envelope with the session at an offset of a state file: it does not hand over the header. Gives the message.
pub fn opened_before(folder: &Folder, state: &str, offset: usize, name: &str) -> Vec<u8> {
    let (bytes, stored) = (folder.read(name).unwrap(), folder.session(state, offset));
    let arrived = envelope::read(&bytes).unwrap();
    let (message, left) = match arrived.letter {
        Letter::S => {
            let mut session = Session::from_bytes(&stored).unwrap();
            (session.unwrap(&arrived.arrival().unwrap()).unwrap().message, session.to_bytes())
        }
        Letter::N => {
            let mut session = SaneSession::from_bytes(&stored).unwrap();
            (session.unwrap(&arrived.arrival().unwrap()).unwrap().message, session.to_bytes())
        }
        Letter::F => panic!("an old letter"),
    };
    folder.forge(state, offset, &left);
    message
}
