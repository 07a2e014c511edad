//! What the tests of sessions in SANE share. Tags are those of the independent implementation.

use pevghazo_reference::session::SaneSession;

use super::{Folder, grouped};

/// The two ends of a session for group 5.
pub const ENDS: [&str; 2] = ["office", "group"];

/// The start of a session; the nonce is to be added.
pub const START: &str = "sane start --group 5 --key key --state";

/// The independent implementation's session of a key and a nonce, and the tag of its start.
pub fn reference(key: &[u8], nonce: &[u8]) -> (SaneSession, [u8; 16]) {
    let mut tag = [0; 16];
    let (session, _) = SaneSession::start(key, nonce, &mut tag).unwrap();
    (session, tag)
}

/// A tag as it is shown.
pub fn shown(tag: &[u8]) -> String {
    grouped(&tag.iter().map(|byte| format!("{byte:02x}")).collect::<String>())
}

/// The tag of a start with the folder's key and a counter.
pub fn tag_of(folder: &Folder, key: &str, counter: u64) -> String {
    shown(&reference(&folder.read(key).unwrap(), &counter.to_le_bytes()).1)
}

/// A key and no session yet.
pub fn with_keys() -> Folder {
    let folder = Folder::new();
    folder.write("key", b"the secret key of group 5");
    folder.write("other-key", b"another secret key of group 5");
    folder.write("text", b"20001 to 20100");
    folder
}

/// Both ends with counter 1.
pub fn pair() -> Folder {
    let folder = with_keys();
    for end in ENDS {
        folder.done(&format!("{START} {end} --counter 1"));
    }
    folder
}

/// The text of a message of so many bytes.
pub fn text(seed: usize, length: usize) -> Vec<u8> {
    (0..length).map(|place| (place.wrapping_mul(2_654_435_761).wrapping_add(seed) >> 3) as u8).collect()
}
