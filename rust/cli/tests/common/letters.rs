//! What the tests of old letters share: boxes of them, which the independent implementation seals as the first version did.

use std::fs;

use pevghazo_reference::session::SaeSession;

use super::sane::text;
use super::{Folder, Run};

/// The key of an old session of group 5.
pub const KEY: &[u8] = b"the secret key of an old session";

/// The start of its reading, with its counter; the state file is to be added.
pub const START: &str = "sae start --group 5 --key old-key --counter 41 --state";

/// The opening of letters, whose files are to be added.
pub const OPEN: &str = "sae open --state old --out-dir out";

/// Lengths of metadata and messages, by which letters differ.
pub const LENGTHS: [(usize, usize); 4] = [(6, 11), (0, 100), (48, 0), (0, 0)];

/// A letter, and what was sealed in it.
#[derive(Clone, Debug)]
pub struct Letter {
    pub metadata: Vec<u8>,
    pub message: Vec<u8>,
    pub bytes: Vec<u8>,
}

/// The first version's session under this key with this nonce, and the tag of its start.
pub fn trial(key: &[u8], nonce: &[u8]) -> (SaeSession, [u8; 16]) {
    let mut tag = [0; 16];
    let (session, _) = SaeSession::start(key, nonce, &mut tag).unwrap();
    (session, tag)
}

/// The next letters of a session, with metadata and messages of these lengths.
pub fn sealed(session: &mut SaeSession, lengths: &[(usize, usize)]) -> Vec<Letter> {
    let letter = |(a, m): &(usize, usize)| {
        let place = session.index as usize;
        let (metadata, message) = (text(place, *a), text(place + 7, *m));
        let bytes = session.trial_seal(5, &metadata, &message);
        Letter { metadata, message, bytes }
    };
    lengths.iter().map(letter).collect()
}

/// A box of letters of group 5, in the files `1`, `2` and so on, with the key in `old-key`, the session started in the state file `old`, and an
/// empty folder `out`.
pub struct OldBox {
    pub folder: Folder,
    pub letters: Vec<Letter>,
    /// The first version's session after the last letter.
    pub session: SaeSession,
}

impl OldBox {
    /// Letters with metadata and messages of these lengths.
    pub fn new(lengths: &[(usize, usize)]) -> OldBox {
        let folder = Folder::new();
        folder.write("old-key", KEY);
        fs::create_dir(folder.0.join("out")).unwrap();
        let (mut session, _) = trial(KEY, &41u64.to_le_bytes());
        let letters = sealed(&mut session, lengths);
        for (place, letter) in (1..).zip(&letters) {
            folder.write(&format!("{place}"), &letter.bytes);
        }
        folder.done(&format!("{START} old"));
        OldBox { folder, letters, session }
    }

    /// Four letters.
    pub fn of_four() -> OldBox {
        OldBox::new(&LENGTHS)
    }

    /// Opens the letters of these files.
    pub fn open(&self, files: &str) -> Run {
        self.folder.run(&format!("{OPEN} {files}"))
    }

    /// Opens the letters of these files, all of which open or were opened before. Gives the report.
    pub fn opens(&self, files: &str) -> String {
        self.folder.done(&format!("{OPEN} {files}"))
    }

    /// Opens the letters of these files, and stops with this status. Gives the report, and what was said.
    pub fn stops(&self, status: i32, files: &str) -> (String, String) {
        let run = self.open(files);
        assert_eq!(run.status, status, "{files}: {}", run.said);
        (String::from_utf8(run.printed).unwrap(), run.said)
    }

    /// Just so many letters were opened, which came from files of these names: their messages and metadata are there, and nothing else is.
    pub fn holds(&self, files: &str) {
        let names: Vec<&str> = files.split_whitespace().collect();
        let mut expected = Vec::new();
        for (place, (name, letter)) in (1..).zip(names.iter().zip(&self.letters)) {
            let output = format!("{place:04}-{name}");
            assert!(self.folder.read(&format!("out/{output}.message")).as_ref() == Some(&letter.message), "{output}");
            expected.push(format!("{output}.message"));
            if !letter.metadata.is_empty() {
                let metadata = self.folder.read(&format!("out/{output}.metadata"));
                assert!(metadata.as_ref() == Some(&letter.metadata), "{output}");
                expected.push(format!("{output}.metadata"));
            }
        }
        assert_eq!(self.folder.names_in("out"), expected);
        let shown = self.folder.done("sae show --state old");
        assert!(shown.contains(&format!(", letters opened {}\n", names.len())), "{shown}");
    }

    /// A letter with one bit changed.
    pub fn damaged(&self, place: usize, byte: usize) -> Vec<u8> {
        let mut bytes = self.letters[place - 1].bytes.clone();
        bytes[byte] ^= 1;
        bytes
    }
}
