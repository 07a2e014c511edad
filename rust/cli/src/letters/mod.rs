//! A box of old letters, of the first version: those of some files, in their order, and what became of each.

mod opened;
mod report;
mod stop;

use std::ffi::{OsStr, OsString};
use std::os::unix::ffi::OsStrExt;
use std::path::{Path, PathBuf};

use pevghazo::{Envelope, Refusal, envelope};
use pevghazo_store::{Secret, shown};

use crate::arguments::Arguments;
use crate::failure::Failure;
use crate::input::{envelopes, is_standard};
pub use opened::Opened;
pub use report::{Fate, Report};
pub use stop::{Next, Stop};

/// The files of a box, with all their bytes.
pub struct LetterBox(Vec<(PathBuf, Secret)>);

/// A letter of a box, or bytes that stand in the place of one.
pub struct Letter<'a> {
    /// The file that it is in.
    pub file: &'a Path,
    /// Where it starts there.
    pub from: usize,
    /// The envelope, or why this is none.
    pub content: Result<Envelope<'a>, Refusal>,
}

impl LetterBox {
    /// Reads all files of a command line.
    pub fn read(arguments: &Arguments) -> Result<LetterBox, Failure> {
        let read = |name: &OsString| {
            let name = Path::new(name);
            if is_standard(name) {
                return Err(Failure::Usage(
                    "A letter's message gets the name of its file, and `-` is none: name a file.".to_string(),
                ));
            }
            Ok((name.to_path_buf(), envelopes(name)?))
        };
        Ok(LetterBox(arguments.files().iter().map(read).collect::<Result<_, _>>()?))
    }

    /// All letters, in their order. Bytes that are no envelope are the last of their file.
    pub fn letters(&self) -> Vec<Letter<'_>> {
        self.0.iter().flat_map(|(file, bytes)| letters_of(file, bytes)).collect()
    }
}

/// The letters of a file, which holds at least one.
fn letters_of<'a>(file: &'a Path, bytes: &'a [u8]) -> Vec<Letter<'a>> {
    let (mut letters, mut from) = (Vec::new(), 0);
    loop {
        let content = envelope::read(&bytes[from..]);
        letters.push(Letter { file, from, content });
        match content {
            Ok(envelope) if !envelope.rest.is_empty() => from += envelope.place,
            _ => return letters,
        }
    }
}

impl Letter<'_> {
    /// The start of the names of its outputs: its place in its session, from 1 on, which no other letter of the session has, and the name
    /// of its file, or the start of a long one.
    pub fn output(&self, place: usize) -> OsString {
        /// The most bytes of it; a name has 255 at most, and endings follow.
        const LONGEST: usize = 200;
        let name = self.file.file_name().unwrap_or_default().as_bytes();
        let mut output = OsString::from(format!("{place:04}-"));
        output.push(OsStr::from_bytes(&name[..name.len().min(LONGEST)]));
        output
    }

    /// Where it is, for people.
    pub fn place(&self) -> String {
        let from = if self.from > 0 { format!(" from byte {}", self.from) } else { String::new() };
        format!("{}{from}", shown(self.file))
    }
}

#[cfg(test)]
mod tests {
    use super::*;

    /// An envelope of group 5 with these letter, metadata and bytes in the place of a message, and zeros as its tag.
    fn envelope_of(letter: &str, metadata: &str, message: &str) -> Vec<u8> {
        let tag = if letter == "S" { 32 } else { 16 };
        let header = format!("{letter},5,{},{},", metadata.len(), message.len());
        [header.as_bytes(), metadata.as_bytes(), message.as_bytes(), &vec![0; tag]].concat()
    }

    /// The places of the letters of a file, with their metadata, or the number of the refusal.
    fn found(bytes: &[u8]) -> Vec<(usize, Result<String, u8>)> {
        let content = |letter: &Letter| match &letter.content {
            Ok(envelope) => Ok(String::from_utf8(envelope.metadata.to_vec()).unwrap()),
            Err(refusal) => Err(refusal.number.number()),
        };
        letters_of(Path::new("file"), bytes).iter().map(|letter| (letter.from, content(letter))).collect()
    }

    #[test]
    fn a_file_is_cut_into_letters() {
        let [one, two] = [envelope_of("F", "one", "message"), envelope_of("F", "two", "")];
        let other = envelope_of("S", "other", "x");
        let ok = |text: &str| Ok(text.to_string());
        assert_eq!(found(&one), [(0, ok("one"))]);
        let all = [&one[..], &two, &other, &one].concat();
        let places = [0, one.len(), one.len() + two.len(), one.len() + two.len() + other.len()];
        assert_eq!(
            found(&all),
            [(places[0], ok("one")), (places[1], ok("two")), (places[2], ok("other")), (places[3], ok("one"))]
        );
        // What is none, at the start and at the end.
        assert_eq!(found(b""), [(0, Err(1))]);
        assert_eq!(found(b"no envelope"), [(0, Err(1))]);
        assert_eq!(found(&[&one[..], b"\n"].concat()), [(0, ok("one")), (one.len(), Err(1))]);
        assert_eq!(found(&all[..all.len() - 1]).last(), Some(&(places[3], Err(2))));
    }

    #[test]
    fn outputs_have_the_letter_s_place_and_the_file_s_name() {
        let name = |file: &str, place| {
            let letter = Letter { file: Path::new(file), from: 7, content: envelope::read(b"") };
            letter.output(place).into_string().unwrap()
        };
        assert_eq!(name("box/march.env", 1), "0001-march.env");
        assert_eq!(name("march.env", 9_999), "9999-march.env");
        assert_eq!(name("../march", 123_456), "123456-march");
        assert_eq!(name(&"x".repeat(255), 1), format!("0001-{}", "x".repeat(200)));
    }

    #[test]
    fn places_are_told_without_control_characters() {
        let letter = |file, from| Letter { file: Path::new(file), from, content: envelope::read(b"") };
        assert_eq!(letter("box/1.env", 0).place(), "box/1.env");
        assert_eq!(letter("box/a\nb", 1_204).place(), "box/a\\nb from byte 1204");
    }
}
