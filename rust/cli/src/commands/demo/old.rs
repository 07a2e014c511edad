//! The demo's box of old letters.

use std::fs;
use std::io::Write;

use super::{Folder, indented};
use crate::failure::Failure;
use crate::output::print;

/// The key of the old session, whose counter is 7.
const KEY: &[u8] = b"a fixed key, for the demo, of old letters";

/// Three letters of group 4, in their order: header and metadata, then cryptogram and tag in hexadecimal digits. Nothing in this program
/// seals such letters; these are the independent implementation's, as the test below sees.
const LETTERS: [(&str, &str); 3] = [
    ("F,4,5,18,rings", "e9fe1dcc12b08b1469820f148dd203370fb9df3be9b1018433a1c970858530ad4ced"),
    ("F,4,6,18,unused", "256d5e11fe931c018661007dbd630603545dd0fbdc9c5f5c958730fb8defd438a90b"),
    ("F,4,5,18,rings", "da6967ab2d5caf7f78438aca8d2d78f0d2c75d769939834a07c728b4498014435389"),
];

/// The bytes of a letter.
fn bytes(letter: (&str, &str)) -> Vec<u8> {
    let digits = letter.1.as_bytes().chunks(2);
    let rest =
        digits.map(|pair| str::from_utf8(pair).ok().and_then(|pair| u8::from_str_radix(pair, 16).ok()).unwrap_or(0));
    letter.0.bytes().chain(rest).collect()
}

/// The office opens a box of old letters, two of which were in each other's place at first, and asks to seal in their session.
pub fn open_box(folder: &Folder, out: &mut dyn Write) -> Result<(), Failure> {
    const STATE: &str = "old.state";
    print(
        out,
        "\nThe office finds three letters of the first version, with key and counter of their session. Two are in the wrong order:\n",
    )?;
    folder.write("key", KEY)?;
    for (name, letter) in ["1.env", "2.env", "3.env"].into_iter().zip(LETTERS) {
        folder.write(name, &bytes(letter))?;
    }
    let letters = folder.0.join("letters");
    fs::create_dir(&letters).map_err(Failure::file("create the folder", &letters))?;
    folder.play(&["sae", "start", "--group", "4", "--key", "key", "--counter", "7"], STATE)?;
    let open = |names: [&'static str; 3]| [&["sae", "open", "--out-dir", "letters"][..], &names].concat();
    folder.refused(out, &open(["1.env", "3.env", "2.env"]), STATE)?;
    print(out, "In their order:\n")?;
    print(out, &indented(&folder.play(&open(["1.env", "2.env", "3.env"]), STATE)?))?;
    for name in ["0001-1.env", "0002-2.env", "0003-3.env"] {
        let text = folder.read(&format!("letters/{name}.message"))?;
        print(out, &format!("  {name}.message: \"{}\"\n", String::from_utf8_lossy(&text)))?;
    }
    print(out, "  in such a session something is to be sealed:\n")?;
    folder.refused(out, &["sae", "seal", "--message", "text", "--out", "none"], STATE)
}

#[cfg(test)]
mod tests {
    use pevghazo_reference::session::SaeSession;

    use super::*;

    /// The letters are those that the independent implementation seals as the first version did.
    #[test]
    fn the_letters_are_the_first_version_s() {
        let (mut session, _) = SaeSession::start(KEY, &7u64.to_le_bytes(), &mut [0; 16]).unwrap();
        let texts =
            [("rings", "S 10001 to S 10100"), ("unused", "S 10088 to S 10100"), ("rings", "S 10101 to S 10200")];
        for (letter, (metadata, message)) in LETTERS.into_iter().zip(texts) {
            let sealed = session.trial_seal(4, metadata.as_bytes(), message.as_bytes());
            let rest: String = sealed[letter.0.len()..].iter().map(|byte| format!("{byte:02x}")).collect();
            assert_eq!(letter.1, rest);
            assert_eq!(bytes(letter), sealed);
        }
    }
}
