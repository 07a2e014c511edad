//! Reading inputs: files, the standard input and keys. What was read is wiped after its use.

use std::fs::File;
use std::os::unix::ffi::OsStrExt;
use std::os::unix::fs::MetadataExt;
use std::path::Path;

use pevghazo::{KEY_MAX, NONCE_MAX, TEXT_MAX};
use pevghazo_store::{Secret, shown};

use crate::arguments::Arguments;
use crate::failure::Failure;
use crate::starts::Nonce;
use crate::streams;

/// The most bytes of a file with envelopes.
const ENVELOPES_MAX: usize = 1 << 24;

/// The options that name inputs.
const INPUTS: [&str; 7] = ["metadata", "message", "in", "key", "nonce", "windows", "prices"];

/// Checks that at most one of the inputs is the standard input.
pub fn check_names(arguments: &Arguments) -> Result<(), Failure> {
    let standard = INPUTS.iter().filter_map(|name| arguments.value(name)).filter(|name| is_standard(Path::new(name)));
    if standard.count() > 1 {
        return Err(Failure::Usage("Only one input may be `-`, the standard input.".to_string()));
    }
    Ok(())
}

/// Refuses the name of a folder where a file is meant.
pub fn check_name(name: &Path) -> Result<(), Failure> {
    if name.as_os_str().as_bytes().ends_with(b"/") {
        return Err(Failure::Usage(format!("{} is the name of a folder: name a file.", shown(name))));
    }
    Ok(())
}

/// Whether a name stands for the standard input or output.
pub fn is_standard(name: &Path) -> bool {
    name == Path::new("-")
}

/// The metadata: a file's, or those of the command line itself, or none.
pub fn metadata(arguments: &Arguments) -> Result<Secret, Failure> {
    match (arguments.value("metadata"), arguments.value("metadata-text")) {
        (Some(_), Some(_)) => {
            Err(Failure::Usage("Only one of --metadata and --metadata-text may be given.".to_string()))
        }
        (Some(name), None) => text(Path::new(name)),
        (None, text) => Ok(text.map(|text| Secret::from(text.as_encoded_bytes())).unwrap_or_default()),
    }
}

/// A message. One that is too long is cut to a length that the library refuses.
pub fn message(arguments: &Arguments) -> Result<Secret, Failure> {
    text(Path::new(arguments.required("message")?))
}

fn text(name: &Path) -> Result<Secret, Failure> {
    read(name, TEXT_MAX + 1, |_| Ok(()))
}

/// The nonce: a counter, or a file's bytes. One that is too long is cut to a length that the library refuses.
pub fn nonce(arguments: &Arguments) -> Result<Nonce, Failure> {
    match (arguments.counter("counter")?, arguments.value("nonce")) {
        (Some(counter), None) => Ok(Nonce::from(counter)),
        (None, Some(name)) => Ok(Nonce::from(read(Path::new(name), NONCE_MAX + 1, |_| Ok(()))?)),
        _ => Err(Failure::Usage("One of --counter and --nonce is needed, and not both.".to_string())),
    }
}

/// The bytes that an envelope is to be read from.
pub fn envelope(arguments: &Arguments) -> Result<Secret, Failure> {
    let mut bytes = envelopes(Path::new(arguments.required("in")?))?;
    let from = arguments.number("from")?.unwrap_or(0);
    bytes.skip(usize::try_from(from).unwrap_or(usize::MAX));
    Ok(bytes)
}

/// All bytes of a file with envelopes.
pub fn envelopes(name: &Path) -> Result<Secret, Failure> {
    let bytes = read(name, ENVELOPES_MAX + 1, |_| Ok(()))?;
    if bytes.len() > ENVELOPES_MAX { Err(Failure::LargeInput(name.to_path_buf())) } else { Ok(bytes) }
}

/// A key: all bytes of its file, which others may not read.
pub fn key(arguments: &Arguments) -> Result<Secret, Failure> {
    let name = Path::new(arguments.required("key")?);
    read(name, KEY_MAX + 1, |file| {
        let mode = file.metadata().map_err(Failure::file("look at", name))?.mode();
        if mode & 0o077 == 0 { Ok(()) } else { Err(Failure::OpenKey(name.to_path_buf())) }
    })
}

/// A windows file or a price file: at most so many of its bytes.
pub fn small(name: &Path, most: usize) -> Result<Secret, Failure> {
    read(name, most, |_| Ok(()))
}

/// At most so many bytes of a file that passes a check, or of the standard input.
fn read(name: &Path, most: usize, check: impl FnOnce(&File) -> Result<(), Failure>) -> Result<Secret, Failure> {
    if is_standard(name) {
        let standard = streams::input().and_then(|input| Secret::read(input, most));
        return standard.map_err(Failure::file("read", Path::new("standard input")));
    }
    let file = File::open(name).map_err(Failure::file("open", name))?;
    check(&file)?;
    Secret::read(file, most).map_err(Failure::file("read", name))
}
