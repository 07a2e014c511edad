//! A new key.

use std::io::Write;
use std::path::Path;

use pevghazo_store::{Secret, random, shown, wipe};

use crate::arguments::Arguments;
use crate::failure::Failure;
use crate::output::{Output, Time, tell};

/// The bytes of a new key.
const LENGTH: usize = 32;

/// Writes a key of random bytes to a new file.
pub fn keygen(arguments: &Arguments, out: &mut dyn Write) -> Result<(), Failure> {
    let name = Path::new(arguments.required("out")?);
    let output =
        Output::of(arguments, "out", |_| false)?.ok_or(Failure::Usage("The option --out is missing.".to_string()))?;
    if output.is_terminal() {
        return Err(Failure::Usage("A key is not printed at a terminal: name a file.".to_string()));
    }
    output.must_be_new()?;
    let mut bytes = [0; LENGTH];
    random(&mut bytes).map_err(Failure::file("get random bytes for", name))?;
    let key = Secret::from(&bytes[..]);
    wipe(&mut bytes);
    output.write(&key, Time::First, out)?;
    tell(&if output.is_standard() {
        format!("A new key of {LENGTH} bytes went to the standard output.")
    } else {
        format!("A new key of {LENGTH} bytes is in {}.", shown(name))
    });
    Ok(())
}
