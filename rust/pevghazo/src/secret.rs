//! Bytes that are as secret as a key.

use std::fmt;
use std::ops::Deref;

use crate::raw::wipe;

/// Stored bytes of a session or a table. They are read as a slice, and set to zero when they are dropped.
///
/// They cannot be copied by accident, and are not shown:
///
/// ```
/// # fn main() -> Result<(), pevghazo::Refusal> {
/// let (session, _) = pevghazo::Session::start(&[7; 32])?;
/// assert_eq!(format!("{:?}", session.to_bytes()), "Secret(102 bytes)");
/// # Ok(())
/// # }
/// ```
///
/// ```compile_fail,E0599
/// let (session, _) = pevghazo::Session::start(&[7; 32]).unwrap();
/// let copy = session.to_bytes().clone();
/// ```
pub struct Secret {
    /// In a box, so that moved bytes leave nothing behind.
    bytes: Box<[u8]>,
}

impl Secret {
    /// So many zeros, to be written to.
    pub(crate) fn zeros(length: usize) -> Secret {
        Secret { bytes: vec![0; length].into_boxed_slice() }
    }

    pub(crate) fn bytes_mut(&mut self) -> &mut [u8] {
        &mut self.bytes
    }
}

impl Deref for Secret {
    type Target = [u8];

    fn deref(&self) -> &[u8] {
        &self.bytes
    }
}

impl Drop for Secret {
    fn drop(&mut self) {
        wipe(&mut self.bytes);
    }
}

impl fmt::Debug for Secret {
    fn fmt(&self, f: &mut fmt::Formatter<'_>) -> fmt::Result {
        write!(f, "Secret({} bytes)", self.bytes.len())
    }
}
