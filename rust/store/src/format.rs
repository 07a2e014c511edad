//! What a state file looks like inside: a fixed start, a version, a number, a length, the bytes, and a checksum over all of these.
//!
//! | bytes | content |
//! |---|---|
//! | 16 | `pevghazo-state`, a line feed and a zero |
//! | 4 | the version of the format, the lowest byte first |
//! | 8 | the generation: how many commits there have been, the lowest byte first; not in version 1 |
//! | 8 | the number of the state's bytes, the lowest byte first |
//! | that many | the state's bytes |
//! | 8 | the CRC-64 (as in the xz format) of everything before, the lowest byte first |
//!
//! Version 2 is written; version 1 is read too, as of generation 0.
//!
//! The checksum finds damage. It is no protection from somebody who is able to write the file and means to.

use crate::error::Damage;
use crate::secret::Secret;

/// How every state file starts.
pub(crate) const START: &[u8; 16] = b"pevghazo-state\n\0";

/// The version of the format that is written here.
pub const VERSION: u32 = 2;

/// The version without a generation, which is read here too.
const WITHOUT_GENERATION: u32 = 1;

/// The most bytes of a state.
pub const MAX_BYTES: usize = 1 << 24;

/// The bytes before the state's.
const HEAD: usize = START.len() + 4 + 8 + 8;

/// The bytes after the state's.
const TAIL: usize = 8;

/// The length of a file with so many bytes of state.
pub(crate) fn encoded_length(bytes: usize) -> u64 {
    (HEAD + bytes + TAIL) as u64
}

/// The content of a file of this generation with these bytes of state.
pub(crate) fn encode(generation: u64, bytes: &[u8]) -> Secret {
    let mut content = Secret::with_room(HEAD + bytes.len() + TAIL);
    content.add(START);
    content.add(&VERSION.to_le_bytes());
    content.add(&generation.to_le_bytes());
    content.add(&(bytes.len() as u64).to_le_bytes());
    content.add(bytes);
    content.add(&crc64(&content).to_le_bytes());
    content
}

/// The generation and the bytes of state in a file's content.
pub(crate) fn decode(content: &[u8]) -> Result<(u64, &[u8]), Damage> {
    let rest = content.strip_prefix(START).ok_or(Damage::Start)?;
    let (version, rest) = rest.split_first_chunk().ok_or(Damage::Length)?;
    let (generation, rest) = match u32::from_le_bytes(*version) {
        WITHOUT_GENERATION => (0, rest),
        VERSION => {
            let (generation, rest) = rest.split_first_chunk().ok_or(Damage::Length)?;
            (u64::from_le_bytes(*generation), rest)
        }
        version => return Err(Damage::Version(version)),
    };
    let (length, rest) = rest.split_first_chunk().ok_or(Damage::Length)?;
    let (bytes, checksum) = rest.split_last_chunk().ok_or(Damage::Length)?;
    if u64::from_le_bytes(*length) != bytes.len() as u64 {
        return Err(Damage::Length);
    }
    if u64::from_le_bytes(*checksum) != crc64(&content[..content.len() - TAIL]) {
        return Err(Damage::Checksum);
    }
    Ok((generation, bytes))
}

/// Whether bytes start as a state file does, as far as they go.
pub(crate) fn starts_well(bytes: &[u8]) -> bool {
    bytes.iter().zip(START).all(|(byte, expected)| byte == expected)
}

/// The CRC-64 of the xz format.
pub(crate) fn crc64(bytes: &[u8]) -> u64 {
    let mut crc = !0;
    for byte in bytes {
        crc ^= u64::from(*byte);
        for _ in 0..8 {
            crc = (crc >> 1) ^ (if crc & 1 == 1 { 0xC96C_5795_D787_0F42 } else { 0 });
        }
    }
    !crc
}

#[cfg(test)]
mod tests {
    use super::*;

    #[test]
    fn checksum_is_the_known_one() {
        assert_eq!(crc64(b"123456789"), 0x995D_C9BB_DF19_39FA);
    }

    #[test]
    fn what_is_encoded_is_decoded() {
        for length in [0, 1, 2, 100, 5_000] {
            let bytes = vec![0x5A; length];
            let content = encode(7 + length as u64, &bytes);
            assert_eq!(content.len() as u64, encoded_length(length));
            assert_eq!(decode(&content), Ok((7 + length as u64, &bytes[..])));
        }
    }

    /// A file as version 1 of the format had it.
    #[test]
    fn version_1_is_read() {
        let mut content = START.to_vec();
        content.extend(1u32.to_le_bytes());
        content.extend(5u64.to_le_bytes());
        content.extend(b"state");
        content.extend(crc64(&content).to_le_bytes());
        assert_eq!(decode(&content), Ok((0, &b"state"[..])));
        for length in 0..content.len() {
            assert!(decode(&content[..length]).is_err(), "cut to {length} bytes");
        }
    }

    #[test]
    fn damage_is_found() {
        let content = encode(3, b"some state of a session").to_vec();
        for length in 0..content.len() {
            assert!(decode(&content[..length]).is_err(), "cut to {length} bytes");
        }
        for bit in 0..8 * content.len() {
            let mut bad = content.clone();
            bad[bit / 8] ^= 1 << (bit % 8);
            assert!(decode(&bad).is_err(), "bit {bit} changed");
        }
        assert_eq!(decode(&[&content[..], &[0]].concat()), Err(Damage::Length));
        assert_eq!(decode(&[&content[..], &content[..]].concat()), Err(Damage::Length));
        assert_eq!(decode(b""), Err(Damage::Start));
        assert_eq!(decode(&vec![0; content.len()]), Err(Damage::Start));
        let mut newer = content.clone();
        newer[16] = 3;
        assert_eq!(decode(&newer), Err(Damage::Version(3)));
        let mut swapped = content.clone();
        swapped.swap(38, 39);
        assert_eq!(decode(&swapped), Err(Damage::Checksum));
    }
}
