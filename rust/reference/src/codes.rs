//! Codes for packets of rings (document 02, "Label codes for packets").
//!
//! A *code* is 8 bytes of the deck function's output for a session's history. That output begins with the newest message's tag,
//! and the codes follow it, packet by packet. Both ends have the same ones until a further message is accepted.

use crate::limits::TAG;
use crate::refusal::{Number, Refusal};
use crate::session::Session;

/// The bytes of a code.
pub const CODE: usize = 8;
/// The highest number of a packet.
pub const PACKET_MAX: u32 = 2_047;
/// The permutations of a code: one makes the output's first state from the accumulator, one the block that holds the code.
pub const COUNT: u32 = 2;

/// Where a packet's code begins in the output.
pub fn place(packet: u32) -> usize {
    TAG + CODE * packet as usize
}

/// The checks 12 and, after it, 8, for a session that has accepted a message or has not.
pub(crate) fn check(has_message: bool, packet: u32, buffer: usize) -> Result<(), Number> {
    if !has_message || packet > PACKET_MAX {
        return Err(Number::NoCode);
    }
    if buffer < CODE {
        return Err(Number::Buffer);
    }
    Ok(())
}

impl Session {
    /// Puts a packet's code at the start of `buffer`, whose other bytes keep their content. Gives the count of permutations.
    /// Meets 5, 12 and 8, in this order, with the buffer left as it was.
    pub fn code(&self, packet: u32, buffer: &mut [u8]) -> Result<u32, Refusal> {
        if !self.open {
            return Err(Number::Closed.into());
        }
        check(self.index > 0, packet, buffer.len())?;
        self.deck().output(place(packet), &mut buffer[..CODE]);
        Ok(COUNT)
    }
}

#[cfg(test)]
mod tests {
    use super::*;
    use crate::deck::tests::counted;

    #[test]
    fn counts_are_the_permutations_made() {
        let mut session = Session::start(&[7; 16]).unwrap();
        let (answer, made) = counted(|| session.code(0, &mut [0; CODE]));
        assert_eq!((answer, made), (Err(Number::NoCode.into()), 0));
        session.wrap(&[1; 20], &[2; 100], &mut [0; 100], &mut [0; TAG]).unwrap();
        for packet in 0..=PACKET_MAX {
            let (answer, made) = counted(|| session.code(packet, &mut [0; CODE]));
            assert_eq!(answer, Ok(made), "packet {packet}");
        }
    }
}
