//! Values that the designers published: one of Xoodoo[12], and Xoodyak's hash of the empty message.

mod common;

use common::hex;
use pevghazo_reference::bits::{
    Bits, WIDTH, of_bytes, permute as permute_bits, round_constant_bit, to_bytes as bits_to_bytes,
};
use pevghazo_reference::xoodoo::{ROUND_CONSTANTS, from_bytes, permute, to_bytes};

#[test]
fn xoodoo_of_ones() {
    let published: [u8; 48] = [
        51, 240, 163, 117, 43, 238, 62, 200, 114, 52, 79, 41, 48, 108, 150, 181, 24, 5, 252, 185, 235, 179, 28, 3, 116,
        170, 36, 15, 232, 35, 116, 61, 110, 4, 109, 227, 91, 205, 0, 180, 179, 146, 112, 235, 96, 212, 206, 205,
    ];
    assert_eq!(to_bytes(&permute(&from_bytes(&[1; 48]), 12)), published);
    assert_eq!(bits_to_bytes(&permute_bits(&of_bytes(&[1; 48]), 12)), published);
}

#[test]
fn round_constants_follow_their_formula() {
    for (n, constant) in ROUND_CONSTANTS.iter().enumerate() {
        let by_formula: u32 = (0..32).map(|z| u32::from(round_constant_bit(n as i32 - 11, z)) << z).sum();
        assert_eq!(*constant, by_formula, "round {}", n as i32 - 11);
    }
}

/// Cyclist in hash mode over Xoodoo[12] (cookbook, section 7): absorbs a message and squeezes a digest, in blocks of 16 bytes.
///
/// In hash mode the frame byte is cut down to its lowest bit on the way in and left out on the way out.
struct Hash {
    up: bool,
    s: [u8; 48],
}

impl Hash {
    const RATE: usize = 16;

    fn down(&mut self, block: &[u8], frame: u8) {
        for (s, byte) in self.s.iter_mut().zip(block) {
            *s ^= byte;
        }
        self.s[block.len()] ^= 1;
        self.s[47] ^= frame & 1;
        self.up = false;
    }

    fn up(&mut self, length: usize) -> Vec<u8> {
        self.s = to_bytes(&permute(&from_bytes(&self.s), 12));
        self.up = true;
        self.s[..length].to_vec()
    }

    fn absorb(&mut self, message: &[u8]) {
        let mut blocks: Vec<&[u8]> = message.chunks(Hash::RATE).collect();
        if blocks.is_empty() {
            blocks.push(&[]);
        }
        for (i, block) in blocks.into_iter().enumerate() {
            if !self.up {
                self.up(0);
            }
            self.down(block, if i == 0 { 0x03 } else { 0 });
        }
    }

    fn squeeze(&mut self, length: usize) -> Vec<u8> {
        let mut digest = self.up(length.min(Hash::RATE));
        while digest.len() < length {
            self.down(&[], 0);
            let more = self.up((length - digest.len()).min(Hash::RATE));
            digest.extend(more);
        }
        digest
    }

    fn of(message: &[u8]) -> Vec<u8> {
        let mut hash = Hash { up: true, s: [0; 48] };
        hash.absorb(message);
        hash.squeeze(32)
    }
}

#[test]
fn xoodyak_of_nothing() {
    assert_eq!(Hash::of(&[]), hex("EA152F2B47BCE24EFB66C479D4ADF17BD324D806E85FF75EE369EE50DC8F8BD1"));
}

#[test]
fn bit_strings_have_the_right_order() {
    let bits: Bits = of_bytes(&[0x01, 0x80]);
    assert!(bits[0] && bits[15] && bits.iter().filter(|bit| **bit).count() == 2);
    assert_eq!(of_bytes(&[0; 48]).len(), WIDTH);
}
