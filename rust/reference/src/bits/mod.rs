//! Permutation, padding, rolling and deck function once more, literally on strings of bits.
//!
//! This is far slower than [`crate::xoodoo`], [`crate::rolling`] and [`crate::deck`] and shares no line with them: bits have
//! coordinates, sums are taken bit by bit, round constants come from the formula of the cookbook's appendix A, rolling is
//! written on the sequence of lanes s_0 to s_11 of document 01, and the deck function counts its indexes as the Farfalle paper
//! does.

mod deck;
mod permutation;
mod rolling;

pub use deck::{compress, deck, of_text, pad, xoofff};
pub use permutation::{permute, round_constant_bit};
pub use rolling::{roll_input, roll_output};

/// A string of bits, the first one first.
pub type Bits = Vec<bool>;

/// The width of the permutation, in bits.
pub const WIDTH: usize = 384;

/// The bits of a run of bytes, each byte's least significant first.
pub fn of_bytes(bytes: &[u8]) -> Bits {
    bytes.iter().flat_map(|byte| (0..8).map(move |i| byte >> i & 1 == 1)).collect()
}

/// The bytes of a string whose length is a multiple of 8.
pub fn to_bytes(bits: &[bool]) -> Vec<u8> {
    bits.chunks(8).map(|byte| byte.iter().enumerate().map(|(i, bit)| u8::from(*bit) << i).sum()).collect()
}

/// The sum of two strings of one length.
pub fn sum(a: &[bool], b: &[bool]) -> Bits {
    assert_eq!(a.len(), b.len());
    a.iter().zip(b).map(|(a, b)| a ^ b).collect()
}
