//! The repository's vectors of permutation, rolling and deck function: every field of every record but `outie` (Xoofffie),
//! which this crate does not have.

mod common;

use common::records;
use pevghazo_reference::bits;
use pevghazo_reference::deck::{Deck, Text, xoofff};
use pevghazo_reference::rolling::{roll_input, roll_output};
use pevghazo_reference::xoodoo::{inverse, permute};

#[test]
fn permutation() {
    let all = records("perm.txt");
    for record in &all {
        let (rounds, input) = (record.number("rounds"), record.state("in"));
        assert_eq!(permute(&input, rounds), record.state("out"), "out, line {}", record.line);
        assert_eq!(inverse(&input, rounds), record.state("inv"), "inv, line {}", record.line);
        let bits = bits::permute(&bits::of_bytes(&record.bytes("in")), rounds as i32);
        assert_eq!(bits::to_bytes(&bits), record.bytes("out"), "out by bits, line {}", record.line);
    }
}

#[test]
fn rolling() {
    for record in &records("roll.txt") {
        let (mut c, mut e) = (record.state("in"), record.state("in"));
        let mut c_bits = bits::of_bytes(&record.bytes("in"));
        let mut e_bits = c_bits.clone();
        for _ in 0..record.number("times") {
            (c, e) = (roll_input(&c), roll_output(&e));
            (c_bits, e_bits) = (bits::roll_input(&c_bits), bits::roll_output(&e_bits));
        }
        assert_eq!(c, record.state("c"), "input rolling, line {}", record.line);
        assert_eq!(e, record.state("e"), "output rolling, line {}", record.line);
        assert_eq!(bits::to_bytes(&c_bits), record.bytes("c"), "input rolling by bits, line {}", record.line);
        assert_eq!(bits::to_bytes(&e_bits), record.bytes("e"), "output rolling by bits, line {}", record.line);
    }
}

#[test]
fn deck_function() {
    for record in &records("xoofff.txt") {
        let line = record.line;
        let key = record.bytes("key");
        let history: Vec<Text> = (0..record.number("strings"))
            .map(|i| Text { bytes: record.bytes(&format!("s{i}")), frame: record.bits(&format!("f{i}")) })
            .collect();
        let deck = Deck::of(&key, &history);
        assert_eq!(deck.index, record.number("index") as u64, "index, line {line}");
        assert_eq!(deck.accumulator, record.state("acc"), "acc, line {line}");
        assert_eq!(deck.mask, record.state("mask"), "mask, line {line}");
        let (offset, length) = (record.number("offset"), record.number("length"));
        assert_eq!(xoofff(&key, &history, offset, length), record.bytes("out"), "out, line {line}");
        let strings: Vec<bits::Bits> = history.iter().map(bits::of_text).collect();
        let (x, k, index) = bits::compress(&bits::of_bytes(&key), &strings);
        assert_eq!(index, record.number("index"), "index by bits, line {line}");
        assert_eq!(bits::to_bytes(&x), record.bytes("acc"), "acc by bits, line {line}");
        assert_eq!(bits::to_bytes(&k), record.bytes("mask"), "mask by bits, line {line}");
        assert_eq!(bits::xoofff(&key, &history, offset, length), record.bytes("out"), "out by bits, line {line}");
    }
}
