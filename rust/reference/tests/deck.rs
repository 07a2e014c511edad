//! Padding and the deck function: the lanes against the bits.

use pevghazo_reference::bits;
use pevghazo_reference::deck::{Deck, Text, blocks, pad, xoofff};
use pevghazo_reference::random::Random;
use pevghazo_reference::xoodoo::to_bytes;

const EDGES: [usize; 12] = [0, 1, 2, 31, 32, 33, 47, 48, 49, 95, 96, 97];

#[test]
fn padding_on_bytes_and_bits() {
    let mut random = Random::new(2);
    for length in 0..150 {
        for frame_bits in 0..=7 {
            let text =
                Text { bytes: random.bytes(length), frame: (0..frame_bits).map(|_| random.once_in(2)).collect() };
            let padded = pad(&text.bytes, &text.frame);
            assert_eq!(padded, bits::to_bytes(&bits::pad(&bits::of_text(&text))));
            assert_eq!(padded.len(), 48 * blocks(length));
        }
    }
}

#[test]
fn deck_function_on_lanes_and_bits() {
    let mut random = Random::new(3);
    for _ in 0..60 {
        let length = random.below(48);
        let key = random.bytes(length);
        let history: Vec<Text> = (0..random.below(5))
            .map(|_| {
                let length = if random.once_in(2) { random.pick(&EDGES) } else { random.below(300) };
                let frame = (0..random.below(8)).map(|_| random.once_in(2)).collect();
                Text { bytes: random.bytes(length), frame }
            })
            .collect();
        let (offset, length) = (random.below(200), random.below(200));
        assert_eq!(xoofff(&key, &history, offset, length), bits::xoofff(&key, &history, offset, length));
        let strings: Vec<bits::Bits> = history.iter().map(bits::of_text).collect();
        let (x, k, index) = bits::compress(&bits::of_bytes(&key), &strings);
        let deck = Deck::of(&key, &history);
        assert_eq!(
            (to_bytes(&deck.accumulator).to_vec(), to_bytes(&deck.mask).to_vec(), deck.index as usize),
            (bits::to_bytes(&x), bits::to_bytes(&k), index)
        );
    }
}

#[test]
fn output_from_an_offset_is_part_of_the_stream() {
    let mut random = Random::new(4);
    let key = random.bytes(32);
    let history = [Text::new(&random.bytes(100), &[true])];
    let stream = xoofff(&key, &history, 0, 1_000);
    for offset in 0..200 {
        for length in [0, 1, 47, 48, 49, 300] {
            assert_eq!(xoofff(&key, &history, offset, length), stream[offset..offset + length]);
        }
    }
}
