//! Permutation and rolling: the lanes against the bits.

use pevghazo_reference::bits;
use pevghazo_reference::random::Random;
use pevghazo_reference::rolling::{roll_input, roll_output};
use pevghazo_reference::xoodoo::{inverse, permute, to_bytes};

#[test]
fn permutation_and_rolling_on_lanes_and_bits() {
    let mut random = Random::new(1);
    for rounds in 0..=12 {
        for _ in 0..20 {
            let state = random.state();
            let string = bits::of_bytes(&to_bytes(&state));
            let permuted = permute(&state, rounds);
            assert_eq!(bits::to_bytes(&bits::permute(&string, rounds as i32)), to_bytes(&permuted));
            assert_eq!(inverse(&permuted, rounds), state);
            assert_eq!(permute(&inverse(&state, rounds), rounds), state);
            assert_eq!(bits::to_bytes(&bits::roll_input(&string)), to_bytes(&roll_input(&state)));
            assert_eq!(bits::to_bytes(&bits::roll_output(&string)), to_bytes(&roll_output(&state)));
        }
    }
}

#[test]
fn every_bit_of_the_state_matters_alike_on_lanes_and_bits() {
    for bit in 0..384 {
        let mut state = [0; 12];
        state[bit / 32] = 1 << (bit % 32);
        let string = bits::of_bytes(&to_bytes(&state));
        assert_eq!(bits::to_bytes(&bits::permute(&string, 1)), to_bytes(&permute(&state, 1)));
        assert_eq!(bits::to_bytes(&bits::roll_input(&string)), to_bytes(&roll_input(&state)));
        assert_eq!(bits::to_bytes(&bits::roll_output(&string)), to_bytes(&roll_output(&state)));
    }
}
