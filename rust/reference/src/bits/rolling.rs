//! The two rolling functions, on the sequence of lanes s_0 to s_11.

use super::Bits;
use super::permutation::{build, place};

/// Lane s_n, where n is 3x + y for the lane at x of plane y.
fn lane(a: &[bool], n: usize) -> &[bool] {
    &a[place(n / 3, n % 3, 0)..][..32]
}

/// Both rolling functions: s_0 goes, the others move down one place, and `new` is s_11.
fn roll(a: &[bool], new: &[bool]) -> Bits {
    build(|x, y, z| if 3 * x + y == 11 { new[z] } else { lane(a, 3 * x + y + 1)[z] })
}

/// Input rolling of a string of 384 bits.
pub fn roll_input(a: &[bool]) -> Bits {
    let (s0, s1) = (lane(a, 0), lane(a, 1));
    let new: Bits = (0..32).map(|z| s0[z] ^ (z >= 13 && s0[z - 13]) ^ s1[(z + 32 - 3) % 32]).collect();
    roll(a, &new)
}

/// Output rolling of a string of 384 bits.
pub fn roll_output(a: &[bool]) -> Bits {
    let (s0, s1, s2) = (lane(a, 0), lane(a, 1), lane(a, 2));
    let new: Bits =
        (0..32).map(|z| (s1[z] && s2[z]) ^ s0[(z + 32 - 5) % 32] ^ s1[(z + 32 - 13) % 32] ^ (z < 3)).collect();
    roll(a, &new)
}

/// A rolling function applied so many times.
pub(super) fn times(a: &[bool], n: usize, roll: fn(&[bool]) -> Bits) -> Bits {
    (0..n).fold(a.to_vec(), |a, _| roll(&a))
}
