//! Xoodoo on a string of 384 bits, by the coordinates of its bits.

use super::{Bits, WIDTH};

/// Where the bit (x, y, z) of the state stands in the string.
pub(super) fn place(x: usize, y: usize, z: usize) -> usize {
    z % 32 + 32 * (x % 4 + 4 * y)
}

/// A new state from a rule that gives its bit at (x, y, z).
pub(super) fn build(rule: impl Fn(usize, usize, usize) -> bool) -> Bits {
    (0..WIDTH).map(|i| rule(i / 32 % 4, i / 128, i % 32)).collect()
}

/// Bit z of the round constant of round i, which is 0 or below (appendix A): the coefficient of t^z in t^s (q + t^3), where q
/// is t^i modulo 1 + t + t^3 and s is 3^i modulo 7.
pub fn round_constant_bit(i: i32, z: usize) -> bool {
    let mut q = [true, false, false];
    for _ in 0..i.rem_euclid(7) {
        // Times t, with t^3 = 1 + t.
        q = [q[2], q[0] ^ q[2], q[1]];
    }
    let s = (0..i.rem_euclid(6)).fold(1, |s, _| s * 3 % 7);
    let polynomial = [q[0], q[1], q[2], true];
    z >= s && z - s < 4 && polynomial[z - s]
}

/// One round of Xoodoo on a string of 384 bits.
fn round(a: &Bits, i: i32) -> Bits {
    let parity = |x, z| a[place(x, 0, z)] ^ a[place(x, 1, z)] ^ a[place(x, 2, z)];
    // A bit that comes from (x - 1, z - v) is the one that moved by (1, v).
    let effect = |x, z| parity(x + 3, z + 32 - 5) ^ parity(x + 3, z + 32 - 14);
    let a = build(|x, y, z| a[place(x, y, z)] ^ effect(x, z));
    let a = build(|x, y, z| match y {
        0 => a[place(x, 0, z)],
        1 => a[place(x + 3, 1, z)],
        _ => a[place(x, 2, z + 32 - 11)],
    });
    let a = build(|x, y, z| a[place(x, y, z)] ^ (x == 0 && y == 0 && round_constant_bit(i, z)));
    let a = build(|x, y, z| a[place(x, y, z)] ^ (!a[place(x, (y + 1) % 3, z)] && a[place(x, (y + 2) % 3, z)]));
    build(|x, y, z| match y {
        0 => a[place(x, 0, z)],
        1 => a[place(x, 1, z + 32 - 1)],
        _ => a[place(x + 2, 2, z + 32 - 8)],
    })
}

/// Xoodoo\[`rounds`\] on a string of 384 bits, for any number of rounds.
pub fn permute(a: &[bool], rounds: i32) -> Bits {
    assert_eq!(a.len(), WIDTH);
    (1 - rounds..=0).fold(a.to_vec(), |a, i| round(&a, i))
}
