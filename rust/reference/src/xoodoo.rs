//! The permutation Xoodoo, on lanes (Xoodoo cookbook, section 2).
//!
//! The state has 384 bits: three *planes* y = 0, 1, 2 of four *lanes* x = 0 to 3 of 32 bits each. Bit z of a lane is the bit
//! of weight 2^z of a `u32`. Everything here adds without carry: "sum" is exclusive or.

/// The state: the lane at x of plane y is element x + 4y.
pub type State = [u32; 12];

/// The number of bytes of a state, and so of a block.
pub const BLOCK: usize = 48;

/// The number of rounds that Xoofff uses.
pub const XOOFFF_ROUNDS: usize = 6;

/// The round constants of rounds -11 to 0 (table 2). A run of n rounds takes the last n.
pub const ROUND_CONSTANTS: [u32; 12] =
    [0x058, 0x038, 0x3C0, 0x0D0, 0x120, 0x014, 0x060, 0x02C, 0x380, 0x0F0, 0x1A0, 0x012];

/// Four lanes side by side.
pub(crate) type Plane = [u32; 4];

/// The plane moved cyclically: the bit at (x, z) goes to (x + t, z + v).
pub(crate) fn shift(plane: Plane, t: usize, v: u32) -> Plane {
    let mut moved = [0; 4];
    for x in 0..4 {
        moved[(x + t) % 4] = plane[x].rotate_left(v);
    }
    moved
}

/// The sum of two planes.
fn add(a: Plane, b: Plane) -> Plane {
    std::array::from_fn(|x| a[x] ^ b[x])
}

/// The complement of `a` multiplied, bit by bit, with `b`.
fn complement_and(a: Plane, b: Plane) -> Plane {
    std::array::from_fn(|x| !a[x] & b[x])
}

/// The three planes of a state.
pub(crate) fn planes(state: &State) -> [Plane; 3] {
    std::array::from_fn(|y| std::array::from_fn(|x| state[x + 4 * y]))
}

/// The state of three planes.
pub(crate) fn state(planes: &[Plane; 3]) -> State {
    std::array::from_fn(|j| planes[j / 4][j % 4])
}

/// The non-linear step: every plane gains a product of the two others, all from the old planes. It is its own inverse.
fn chi(a: &mut [Plane; 3]) {
    let b = [complement_and(a[1], a[2]), complement_and(a[2], a[0]), complement_and(a[0], a[1])];
    for y in 0..3 {
        a[y] = add(a[y], b[y]);
    }
}

/// One round: mixing, shifting, round constant, non-linear step, shifting.
fn round(a: &mut [Plane; 3], constant: u32) {
    let parity = add(add(a[0], a[1]), a[2]);
    let effect = add(shift(parity, 1, 5), shift(parity, 1, 14));
    for plane in a.iter_mut() {
        *plane = add(*plane, effect);
    }
    a[1] = shift(a[1], 1, 0);
    a[2] = shift(a[2], 0, 11);
    a[0][0] ^= constant;
    chi(a);
    a[1] = shift(a[1], 0, 1);
    a[2] = shift(a[2], 2, 8);
}

/// The inverse of [`round`].
fn inverse_round(a: &mut [Plane; 3], constant: u32) {
    a[1] = shift(a[1], 0, 31);
    a[2] = shift(a[2], 2, 24);
    chi(a);
    a[0][0] ^= constant;
    a[1] = shift(a[1], 3, 0);
    a[2] = shift(a[2], 0, 21);
    // Mixing turns the parity P into P + uP, where u moves by (1, 5) and by (1, 14) and sums. The 32nd power of u is zero,
    // so 1 + u has the inverse (1 + u)(1 + u^2)(1 + u^4)(1 + u^8)(1 + u^16), and u^n moves by n times as much for n a
    // power of two.
    let mut parity = add(add(a[0], a[1]), a[2]);
    for n in [1, 2, 4, 8, 16] {
        let moved = add(shift(parity, n, 5 * n as u32 % 32), shift(parity, n, 14 * n as u32 % 32));
        parity = add(parity, moved);
    }
    let effect = add(shift(parity, 1, 5), shift(parity, 1, 14));
    for plane in a.iter_mut() {
        *plane = add(*plane, effect);
    }
}

/// Xoodoo\[`rounds`\] of a state, for 0 to 12 rounds.
///
/// # Panics
///
/// If `rounds` is above 12.
pub fn permute(input: &State, rounds: usize) -> State {
    let mut a = planes(input);
    for constant in &ROUND_CONSTANTS[12 - rounds..] {
        round(&mut a, *constant);
    }
    state(&a)
}

/// The inverse of Xoodoo\[`rounds`\], for 0 to 12 rounds.
///
/// # Panics
///
/// If `rounds` is above 12.
pub fn inverse(input: &State, rounds: usize) -> State {
    let mut a = planes(input);
    for constant in ROUND_CONSTANTS[12 - rounds..].iter().rev() {
        inverse_round(&mut a, *constant);
    }
    state(&a)
}

/// The sum of two states.
pub fn sum(a: &State, b: &State) -> State {
    std::array::from_fn(|j| a[j] ^ b[j])
}

/// The state of 48 bytes: bytes 4j to 4j + 3, the lowest first, are lane j.
pub fn from_bytes(bytes: &[u8; BLOCK]) -> State {
    std::array::from_fn(|j| u32::from_le_bytes(std::array::from_fn(|i| bytes[4 * j + i])))
}

/// The 48 bytes of a state.
pub fn to_bytes(state: &State) -> [u8; BLOCK] {
    std::array::from_fn(|i| state[i / 4].to_le_bytes()[i % 4])
}
