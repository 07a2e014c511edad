//! The two rolling functions of Xoofff, on lanes (Xoodoo cookbook, section 3).

use crate::xoodoo::{State, planes, shift, state};

/// The planes move down by one, and the old lowest, with its lane at x = 0 replaced by `new`, moves by three lanes and becomes
/// the top one: the part that both rolling functions share.
fn roll_planes(a: &State, new: u32) -> State {
    let [mut lowest, middle, top] = planes(a);
    lowest[0] = new;
    state(&[middle, top, shift(lowest, 3, 0)])
}

/// Input rolling: the mask of the next input block from the mask of this one.
pub fn roll_input(a: &State) -> State {
    let (a00, a10) = (a[0], a[4]);
    roll_planes(a, a00 ^ (a00 << 13) ^ a10.rotate_left(3))
}

/// Output rolling: the rolling state of the next output block from that of this one.
pub fn roll_output(a: &State) -> State {
    let (a00, a10, a20) = (a[0], a[4], a[8]);
    roll_planes(a, (a10 & a20) ^ a00.rotate_left(5) ^ a10.rotate_left(13) ^ 7)
}
