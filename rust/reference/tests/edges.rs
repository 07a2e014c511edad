//! Document 01's table of edges.

use pevghazo_reference::deck::{blocks, pad};
use pevghazo_reference::rolling::{roll_input, roll_output};
use pevghazo_reference::sanse::{count, growth, message_frame, metadata_frame, tag_frame};

#[test]
fn table_of_edges() {
    assert_eq!([0, 47, 48, 96].map(blocks), [1, 1, 2, 3]);
    assert_eq!([count(0, 0), count(0, 1), count(20, 48), count(16_384, 16_384)], [3, 6, 8, 1_030]);
    assert_eq!([growth(0, 0), growth(20, 48)], [2, 5]);
    for length in [0, 1, 46, 47, 48, 100] {
        let after = |frame: &[bool]| pad(&vec![0xFF; length], frame)[length];
        assert_eq!([after(&metadata_frame(false)), after(&metadata_frame(true))], [4, 6]);
        assert_eq!([after(&message_frame(false)), after(&message_frame(true))], [10, 14]);
        assert_eq!([after(&tag_frame(false)), after(&tag_frame(true))], [11, 15]);
    }
    // The lane s_n is element x + 4y, where n = 3x + y.
    let s = |n: usize| n / 3 + 4 * (n % 3);
    let lanes = |set: &[(usize, u32)]| {
        let mut state = [0; 12];
        for (n, value) in set {
            state[s(*n)] = *value;
        }
        state
    };
    assert_eq!(roll_input(&lanes(&[(0, 1)])), lanes(&[(11, 0x2001)]));
    assert_eq!(roll_input(&lanes(&[(1, 0x8000_0000)])), lanes(&[(0, 0x8000_0000), (11, 4)]));
    assert_eq!(roll_output(&[0; 12]), lanes(&[(11, 7)]));
}
