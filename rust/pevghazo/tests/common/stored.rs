//! Stored bytes of a lone session.

use pevghazo::{BadBytes, INDEX_MAX};

/// What is told of bytes that are no session's, and that any others are loaded and stored as they are; of a type of sessions by its bytes of a
/// session, its way from bytes, and what is seen of a loaded one: its bytes, its index, its toggle and whether it is open.
pub fn are_checked<S>(
    bytes: &[u8],
    from_bytes: impl Fn(&[u8]) -> Result<S, BadBytes>,
    seen: impl Fn(&S) -> (Vec<u8>, u32, bool, bool),
) {
    let reason = |bytes: &[u8]| from_bytes(bytes).err().expect("bytes of no session");
    let with = |place: usize, value: &[u8]| {
        let mut bad = bytes.to_vec();
        bad[place..place + value.len()].copy_from_slice(value);
        reason(&bad)
    };
    for place in [100, 101] {
        (2..=255).for_each(|value| assert_eq!(with(place, &[value]), BadBytes::Flag));
    }
    assert_eq!(with(96, &(INDEX_MAX + 1).to_le_bytes()), BadBytes::Index);
    assert_eq!(with(101, &[0]), BadBytes::Closed);
    for length in [0, bytes.len() - 1, bytes.len() + 1] {
        assert_eq!(reason(&vec![0; length]), BadBytes::Length { expected: bytes.len(), found: length });
    }
    let numbers: Vec<u8> = (0..96).chain([1, 2, 3, 0, 1, 1]).collect();
    let session = from_bytes(&numbers).expect("bytes of a session");
    assert_eq!(seen(&session), (numbers, 0x0003_0201, true, true));
}
