//! The envelope at its edges, with every letter; that of old letters is read and never written.

use pevghazo_reference::envelope::{HEADER_MAX, Parts, header_bytes, read, tag_length, write, write_header};
use pevghazo_reference::limits::LENGTH_MAX;
use pevghazo_reference::random::Random;
use pevghazo_reference::refusal::Number;

/// The letters that are written, each with the bytes of its tag.
const LETTERS: [(u8, usize); 2] = [(b'S', 32), (b'N', 16)];

/// The letter that is read and never written, likewise.
const OLD: (u8, usize) = (b'F', 16);

#[test]
fn letters_have_their_tags() {
    for letter in 0..=u8::MAX {
        let mut all = LETTERS.iter().chain([&OLD]);
        let expected = all.find(|(known, _)| *known == letter).map(|(_, length)| *length);
        assert_eq!(tag_length(letter), expected, "{letter}");
    }
}

/// Writes an envelope to a buffer that is one byte short, and to one with some bytes more; then it is read.
fn written_and_read(random: &mut Random, letter: u8, tag: usize) {
    let lengths = [0, 1, 9, 10, 99, 100, 999, 1_000, 9_999, 10_000, 16_383, 16_384];
    let (a, c) = (random.pick(&lengths), random.pick(&lengths));
    let group = random.below(32) as u32;
    let (a, c, t) = (random.bytes(a), random.bytes(c), random.bytes(tag));
    let header = header_bytes(letter, group, a.len(), c.len());
    let needed = header.len() + a.len() + c.len() + tag;
    let mut buffer = random.bytes(needed + random.clone().below(3));
    let before = buffer.clone();
    assert_eq!(write(letter, group, &a, &c, &t, &mut buffer[..needed - 1]), Err(Number::Buffer));
    assert_eq!(buffer, before);
    assert_eq!(write(letter, group, &a, &c, &t, &mut buffer), Ok(needed));
    assert_eq!(buffer[needed..], before[needed..]);
    let parts = Parts { letter, group, header: &header, metadata: &a, cryptogram: &c, tag: &t, place: needed };
    assert_eq!(read(&buffer), Ok(parts));
    assert_eq!(read(&buffer[..needed]), Ok(parts));
    assert_eq!(read(&buffer[..needed - 1]), Err(Number::Truncated));
}

#[test]
fn what_is_written_is_read() {
    let mut random = Random::new(11);
    for (letter, tag) in LETTERS {
        for _ in 0..300 {
            written_and_read(&mut random, letter, tag);
        }
        assert_eq!(header_bytes(letter, 31, LENGTH_MAX, LENGTH_MAX).len(), HEADER_MAX);
    }
    let empty: &[u8] = &[];
    let refused =
        Parts { letter: 0, group: 0, header: empty, metadata: empty, cryptogram: empty, tag: empty, place: 0 };
    assert_eq!(Parts::default(), refused);
}

/// A header alone is the start of the envelope with its lengths, into a buffer of just its length or a longer one.
#[test]
fn headers_alone() {
    for (letter, tag) in LETTERS {
        for (group, a, m) in [(0, 0, 0), (7, 20, 48), (31, LENGTH_MAX, LENGTH_MAX), (10, 9, 10_000)] {
            let expected = format!("{},{group},{a},{m},", char::from(letter)).into_bytes();
            let mut envelope = vec![0; expected.len() + a + m + tag];
            write(letter, group, &vec![1; a], &vec![2; m], &vec![3; tag], &mut envelope).unwrap();
            assert_eq!(read(&envelope).unwrap().header, expected);
            let mut buffer = vec![0xA5; expected.len() + 2];
            assert_eq!(write_header(letter, group, a, m, &mut buffer[..expected.len() - 1]), Err(Number::Buffer));
            assert_eq!(buffer, vec![0xA5; expected.len() + 2]);
            assert_eq!(write_header(letter, group, a, m, &mut buffer), Ok(expected.len()));
            assert_eq!(buffer, [&expected[..], &[0xA5; 2]].concat());
        }
        let (long, buffer) = (LENGTH_MAX + 1, &mut [0; 7][..]);
        assert_eq!(write_header(b'f', 32, long, 0, buffer), Err(Number::Header));
        assert_eq!(write_header(letter, 32, long, 0, buffer), Err(Number::Group));
        assert_eq!(write_header(letter, 31, long, 0, buffer), Err(Number::TooLong));
        assert_eq!(write_header(letter, 31, 0, long, buffer), Err(Number::TooLong));
        assert_eq!(write_header(letter, 0, usize::MAX, usize::MAX, buffer), Err(Number::TooLong));
        assert_eq!(write_header(letter, 0, 0, 0, buffer), Err(Number::Buffer));
    }
}

/// The same bytes, but for the letter, end 16 bytes earlier with N and with F.
#[test]
fn the_other_letters_tag_length() {
    let mut bytes = b"S,7,20,48,".to_vec();
    bytes.extend(Random::new(12).bytes(100));
    assert_eq!(read(&bytes).map(|parts| (parts.letter, parts.tag, parts.place)), Ok((b'S', &bytes[78..110], 110)));
    assert_eq!(read(&bytes[..109]), Err(Number::Truncated));
    assert_eq!(read(&bytes[..94]), Err(Number::Truncated));
    for letter in [b'N', b'F'] {
        bytes[0] = letter;
        assert_eq!(read(&bytes).map(|parts| (parts.letter, parts.tag, parts.place)), Ok((letter, &bytes[78..94], 94)));
        assert_eq!(read(&bytes[..94]).map(|parts| parts.place), Ok(94));
        assert_eq!(read(&bytes[..93]), Err(Number::Truncated));
    }
}

/// Old letters of all lengths at which something changes are read as those of N are, but for the letter.
#[test]
fn old_letters_are_read() {
    let mut random = Random::new(13);
    let (letter, tag) = OLD;
    for (group, a, c) in [(0, 0, 0), (7, 20, 48), (31, LENGTH_MAX, LENGTH_MAX), (10, 9, 10_000)] {
        let (a, c, t) = (random.bytes(a), random.bytes(c), random.bytes(tag));
        let header = header_bytes(letter, group, a.len(), c.len());
        let bytes = [&header, &a, &c, &t, &b"more"[..]].concat();
        let place = bytes.len() - 4;
        let parts = Parts { letter, group, header: &header, metadata: &a, cryptogram: &c, tag: &t, place };
        assert_eq!(read(&bytes), Ok(parts));
        assert_eq!(read(&bytes[..place]), Ok(parts));
        for end in 0..header.len() {
            assert_eq!(read(&bytes[..end]), Err(Number::Header));
        }
        assert_eq!(read(&bytes[..place - 1]), Err(Number::Truncated));
        let as_n = [b"N", &bytes[1..]].concat();
        let n = read(&as_n).unwrap();
        assert_eq!((n.group, n.metadata, n.cryptogram, n.tag, n.place), (group, &a[..], &c[..], &t[..], place));
    }
}

/// Writing one gets 18, whatever group, lengths, tag and buffer.
#[test]
fn old_letters_are_not_written() {
    let long = vec![0; LENGTH_MAX + 1];
    for group in [0, 31, 32, u32::MAX] {
        for (a, tag, room) in [(0, 16, 100), (LENGTH_MAX + 1, 16, 0), (6, 32, 17), (6, 0, LENGTH_MAX)] {
            let mut buffer = vec![7; room];
            assert_eq!(write(b'F', group, &long[..a], &[], &long[..tag], &mut buffer), Err(Number::ReadOnly));
            assert_eq!(write_header(b'F', group, a, usize::MAX, &mut buffer), Err(Number::ReadOnly));
            assert!(buffer.iter().all(|byte| *byte == 7));
        }
    }
}

/// A header with some bytes after it.
fn with_room(header: &str) -> Vec<u8> {
    let mut bytes = header.as_bytes().to_vec();
    bytes.resize(bytes.len() + 100, b'x');
    bytes
}

#[test]
fn headers_of_every_kind() {
    for good in [
        "S,7,20,48,",
        "N,7,20,48,",
        "F,7,20,48,",
        "S,0,0,0,",
        "N,0,0,0,",
        "F,0,0,0,",
        "S,31,0,68,",
        "N,31,0,84,",
        "F,31,0,84,",
        "S,10,68,0,",
        "S,9,9,9,",
    ] {
        let bytes = with_room(good);
        assert!(read(&bytes).is_ok(), "{good}");
        let header = good.len();
        for end in 0..header {
            assert_eq!(read(&bytes[..end]), Err(Number::Header), "{good}, the first {end} bytes");
        }
        assert_eq!(read(&bytes[..header]), Err(Number::Truncated), "{good} alone");
    }
    for bad in [
        "",
        "s,7,20,48,",
        "n,7,20,48,",
        "f,7,20,48,",
        "E,7,20,48,",
        "FF,7,20,48,",
        "F;7,20,48,",
        "F,07,20,48,",
        "F,32,20,48,",
        "\0,7,20,48,",
        ",7,20,48,",
        "S;7,20,48,",
        "S 7,20,48,",
        "S,,20,48,",
        "S,7,,48,",
        "S,7,20,,",
        "S,07,20,48,",
        "S,00,20,48,",
        "S,7,020,48,",
        "S,7,20,048,",
        "S,7,00,48,",
        "S,32,20,48,",
        "S,99,20,48,",
        "S,100,20,48,",
        "S,7,16385,48,",
        "S,7,20,16385,",
        "S,7,99999,48,",
        "S,7,100000,48,",
        "S,-7,20,48,",
        "S,+7,20,48,",
        "S, 7,20,48,",
        "S,7 ,20,48,",
        "S,7,20,48;",
        "S,7,20,48 ,",
        "S,7.20,48,",
        "S,7,20",
        "S,7,0x14,48,",
        "S,7,4294967296,48,",
        "S,7,18446744073709551616,48,",
        "S,7,18446744073709551636,48,",
        "S,0000000000000000000000000007,20,48,",
        "SS,7,20,48,",
        "SN,7,20,48,",
        "N;7,20,48,",
        "N,07,20,48,",
        "N,32,20,48,",
        "N,7,16385,48,",
    ] {
        assert_eq!(read(&with_room(bad)), Err(Number::Header), "{bad}");
    }
    // The limits themselves are good, and only too few bytes follow.
    assert_eq!(read(&with_room("S,31,16384,16384,")), Err(Number::Truncated));
    assert_eq!(read(&with_room("N,31,16384,16384,")), Err(Number::Truncated));
}

#[test]
fn writing_is_refused_in_order() {
    let long = vec![0; LENGTH_MAX + 1];
    let mut buffer = vec![7; 20];
    for letter in [0, b's', b'n', b'f', b'E', b'G', b',', 0xFF] {
        assert_eq!(write(letter, 32, &long, &[], &[0; 31], &mut buffer), Err(Number::Header), "{letter}");
        assert_eq!(write(letter, 7, &[], &[], &[0; 32], &mut [0; 100]), Err(Number::Header), "{letter}");
        assert_eq!(write(letter, 7, &[], &[], &[0; 16], &mut [0; 100]), Err(Number::Header), "{letter}");
    }
    for ((letter, tag), (_, other)) in LETTERS.into_iter().zip(LETTERS.into_iter().rev()) {
        let tag = vec![0; tag];
        assert_eq!(write(letter, 32, &long, &[], &tag[1..], &mut buffer), Err(Number::Group));
        assert_eq!(write(letter, u32::MAX, &[], &[], &tag, &mut buffer), Err(Number::Group));
        assert_eq!(write(letter, 31, &long, &[], &tag[1..], &mut buffer), Err(Number::TooLong));
        assert_eq!(write(letter, 31, &[], &long, &tag, &mut buffer), Err(Number::TooLong));
        for length in [0, tag.len() - 1, tag.len() + 1, other] {
            assert_eq!(write(letter, 31, &[], &[], &vec![0; length], &mut buffer), Err(Number::TagLength));
        }
        assert_eq!(write(letter, 31, &[], &[], &tag, &mut buffer), Err(Number::Buffer));
    }
    assert_eq!(buffer, vec![7; 20]);
}
