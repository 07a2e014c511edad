//! Envelopes through the C library, beside the independent implementation, with every letter and with bytes that are none. Old letters,
//! those with an F, are read and never written.

mod common;

use common::{cases, is_whole_run, least_times, maybe_long, other_length, text};
use pevghazo::raw::{self, Parts, Written};
use pevghazo_reference::envelope;
use pevghazo_reference::random::Random;

/// What a refused reading gives, but for its number.
const REFUSED: Parts = Parts { number: 0, letter: 0, group: 0, metadata: 0, cryptogram: 0, tag: 0, place: 0 };

/// Reads on both sides, and gives the number.
fn read(bytes: &[u8]) -> u32 {
    let given = raw::read_envelope(bytes);
    let expected = match envelope::read(bytes) {
        Ok(parts) => {
            let tag = parts.place - parts.tag.len();
            let cryptogram = tag - parts.cryptogram.len();
            let metadata = cryptogram - parts.metadata.len();
            let envelope::Parts { letter, group, place, .. } = parts;
            Parts { number: 0, letter, group, metadata, cryptogram, tag, place }
        }
        Err(number) => Parts { number: number.number().into(), ..REFUSED },
    };
    assert_eq!(given, expected, "reading {:?}", String::from_utf8_lossy(&bytes[..bytes.len().min(40)]));
    given.number
}

/// Writes on both sides, and gives what the library gave.
fn write(letter: u8, group: u32, metadata: &[u8], cryptogram: &[u8], tag: &[u8], out: &mut [u8]) -> Written {
    let mut out_too = out.to_vec();
    let given = raw::write_envelope(letter, group, metadata, cryptogram, tag, out);
    let expected = match envelope::write(letter, group, metadata, cryptogram, tag, &mut out_too) {
        Ok(len) => Written { number: 0, len },
        Err(number) => Written { number: number.number().into(), len: 0 },
    };
    assert_eq!(given, expected);
    assert!(out == out_too, "the buffers differ");
    given
}

/// Writes a header alone on both sides, and gives what the library gave.
fn write_header(letter: u8, group: u32, metadata: usize, message: usize, out: &mut [u8]) -> Written {
    let mut out_too = out.to_vec();
    let given = raw::write_header(letter, group, metadata, message, out);
    let expected = match envelope::write_header(letter, group, metadata, message, &mut out_too) {
        Ok(len) => Written { number: 0, len },
        Err(number) => Written { number: number.number().into(), len: 0 },
    };
    assert_eq!(given, expected);
    assert!(out == out_too, "the buffers differ");
    given
}

/// What was written, cut off anywhere and damaged in the header; `whole` bytes are the envelope's.
fn cut_and_damaged(random: &mut Random, written: &[u8], whole: usize) {
    let header = raw::read_envelope(written).metadata;
    let cut = random.below(whole);
    assert_eq!(read(&written[..cut]), if cut < header { 1 } else { 2 });
    for _ in 0..8 {
        let mut bad = written[..whole].to_vec();
        bad[random.below(header)] = any_byte(random);
        read(&bad);
    }
}

#[test]
fn written_and_read() {
    let (mut numbers, mut letters) = ([0; 19], [0; 2]);
    cases("written_and_read", |random| {
        let letter = if random.once_in(10) { any_byte(random) } else { random.pick(b"SSSNNNF") };
        let group = if random.once_in(10) { random.pick(&[32, 99, u32::MAX]) } else { random.below(32) as u32 };
        let (metadata, cryptogram) = (text(random), text(random));
        let (a, c) = (maybe_long(random, &metadata, 20), maybe_long(random, &cryptogram, 20));
        // Now and then a tag of the other letter's length.
        let usual = if (letter == b'N') != random.once_in(12) { 16 } else { 32 };
        let tag = random.bytes(other_length(&mut random.clone(), usual, 12));
        let whole = envelope::header_bytes(letter, group, a.len(), c.len()).len() + a.len() + c.len() + tag.len();
        let room = if random.once_in(2) { whole + random.below(60) } else { other_length(random, whole, 3) };
        let mut out = random.bytes(room);
        let written = write(letter, group, &a, &c, &tag, &mut out);
        numbers[written.number as usize] += 1;
        if written.number == 0 {
            letters[usize::from(letter == b'N')] += 1;
            assert_eq!((written.len, read(&out)), (whole, 0));
            let parts = raw::read_envelope(&out);
            assert_eq!((parts.letter, parts.group, parts.place), (letter, group, whole));
            let mut header = vec![0; parts.metadata];
            assert_eq!(write_header(letter, group, a.len(), c.len(), &mut header).number, 0);
            assert!(out[..parts.metadata] == header, "the header's bytes are those from 0 up to the metadata");
            assert!(out[parts.metadata..parts.cryptogram] == a && out[parts.cryptogram..parts.tag] == c);
            assert!(out[parts.tag..parts.place] == tag);
            cut_and_damaged(random, &out, whole);
        }
    });
    if is_whole_run() {
        assert!([0, 1, 3, 6, 7, 8, 18].iter().all(|number| numbers[*number] > 20), "{numbers:?}");
        assert!(letters.iter().all(|letter| *letter > 10 * least_times()), "{letters:?}");
    }
}

/// An old letter as it travels, cut off anywhere, damaged in the header, with bytes after it, and with the letter N in its place.
#[test]
fn old_letters_are_read() {
    let mut numbers = [0; 3];
    cases("old_letters_are_read", |random| {
        let (group, a, c, tag) = (random.below(32) as u32, text(random), text(random), random.bytes(16));
        let header = envelope::header_bytes(b'F', group, a.len(), c.len());
        let whole = header.len() + a.len() + c.len() + 16;
        let bytes = [&header, &a, &c, &tag, &random.bytes(random.clone().below(20))[..]].concat();
        numbers[read(&bytes) as usize] += 1;
        let (metadata, cryptogram) = (header.len(), header.len() + a.len());
        let (letter, tag) = (b'F', whole - 16);
        let expected = Parts { number: 0, letter, group, metadata, cryptogram, tag, place: whole };
        assert_eq!(raw::read_envelope(&bytes), expected);
        cut_and_damaged(random, &bytes, whole);
        numbers[read(&bytes[..random.below(header.len())]) as usize] += 1;
        numbers[read(&bytes[..whole - 1 - random.below(16)]) as usize] += 1;
        let as_n = [b"N", &bytes[1..]].concat();
        assert_eq!(raw::read_envelope(&as_n), Parts { letter: b'N', ..expected });
    });
    assert!(numbers[0] > 0 && numbers[0] == numbers[1] && numbers[0] == numbers[2], "{numbers:?}");
}

/// The first number met of 18 and 1 for the letter, 3, 6, 7 by the letter, and 8; or 0.
fn number_of_writing(letter: u8, group: u32, longest: usize, tag: usize, fits: bool) -> u32 {
    let tag_length = match letter {
        b'S' => 32,
        b'N' => 16,
        b'F' => return 18,
        _ => return 1,
    };
    match (group > 31, longest > 16_384, tag != tag_length, fits) {
        (true, _, _, _) => 3,
        (false, true, _, _) => 6,
        (false, false, true, _) => 7,
        (false, false, false, false) => 8,
        (false, false, false, true) => 0,
    }
}

#[test]
fn writing_at_the_edges() {
    let bytes = [7; 16_385];
    let texts = [(20, 48), (16_385, 48), (20, 16_385)];
    let tags = [0, 15, 16, 17, 31, 32, 33];
    for letter in 0..=u8::MAX {
        for (group, (a, c)) in [0, 31, 32, u32::MAX].into_iter().flat_map(|group| texts.map(|text| (group, text))) {
            for (tag, spare) in tags.into_iter().flat_map(|tag| [-1, 0, 3].map(|spare| (tag, spare))) {
                let whole = format!("?,{group},{a},{c},").len() + a + c + tag;
                let number = number_of_writing(letter, group, a.max(c), tag, spare >= 0);
                let len = if number == 0 { whole } else { 0 };
                let mut out = vec![0xA5; whole.saturating_add_signed(spare)];
                let written = write(letter, group, &bytes[..a], &bytes[..c], &bytes[..tag], &mut out);
                assert_eq!(written, Written { number, len }, "{letter} {group} {a} {c} {tag} {spare}");
                assert!(out[len..].iter().all(|byte| *byte == 0xA5));
            }
        }
    }
}

#[test]
fn any_header_alone() {
    let mut numbers = [0; 19];
    cases("any_header_alone", |random| {
        let letter = if random.once_in(10) { any_byte(random) } else { random.pick(b"SSSNNNF") };
        let group = if random.once_in(10) { random.bits() as u32 } else { random.below(34) as u32 };
        let [a, m] = [(); 2].map(|()| match random.below(8) {
            0 => random.bits() as usize,
            1 => random.pick(&[9, 10, 99, 100, 999, 1_000, 9_999, 10_000, 16_383, 16_384, 16_385, usize::MAX]),
            _ => random.below(16_400),
        });
        let whole = envelope::header_bytes(letter, group, a, m).len();
        let room = if random.once_in(2) { whole + random.below(20) } else { other_length(random, whole, 3) };
        let mut out = random.bytes(room);
        let written = write_header(letter, group, a, m, &mut out);
        numbers[written.number as usize] += 1;
        if written.number == 0 {
            assert!(written.len == whole && whole <= 17);
            // Exactly the bytes that it announces follow it.
            let mut envelope = out[..whole].to_vec();
            envelope.resize(whole + a + m + if letter == b'S' { 32 } else { 16 }, 7);
            assert_eq!(read(&envelope), 0);
            let parts = raw::read_envelope(&envelope);
            assert_eq!((parts.metadata, parts.cryptogram, parts.place), (whole, whole + a, envelope.len()));
        }
    });
    if is_whole_run() {
        assert!([0, 1, 3, 6, 8, 18].iter().all(|number| numbers[*number] > least_times()), "{numbers:?}");
    }
}

/// The first number met of 18 and 1 for the letter, 3, 6 for either length, and 8, or the header, with the buffer's other bytes kept.
#[test]
fn headers_alone_at_the_edges() {
    for letter in 0..=u8::MAX {
        let lengths = [0, 20, 16_384, 16_385, usize::MAX];
        for (a, m) in lengths.into_iter().flat_map(|a| lengths.map(|m| (a, m))) {
            for (group, spare) in [0, 31, 32, u32::MAX].into_iter().flat_map(|group| [-1, 0, 3].map(|n| (group, n))) {
                let whole = [&[letter], format!(",{group},{a},{m},").as_bytes()].concat();
                let tag = if letter == b'N' { 16 } else { 32 };
                let number = number_of_writing(letter, group, a.max(m), tag, spare >= 0);
                let len = if number == 0 { whole.len() } else { 0 };
                let mut out = vec![0xA5; whole.len().saturating_add_signed(spare)];
                let written = write_header(letter, group, a, m, &mut out);
                assert_eq!(written, Written { number, len }, "{letter} {group} {a} {m} {spare}");
                assert!(out[..len] == whole[..len] && out[len..].iter().all(|byte| *byte == 0xA5));
            }
        }
    }
}

/// One layout with each letter: `S,7,20,48,` needs 100 bytes after it, and `N,7,20,48,` and `F,7,20,48,` 84. A tag of another letter's
/// length makes an envelope of S too short, and leaves 16 bytes after one of N or F.
#[test]
fn another_letters_tag_length() {
    for (letter, tag) in [(b'S', 32), (b'N', 16), (b'F', 16)] {
        for after in 0..=120 {
            let mut bytes = [&[letter], &b",7,20,48,"[..]].concat();
            bytes.extend(Random::new(after as u64).bytes(after));
            let whole = after >= 68 + tag;
            assert_eq!(read(&bytes), if whole { 0 } else { 2 }, "{letter}, {after} bytes");
            let parts = raw::read_envelope(&bytes);
            if whole {
                let place = 10 + 68 + tag;
                let expected = Parts { letter, group: 7, metadata: 10, cryptogram: 30, tag: 78, place, ..REFUSED };
                assert_eq!(parts, expected, "{after} bytes");
            } else {
                assert_eq!(parts, Parts { number: 2, ..REFUSED }, "{after} bytes");
            }
        }
    }
}

/// The letter alone is what makes a header: every byte in its place, with enough bytes after it for every tag.
#[test]
fn every_letter() {
    for letter in 0..=u8::MAX {
        let bytes = [&[letter], &b",7,20,48,"[..], &[7; 100]].concat();
        assert_eq!(read(&bytes), if b"SNF".contains(&letter) { 0 } else { 1 }, "{letter}");
    }
}

/// A byte, often one that a header may have or nearly so.
fn any_byte(random: &mut Random) -> u8 {
    if random.once_in(4) { random.bits() as u8 } else { random.pick(b"00112345689,,,SNF /:-+snf\0") }
}

/// A number as a header may or may not have it.
fn any_number(random: &mut Random, usual: usize) -> String {
    let odd = [
        "",
        "00",
        "01",
        "031",
        "+1",
        "-1",
        " 1",
        "1 ",
        "1\0",
        "a",
        "0x1",
        "1.0",
        "32",
        "16385",
        "99999",
        "100000",
        "4294967295",
        "4294967296",
        "18446744073709551615",
        "18446744073709551616",
        "340282366920938463463374607431768211456",
        "00000000000000000000000000000000000000000000000000",
        "99999999999999999999999999999999999999999999999999",
    ];
    match random.below(6) {
        0 => random.pick(&odd).to_string(),
        1 => random.below(100_000).to_string(),
        2 => random.pick(&["0", "31", "16384", "16383", "9", "10"]).to_string(),
        _ => usual.to_string(),
    }
}

#[test]
fn any_header() {
    let mut numbers = [0; 3];
    cases("any_header", |random| {
        let length = random.below(70);
        let (a, m) = (random.below(20), random.below(20));
        let group = random.below(32);
        let (letter, tag) = random.pick(&[(b"S,", 32), (b"N,", 16), (b"F,", 16)]);
        let odd = [&b"S"[..], b"N", b"F", b"s,", b"n,", b"f,", b",", b"SS,", b"SN,", b"FN,", b"S;", b"N;", b"F;"];
        let mut bytes = if random.once_in(3) { random.pick(&odd).to_vec() } else { letter.to_vec() };
        for (usual, end) in [(group, b','), (a, b','), (m, b',')] {
            bytes.extend(any_number(random, usual).bytes());
            bytes.push(if random.once_in(30) { any_byte(random) } else { end });
        }
        if random.once_in(20) {
            bytes.truncate(random.below(bytes.len()));
        }
        let header = bytes.len();
        bytes.extend(random.bytes(length));
        numbers[read(&bytes) as usize] += 1;
        // Exactly as many bytes as this header needs, and one less.
        bytes.truncate(header);
        bytes.extend(random.bytes(a + m + tag));
        numbers[read(&bytes) as usize] += 1;
        bytes.pop();
        numbers[read(&bytes) as usize] += 1;
        for _ in 0..20 {
            let bytes: Vec<u8> = (0..random.below(20)).map(|_| any_byte(random)).collect();
            read(&bytes);
        }
    });
    if is_whole_run() {
        assert!(numbers.iter().all(|number| *number > 100), "{numbers:?}");
    }
}

#[test]
fn every_short_header() {
    // Every string of up to five bytes after the first comma, over the bytes that matter.
    let alphabet = b"S,019/:";
    for (length, letter) in (0..=5).flat_map(|length| [(length, b'S'), (length, b'N'), (length, b'F')]) {
        for number in 0..alphabet.len().pow(length) {
            let mut bytes = vec![letter, b','];
            let mut n = number;
            for _ in 0..length {
                bytes.push(alphabet[n % alphabet.len()]);
                n /= alphabet.len();
            }
            read(&bytes);
            bytes.extend(b",0,0,");
            bytes.extend([0; 40]);
            read(&bytes);
        }
    }
    for group in 0..100 {
        for length in (0..200).chain(16_300..16_400).chain([99_999, 100_000]) {
            // Too few bytes from a length of 200 on, for every letter.
            for (letter, after) in [('S', 231), ('N', 215), ('F', 215)] {
                let mut bytes = format!("{letter},{group},{length},0,").into_bytes();
                bytes.resize(bytes.len() + after, 7);
                read(&bytes);
            }
        }
    }
}
