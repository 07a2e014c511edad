//! The safe types: stored bytes, refusals, and what is shown.

use pevghazo::{
    Arrival, BadBytes, Code, Envelope, GROUPS, Group, INDEX_MAX, Letter, Number, PACKET_MAX, Plain, Refusal,
    SANE_TAG_LENGTH, Session, TAG_LENGTH, TEXT_MAX, Table, Wrapped, envelope, raw, wipe,
};
use pevghazo_reference::session::Session as Reference;

const KEY: &[u8] = b"a key for the tests here";

/// A message without metadata.
fn plain(message: &[u8]) -> Plain<'_> {
    Plain { metadata: b"", message }
}

/// The arrival of a message without metadata.
fn arrival(wrapped: &Wrapped) -> Arrival<'_> {
    Arrival { metadata: b"", cryptogram: &wrapped.cryptogram, tag: &wrapped.tag }
}

#[test]
fn every_number_has_its_sentence() {
    assert!(Number::ALL.map(Number::number).into_iter().eq((1..=19).chain([22])));
    for number in Number::ALL {
        assert!(number.sentence().ends_with('.') && !number.sentence().contains('\n'));
        assert_eq!(Refusal { number, count: 0 }.to_string(), number.sentence());
    }
    let mut sentences: Vec<&str> = Number::ALL.map(Number::sentence).to_vec();
    sentences.sort();
    sentences.dedup();
    assert_eq!(sentences.len(), 20);
}

#[test]
fn refusals_of_a_session() {
    let (mut session, _) = Session::start(KEY).unwrap();
    let refused = |answer: Result<u32, Refusal>| answer.unwrap_err().number;
    let (mut out, mut tag) = ([0xAA; 4], [0xBB; 32]);
    assert_eq!(Session::start(&[0; 48]).unwrap_err(), Refusal { number: Number::BadKey, count: 0 });
    let long = Plain { metadata: &[0; TEXT_MAX + 1], message: b"" };
    assert_eq!(refused(session.wrap_to(&long, &mut out, &mut tag)), Number::TooLong);
    assert_eq!(refused(session.wrap_to(&plain(b"12345"), &mut out, &mut tag)), Number::NoRoom);
    assert_eq!((out, tag), ([0xAA; 4], [0xBB; 32]));
    let forged = Arrival { metadata: b"", cryptogram: b"123", tag: &tag };
    assert_eq!(session.unwrap_to(&forged, &mut out), Err(Refusal { number: Number::WrongTag, count: 6 }));
    assert_eq!(out, [0, 0, 0, 0xAA]);
    assert_eq!((session.index(), session.toggle()), (0, false));

    let mut bytes = session.to_bytes().to_vec();
    bytes[96..100].copy_from_slice(&(INDEX_MAX - 1).to_le_bytes());
    let mut full = Session::from_bytes(&bytes).unwrap();
    assert_eq!(full.wrap(&plain(b"")).unwrap_err().number, Number::IndexFull);
    let mut closed = Session::from_bytes(&[0; Session::BYTES]).unwrap();
    assert!(!closed.is_open());
    assert_eq!(closed.wrap(&plain(b"")).unwrap_err().number, Number::NotOpen);
    assert_eq!(closed.unwrap(&Arrival { cryptogram: b"", ..forged }).unwrap_err().number, Number::NotOpen);
}

#[test]
fn stored_sessions_go_on() {
    let (mut here, _) = Session::start(KEY).unwrap();
    let (mut there, _) = Session::start(KEY).unwrap();
    for i in 0..20_u8 {
        let message = vec![i; usize::from(i) * 7];
        let wrapped = here.wrap(&plain(&message)).unwrap();
        there = Session::from_bytes(&there.to_bytes()).unwrap();
        assert_eq!(there.unwrap(&arrival(&wrapped)).unwrap().message, message);
        assert_eq!(*here.to_bytes(), *there.to_bytes());
        std::mem::swap(&mut here, &mut there);
    }
}

/// What a second session in one state would do, which is why there is none: no keystream is shared, but equal messages show as
/// equal, and one is taken in the place of the other.
#[test]
fn a_state_that_is_used_twice() {
    let (mut first, _) = Session::start(KEY).unwrap();
    let again = || Session::from_bytes(&Session::start(KEY).unwrap().0.to_bytes()).unwrap();
    let (a, b) = (first.wrap(&plain(&[1; 48])).unwrap(), again().wrap(&plain(&[2; 48])).unwrap());
    let shared = a.cryptogram.iter().zip(&b.cryptogram).filter(|(a, b)| *a ^ *b == 1 ^ 2).count();
    assert!(shared < 8, "{shared} of 48 bytes have one keystream");
    assert_eq!(again().wrap(&plain(&[1; 48])).unwrap(), a, "equal messages show as equal");
    assert_eq!(again().unwrap(&arrival(&a)).unwrap().message, [1; 48]);
    assert_eq!(again().unwrap(&arrival(&b)).unwrap().message, [2; 48], "one takes the place of the other");
}

#[test]
fn stored_bytes_are_checked() {
    let (session, _) = Session::start(KEY).unwrap();
    let bytes = session.to_bytes();
    let refused = |place: usize, value: &[u8], why: BadBytes| {
        let mut bad = bytes.to_vec();
        bad[place..place + value.len()].copy_from_slice(value);
        assert_eq!(Session::from_bytes(&bad).unwrap_err(), why);
        let mut table = Table::new().to_bytes().to_vec();
        table[31 * (Session::BYTES + 4)..][..Session::BYTES].copy_from_slice(&bad);
        assert_eq!(Table::from_bytes(&table).unwrap_err(), why);
        let mut table = [0; Table::BYTES_BEFORE];
        table[31 * Session::BYTES..][..Session::BYTES].copy_from_slice(&bad);
        assert_eq!(Table::from_bytes_before(&table).unwrap_err(), why);
    };
    for place in [100, 101] {
        (2..=255).for_each(|value| refused(place, &[value], BadBytes::Flag));
    }
    for index in [INDEX_MAX + 1, INDEX_MAX + 2, u32::MAX] {
        refused(96, &index.to_le_bytes(), BadBytes::Index);
    }
    refused(101, &[0], BadBytes::Closed);
    for place in 0..=100 {
        let mut bad = [0; Session::BYTES];
        bad[place] = 1;
        let why = if place == 99 { BadBytes::Index } else { BadBytes::Closed };
        assert_eq!(Session::from_bytes(&bad).unwrap_err(), why, "{place}");
    }
    let mut full = bytes.to_vec();
    full[96..100].copy_from_slice(&INDEX_MAX.to_le_bytes());
    assert_eq!(Session::from_bytes(&full).unwrap().index(), INDEX_MAX);
    for length in (0..200).filter(|length| *length != Session::BYTES) {
        let error = Session::from_bytes(&vec![0; length]).unwrap_err();
        assert_eq!(error, BadBytes::Length { expected: Session::BYTES, found: length });
    }
    let lengths = [0, Table::BYTES - 1, Table::BYTES, Table::BYTES + 1];
    for found in lengths.into_iter().chain([Table::BYTES_BEFORE - 1, Table::BYTES_BEFORE, Table::BYTES_BEFORE + 1]) {
        let bytes = vec![0; found];
        let check = |read: Result<Table, BadBytes>, expected| {
            assert_eq!(read.err(), (found != expected).then_some(BadBytes::Length { expected, found }));
        };
        check(Table::from_bytes(&bytes), Table::BYTES);
        check(Table::from_bytes_before(&bytes), Table::BYTES_BEFORE);
    }
    assert_eq!(BadBytes::Flag.to_string(), "The stored bytes hold a flag that is neither 0 nor 1.");
    assert_eq!(BadBytes::Index.to_string(), "The stored bytes hold an index above 1,048,576.");
    assert_eq!(BadBytes::Closed.to_string(), "The stored bytes are those of a closed session that is not all zero.");
}

#[test]
fn layout_of_stored_bytes() {
    let bytes: Vec<u8> = (0..96).chain([1, 2, 3, 0, 1, 1]).collect();
    let session = Session::from_bytes(&bytes).unwrap();
    assert_eq!(*session.to_bytes(), bytes);
    assert_eq!((session.index(), session.toggle(), session.is_open()), (0x0003_0201, true, true));

    assert_eq!((Table::BYTES, Table::BYTES_BEFORE), (32 * 106 + 4, 32 * 102 + 8));
    let mut table = Vec::new();
    for group in 0..GROUPS as u8 {
        table.extend(stored_session(group));
        table.extend([group, 2, 3, !group]);
    }
    table.extend([5, 6, 7, 8]);
    let read = Table::from_bytes(&table).unwrap();
    assert_eq!(*read.to_bytes(), table);
    assert_eq!(read.allowance(), 0x0807_0605);
    for (group, seen) in (0..).zip(read.groups()) {
        assert_eq!(seen, expected_group(group, u32::from_le_bytes([group, 2, 3, !group])));
        assert_eq!(read.left(seen.group), Some(0x0807_0605_u32.saturating_sub(seen.count)));
    }
    assert_eq!((read.group(32), read.left(32), read.left(u32::MAX)), (None, None, None));
    assert_eq!(read.groups().count(), GROUPS);
}

/// The stored bytes of a session for each group: the first 16 are closed, the others have numbers of their own.
fn stored_session(group: u8) -> Vec<u8> {
    if group < 16 {
        return vec![0; Session::BYTES];
    }
    (0..98).map(|i| group.wrapping_mul(i)).chain([3, 0, group % 2, 1]).collect()
}

/// What may be seen of the group with that session and this count.
fn expected_group(group: u8, count: u32) -> Group {
    let is_open = group >= 16;
    let index = u32::from_le_bytes([group.wrapping_mul(96), group.wrapping_mul(97), 3, 0]);
    let index = if is_open { index } else { 0 };
    Group { group: group.into(), is_open, index, toggle: is_open && group % 2 == 1, count }
}

/// The sessions, then the one day's count and the allowance: each group has counted what the day had.
#[test]
fn tables_as_they_were_stored_before() {
    for (count, allowance) in [(0x0403_0201, 0x0807_0605), (0x0807_0605, 0x0403_0201), (0, 0), (u32::MAX, u32::MAX)] {
        let mut bytes: Vec<u8> = (0..GROUPS as u8).flat_map(stored_session).collect();
        bytes.extend([count, allowance].map(u32::to_le_bytes).concat());
        let read = Table::from_bytes_before(&bytes).unwrap();
        assert_eq!(read.allowance(), allowance);
        assert!((0..).zip(read.groups()).all(|(group, seen)| seen == expected_group(group, count)));
        assert!((0..32).all(|group| read.left(group) == Some(allowance.saturating_sub(count))));
        let stored = read.to_bytes();
        for (group, place) in stored.chunks_exact(Session::BYTES + 4).enumerate() {
            assert_eq!(place, [stored_session(group as u8), count.to_le_bytes().to_vec()].concat());
        }
        assert_eq!(*Table::from_bytes(&stored).unwrap().to_bytes(), *stored);
    }
}

/// A table that is stored between all calls goes on as one that is not.
#[test]
fn stored_tables_go_on() {
    let (mut table, mut other) = (Table::new(), Table::new());
    for i in 0..60_u8 {
        let group = u32::from(i % 7) * 5;
        table = Table::from_bytes(&table.to_bytes()).unwrap();
        for table in [&mut table, &mut other] {
            match i {
                0 | 40 => table.start_day(30),
                1..8 => assert_eq!(table.open_group(group, KEY), Ok(1)),
                _ => drop(table.seal(group, &plain(&[i; 9]))),
            }
        }
        assert_eq!(*table.to_bytes(), *other.to_bytes(), "call {i}");
    }
    assert!((0..7).all(|i| other.group(5 * i).is_some_and(|group| group.count > 0)));
    assert_eq!(Table::from_bytes(&[0; Table::BYTES]).unwrap().to_bytes()[..], Table::new().to_bytes()[..]);
}

#[test]
fn a_new_table() {
    let (mut table, mut tag) = (Table::new(), [0; 32]);
    assert_eq!((table.allowance(), table.left(0), table.left(31)), (0, Some(0), Some(0)));
    assert_eq!(*table.to_bytes(), [0; Table::BYTES], "zero in all bytes");
    for allowance in [0, u32::MAX] {
        table.start_day(allowance);
        for group in 0..GROUPS as u32 {
            let closed = Refusal { number: Number::NotOpen, count: 0 };
            assert_eq!(table.wrap_to(group, &plain(b"12001"), &mut [0; 5], &mut tag), Err(closed));
            let arrival = Arrival { metadata: b"size C", cryptogram: b"12001", tag: &tag };
            assert_eq!(table.unwrap_to(group, &arrival, &mut [0; 5]), Err(closed));
        }
        assert_eq!(table.nearly_full(0), None);
    }
    table.start_day(0);
    let poor = Err(Refusal { number: Number::Allowance, count: 0 });
    assert!((0..GROUPS as u32).all(|group| table.open_group(group, KEY) == poor));
    table.start_day(1);
    assert!((0..GROUPS as u32).all(|group| table.open_group(group, KEY) == Ok(1)));
    assert!((0..GROUPS as u32).all(|group| table.open_group(group, KEY) == poor));
}

/// A group that has used its allowance gets 10 until the next day, and the others go on.
#[test]
fn a_busy_group() {
    let mut office = Table::new();
    office.start_day(7);
    assert!([3, 4].iter().all(|group| office.open_group(*group, KEY) == Ok(1)));
    let count =
        |answer: Result<Wrapped, Refusal>| answer.map(|wrapped| wrapped.count).map_err(|refusal| refusal.number);
    for expected in [Ok(3), Ok(3), Err(Number::Allowance)] {
        assert_eq!(count(office.wrap(3, &plain(b""))), expected);
    }
    assert_eq!((office.left(3), office.left(4), office.left(5), office.allowance()), (Some(0), Some(6), Some(7), 7));
    let kept = office.group(3);
    assert_eq!(office.open_group(3, KEY).unwrap_err().number, Number::Allowance, "opening again does not set it back");
    assert_eq!(count(office.wrap(4, &plain(b"1"))), Ok(6));
    assert_eq!((office.group(3), office.left(4)), (kept, Some(0)));
    office.start_day(4);
    assert_eq!((office.left(3), office.left(4), office.left(31)), (Some(4), Some(4), Some(4)));
    assert_eq!((office.open_group(3, KEY), office.group(3).unwrap().count), (Ok(1), 1));
    assert_eq!((office.open_group(3, KEY), office.group(3).unwrap().count), (Ok(1), 2));
}

#[test]
fn a_refused_start_closes_the_record() {
    let mut record = raw::Record::closed();
    assert_eq!(raw::start(&mut record, KEY), raw::Answer { number: 0, count: 1 });
    assert!(record.opened);
    assert_eq!(raw::start(&mut record, &KEY[..15]), raw::Answer { number: 4, count: 0 });
    assert_eq!((record.acc, record.mask), ([0; 12], [0; 12]), "the old session is lost");
    assert_eq!((record.index, record.toggle, record.opened), (0, false, false));
}

#[test]
fn a_table_and_its_refusals() {
    let mut office = Table::default();
    office.start_day(100);
    assert_eq!(office.open_group(32, KEY).unwrap_err().number, Number::BadGroup);
    assert_eq!(office.open_group(0, b"short").unwrap_err().number, Number::BadKey);
    assert_eq!(office.open_group(0, KEY), Ok(1));
    let (mut group, _) = Session::start(KEY).unwrap();
    let wrapped = group.wrap(&plain(b"returned")).unwrap();
    let mut tag = wrapped.tag;
    tag[31] ^= 0x80;
    let refusal = office.unwrap(0, &Arrival { tag: &tag, ..arrival(&wrapped) }).unwrap_err();
    assert_eq!(refusal, Refusal { number: Number::WrongTag, count: wrapped.count });
    assert_eq!((office.group(0).unwrap().count, office.group(0).unwrap().index), (1 + wrapped.count, 0));
    assert!((1..32).all(|group| office.group(group).unwrap().count == 0), "the other groups");
    let unwrapped = office.unwrap(0, &arrival(&wrapped)).unwrap();
    assert_eq!((&unwrapped.message[..], unwrapped.count), (&b"returned"[..], wrapped.count));
    assert_eq!(office.nearly_full(0), Some(0));
    assert_eq!(office.nearly_full(2), None);
    assert_eq!(office.group(0).unwrap().index, 2);
}

#[test]
fn codes_as_text() {
    let code = Code::from([0x01, 0x23, 0x45, 0x67, 0x89, 0xAB, 0xCD, 0xEF]);
    assert_eq!(code.to_string(), "0123 4567 89ab cdef");
    assert_eq!(format!("{code:?}"), "Code(0123 4567 89ab cdef)");
    let read = |text: &str| text.parse::<Code>();
    for text in [
        "0123 4567 89ab cdef",
        "0123456789abcdef",
        "0123456789ABCDEF",
        "0123-4567-89aB-CdEf",
        "0123 - 4567  89ab--cdef",
        "01234567 89abcdef",
    ] {
        assert_eq!(read(text), Ok(code), "{text}");
    }
    for text in [
        "",
        " ",
        "0123 4567 89ab cde",
        "0123 4567 89ab cdef 0",
        "0123 4567 89ab cdeg",
        " 0123 4567 89ab cdef",
        "0123 4567 89ab cdef ",
        "-0123456789abcdef",
        "0123456789abcdef-",
        "01 23 45 67 89 ab cd ef",
        "0 123 4567 89ab cdef",
        "0123\t4567 89ab cdef",
        "0123\n4567 89ab cdef",
        "0123,4567,89ab,cdef",
        "0123 4567 89ab +def",
        "0x123456789abcdef",
        "０123456789abcdef",
        "0123 4567 89ab cdéf",
    ] {
        let error = read(text).expect_err(text).to_string();
        assert!(error.starts_with("A code has 16 hexadecimal digits, ") && error.ends_with('.'), "{error}");
    }
}

#[test]
fn codes_differ_by_any_bit() {
    let code = Code::from([0x5A; 8]);
    assert_eq!(code, code.bytes().into());
    for bit in 0..64 {
        let mut bytes = code.bytes();
        bytes[bit / 8] ^= 1 << (bit % 8);
        assert_ne!(code, bytes.into(), "bit {bit}");
        assert_ne!(Code::from(bytes), code, "bit {bit}");
    }
    assert_ne!(code, [0xA5; 8].into());
}

#[test]
fn codes_of_a_session() {
    let refused = |number| Err(Refusal { number, count: 0 });
    let (mut here, _) = Session::start(KEY).unwrap();
    let (mut there, _) = Session::start(KEY).unwrap();
    assert_eq!(here.code(0), refused(Number::NoCode), "no message was accepted yet");
    let mut reference = Reference::start(KEY).unwrap();
    reference.wrap(b"", b"12001-12100", &mut [0; 11], &mut [0; 32]).unwrap();
    let first = here.wrap(&plain(b"12001-12100")).unwrap();
    assert_eq!(there.code(0), refused(Number::NoCode));
    let _ = there.unwrap(&arrival(&first)).unwrap();
    let before = here.to_bytes();
    for packet in 0..=PACKET_MAX {
        let mut expected = [0; 8];
        let count = reference.code(packet, &mut expected).unwrap();
        assert_eq!(here.code(packet), Ok((Code::from(expected), count)), "packet {packet}");
        assert_eq!(there.code(packet), here.code(packet), "packet {packet}");
    }
    assert_eq!(here.code(PACKET_MAX + 1), refused(Number::NoCode));
    assert_eq!(here.code(u32::MAX), refused(Number::NoCode));
    assert_eq!(*here.to_bytes(), *before, "codes alter nothing");
    let _ = here.wrap(&plain(b"")).unwrap();
    assert_ne!(here.code(7), there.code(7), "one end has accepted another message");
    let closed = Session::from_bytes(&[0; Session::BYTES]).unwrap();
    assert_eq!(closed.code(5_000), refused(Number::NotOpen));
}

#[test]
fn codes_of_groups() {
    let refused = |number| Err(Refusal { number, count: 0 });
    let mut office = Table::new();
    office.start_day(1_000);
    let mut lone = Vec::new();
    for group in [0, 7, 31] {
        let key = [group as u8; 16];
        office.open_group(group, &key).unwrap();
        assert_eq!(office.code(group, 0), refused(Number::NoCode), "no message was accepted yet");
        let (mut session, _) = Session::start(&key).unwrap();
        let _ = session.open(&office.seal(group, &plain(b"12001-12100")).unwrap().envelope).unwrap();
        lone.push((group, session));
    }
    // Codes need no allowance, and cost none.
    office.start_day(0);
    let before = office.to_bytes();
    for (group, session) in &lone {
        for packet in [0, 1, 2, 2_047] {
            assert_eq!(office.code(*group, packet).unwrap(), session.code(packet).unwrap());
        }
        assert_eq!(office.code(*group, 2_048), refused(Number::NoCode));
    }
    assert_ne!(office.code(0, 5).unwrap(), office.code(31, 5).unwrap());
    assert_eq!(office.code(8, 5_000), refused(Number::NotOpen));
    for group in [32, 33, 256, u32::MAX] {
        assert_eq!(office.code(group, 5_000), refused(Number::BadGroup));
    }
    assert_eq!(*office.to_bytes(), *before, "codes alter neither a session nor a count");
}

/// A table where group 7 is open, and the session of a group with the same key.
fn office_and_group() -> (Table, Session) {
    let mut office = Table::new();
    office.start_day(3_000);
    office.open_group(7, KEY).unwrap();
    (office, Session::start(KEY).unwrap().0)
}

/// Sealing is writing the header, wrapping for it and writing the envelope; opening is reading and unwrapping.
#[test]
fn envelopes_of_a_session_and_of_a_table() {
    let ((mut office, mut group), mut by_hand) = (office_and_group(), Session::start(KEY).unwrap().0);
    for length in [0, 1, 48, TEXT_MAX] {
        office.start_day(3_000);
        let text = vec![length as u8 ^ 0x55; length];
        let plain = Plain { metadata: b"size C", message: &text };
        let sealed = office.seal(7, &plain).unwrap();
        let header = envelope::write_header(Letter::S, 7, &plain).unwrap();
        let wrapped = by_hand.wrap_envelope(&header, &plain).unwrap();
        let written = envelope::write(Letter::S, 7, b"size C", &wrapped.cryptogram, &wrapped.tag).unwrap();
        assert_eq!(sealed.envelope, written);
        assert_eq!((sealed.count, office.group(7).unwrap().count), (wrapped.count, wrapped.count));
        let followed = [&sealed.envelope[..], b"more"].concat();
        let opened = group.open(&followed).unwrap();
        assert_eq!((opened.group, opened.metadata, opened.count), (7, &b"size C"[..], wrapped.count));
        assert!(opened.message == text && opened.rest == b"more");

        let back = group.seal(7, &plain).unwrap();
        assert_eq!(by_hand.seal(7, &plain).unwrap(), back);
        let opened = office.open(&back.envelope).unwrap();
        assert!(opened.group == 7 && opened.message == text && opened.rest.is_empty());
        let repeated = office.open(&back.envelope).unwrap_err();
        assert_eq!(repeated, Refusal { number: Number::WrongTag, count: back.count });
    }
    assert_eq!(*group.to_bytes(), *by_hand.to_bytes());
}

/// Number and count of a refused call.
fn number(refused: Refusal) -> (Number, u32) {
    (refused.number, refused.count)
}

/// The first check that sealing meets is the one that is named, in the order of the numbers.
#[test]
fn refused_sealing() {
    let (mut office, mut group) = office_and_group();
    let before = (office.to_bytes(), group.to_bytes());
    let long = Plain { metadata: b"", message: &[0; TEXT_MAX + 1] };
    let mut closed = Session::from_bytes(&[0; Session::BYTES]).unwrap();
    assert_eq!(number(closed.seal(32, &long).unwrap_err()), (Number::BadGroup, 0));
    assert_eq!(number(closed.seal(31, &long).unwrap_err()), (Number::NotOpen, 0));
    assert_eq!(number(closed.seal(31, &plain(b"")).unwrap_err()), (Number::NotOpen, 0));
    assert_eq!(number(group.seal(32, &long).unwrap_err()), (Number::BadGroup, 0));
    assert_eq!(number(group.seal(0, &long).unwrap_err()), (Number::TooLong, 0));
    assert_eq!(number(office.seal(u32::MAX, &long).unwrap_err()), (Number::BadGroup, 0));
    assert_eq!(number(office.seal(8, &long).unwrap_err()), (Number::NotOpen, 0));
    assert_eq!(number(office.seal(7, &long).unwrap_err()), (Number::TooLong, 0));
    assert_eq!((&*office.to_bytes(), &*group.to_bytes()), (&*before.0, &*before.1));
    office.start_day(0);
    assert_eq!(number(office.seal(7, &long).unwrap_err()), (Number::TooLong, 0));
    assert_eq!(number(office.seal(7, &plain(b"")).unwrap_err()), (Number::Allowance, 0));
    let mut bytes = group.to_bytes().to_vec();
    bytes[96..100].copy_from_slice(&(INDEX_MAX - 1).to_le_bytes());
    let mut full = Session::from_bytes(&bytes).unwrap();
    assert_eq!(number(full.seal(7, &plain(b"")).unwrap_err()), (Number::IndexFull, 0));
}

/// The first check that opening meets is the one that is named.
#[test]
fn refused_opening() {
    let (mut office, mut group) = office_and_group();
    // An arrival that would be opened, by any way, one permutation short of its count; then it just fits.
    let next = Session::from_bytes(&group.to_bytes()).unwrap().seal(7, &plain(b"12001")).unwrap();
    let read = envelope::read(&next.envelope).unwrap();
    office.start_day(next.count - 1);
    assert_eq!(number(office.open(&next.envelope).unwrap_err()), (Number::Allowance, 0));
    assert_eq!(number(office.unwrap_envelope(7, &read).unwrap_err()), (Number::Allowance, 0));
    assert_eq!(number(office.unwrap_envelope_to(7, &read, &mut [0; 5]).unwrap_err()), (Number::Allowance, 0));
    office.start_day(next.count);
    assert_eq!((office.open(&next.envelope).unwrap().count, office.left(7)), (next.count, Some(0)));
    office.start_day(0);
    let mut closed = Session::from_bytes(&[0; Session::BYTES]).unwrap();
    let sealed = Session::from_bytes(&group.to_bytes()).unwrap().seal(8, &plain(b"12001")).unwrap().envelope;
    assert_eq!(number(office.open(&sealed).unwrap_err()), (Number::NotOpen, 0));
    for session_refuses in [closed.open(b"S,32,0,0,"), group.open(b"")] {
        assert_eq!(number(session_refuses.unwrap_err()), (Number::BadHeader, 0));
    }
    assert_eq!(number(group.open(&sealed[1..]).unwrap_err()), (Number::BadHeader, 0));
    assert_eq!(number(group.open(&sealed[..sealed.len() - 1]).unwrap_err()), (Number::TooFewBytes, 0));
    assert_eq!(number(closed.open(&sealed).unwrap_err()), (Number::NotOpen, 0));
    assert_eq!(group.open(&sealed).unwrap().group, 8, "a session takes any group");
}

/// Two groups with one key, and an envelope whose group digit was altered on the way: 11 at lone sessions, and at the office for the
/// group that it names; in the table 1 where it is unwrapped for another group than the one that it names.
#[test]
fn a_readdressed_envelope() {
    let mut office = Table::new();
    office.start_day(1_000);
    let [mut group_8, mut group_9] = [8, 9].map(|group| {
        office.open_group(group, KEY).unwrap();
        Session::start(KEY).unwrap().0
    });
    let sealed = group_8.seal(8, &Plain { metadata: b"size C", message: b"12001-12100" }).unwrap();
    let mut readdressed = sealed.envelope.clone();
    assert_eq!(readdressed[2], b'8');
    readdressed[2] = b'9';
    let wrong = Refusal { number: Number::WrongTag, count: sealed.count };
    assert_eq!(group_9.open(&readdressed).unwrap_err(), wrong);
    assert_eq!(office.open(&readdressed).unwrap_err(), wrong);
    assert_eq!((office.group(9).unwrap().count, office.group(8).unwrap().count), (1 + sealed.count, 1));
    let (right, altered) = (envelope::read(&sealed.envelope).unwrap(), envelope::read(&readdressed).unwrap());
    assert_eq!((right.header, altered.header), (&b"S,8,6,11,"[..], &b"S,9,6,11,"[..]));
    let refused = Refusal { number: Number::BadHeader, count: 0 };
    for (group, envelope) in [(9, &right), (8, &altered), (32, &right)] {
        assert_eq!(office.unwrap_envelope(group, envelope).unwrap_err(), refused);
    }
    assert_eq!(office.unwrap_envelope(9, &altered).unwrap_err(), wrong);
    assert_eq!(group_9.unwrap_envelope(&altered).unwrap_err(), wrong);
    assert_eq!(office.unwrap_envelope(8, &right).unwrap().message, b"12001-12100");
    assert_eq!(
        group_9.open(&sealed.envelope).unwrap().message,
        b"12001-12100",
        "as it was sealed, where the key is the same"
    );
}

/// An envelope goes by its header's bytes, and not by what was read of them; its parts may be altered after the reading.
#[test]
fn envelopes_with_altered_parts() {
    let mut office = office_and_group().0;
    let block = Plain { metadata: b"size C", message: b"12001-12100" };
    let header = envelope::write_header(Letter::S, 7, &block).unwrap();
    let wrapped = office.wrap_envelope(7, &header, &block).unwrap();
    let bytes = envelope::write(Letter::S, 7, b"size C", &wrapped.cryptogram, &wrapped.tag).unwrap();
    let read = envelope::read(&bytes).unwrap();
    assert_eq!((read.header, &bytes[..read.header.len()]), (&header[..], &header[..]));
    let refused =
        |envelope: &Envelope<'_>| Session::start(KEY).unwrap().0.unwrap_envelope(envelope).map(|_| ()).unwrap_err();
    for header in [&header[1..], b"", b"S,7,6,10,", b"S,7,5,11,", b"N,7,6,11,"] {
        assert_eq!(number(refused(&Envelope { header, ..read })), (Number::BadHeader, 0));
    }
    assert_eq!(number(refused(&Envelope { metadata: b"size", ..read })), (Number::BadHeader, 0));
    assert_eq!(number(refused(&Envelope { tag: &read.tag[1..], ..read })), (Number::BadTagLength, 0));
    assert_eq!(number(refused(&Envelope { metadata: b"size D", ..read })), (Number::WrongTag, wrapped.count));
    let mut out = [0xAA; 12];
    let mut group = Session::start(KEY).unwrap().0;
    assert_eq!(group.unwrap_envelope_to(&read, &mut out[..10]).unwrap_err().number, Number::NoRoom);
    let other = Envelope { letter: Letter::N, group: 31, place: 0, rest: b"", ..read };
    assert_eq!(group.unwrap_envelope_to(&other, &mut out), Ok(wrapped.count));
    assert_eq!((&out[..11], out[11]), (block.message, 0xAA));
}

/// Wrapping for an envelope into buffers, and its refusals; versions before put what was wrapped without a header into envelopes.
#[test]
fn wrapping_for_envelopes() {
    let ((mut office, mut group), mut other) = (office_and_group(), Session::start(KEY).unwrap().0);
    let block = Plain { metadata: b"size C", message: b"12001-12100" };
    let (mut out, mut tag) = ([0xAA; 12], [0xBB; 32]);
    for header in [&b""[..], b"S,7,6,12,", b"N,7,6,11,", b"S,7,6,11,,"] {
        assert_eq!(number(group.wrap_envelope(header, &block).unwrap_err()), (Number::BadHeader, 0));
        assert_eq!(number(office.wrap_envelope(7, header, &block).unwrap_err()), (Number::BadHeader, 0));
    }
    assert_eq!(number(office.wrap_envelope(7, b"S,8,6,11,", &block).unwrap_err()), (Number::BadHeader, 0));
    let header = b"S,7,6,11,";
    assert_eq!(group.wrap_envelope_to(header, &block, &mut out[..10], &mut tag).unwrap_err().number, Number::NoRoom);
    assert_eq!(
        office.wrap_envelope_to(7, header, &block, &mut out[..10], &mut tag).unwrap_err().number,
        Number::NoRoom
    );
    assert_eq!((out, tag), ([0xAA; 12], [0xBB; 32]));
    let count = group.wrap_envelope_to(header, &block, &mut out, &mut tag).unwrap();
    let sealed = office.seal(7, &block).unwrap();
    assert_eq!(
        (&out[..11], out[11], count),
        (envelope::read(&sealed.envelope).unwrap().cryptogram, 0xAA, sealed.count)
    );

    let old = other.wrap(&block).unwrap();
    let bytes = envelope::write(Letter::S, 7, b"size C", &old.cryptogram, &old.tag).unwrap();
    let mut group = Session::start(KEY).unwrap().0;
    assert_eq!(group.open(&bytes).unwrap_err().number, Number::WrongTag, "sealed before version 0.8");
    assert_eq!(group.unwrap(&envelope::read(&bytes).unwrap().arrival().unwrap()).unwrap().message, block.message);
}

#[test]
fn envelopes_in_a_row() {
    let mut bytes = Vec::new();
    for group in 0..32 {
        let text = vec![group as u8; group as usize * 10];
        let letter = if group % 3 == 0 { Letter::N } else { Letter::S };
        bytes.extend(envelope::write(letter, group, &text, &text, &vec![group as u8; letter.tag_length()]).unwrap());
    }
    let mut rest = &bytes[..];
    for group in 0..32 {
        let envelope = envelope::read(rest).unwrap();
        assert_eq!((envelope.letter == Letter::N, envelope.group), (group % 3 == 0, group));
        assert_eq!(envelope.tag, vec![group as u8; envelope.letter.tag_length()]);
        assert_eq!(envelope.metadata, vec![group as u8; group as usize * 10]);
        assert_eq!(envelope.cryptogram, envelope.metadata);
        assert_eq!(rest.len(), envelope.place + envelope.rest.len());
        rest = envelope.rest;
    }
    assert_eq!(envelope::read(rest).unwrap_err().number, Number::BadHeader);
    assert_eq!(envelope::read(b"S,7,20,48,").unwrap_err().number, Number::TooFewBytes);
}

/// The checks of writing, in their order; each letter has a tag of its own length.
#[test]
fn envelopes_that_are_not_written() {
    for letter in [Letter::S, Letter::N] {
        let length = letter.tag_length();
        let (tag, long) = (vec![0; length], [0; TEXT_MAX + 1]);
        let whole = 8 + length;
        let refused = |number| Err(Refusal { number, count: 0 });
        assert_eq!(envelope::write(letter, 32, &long, b"", &[]), refused(Number::BadGroup));
        assert_eq!(envelope::write(letter, 0, &long, b"", &[]), refused(Number::TooLong));
        assert_eq!(envelope::write(letter, 0, b"", &long, &[]), refused(Number::TooLong));
        for other in (0..64).filter(|other| *other != length) {
            assert_eq!(envelope::write(letter, 0, b"", b"", &vec![0; other]), refused(Number::BadTagLength));
            let written = envelope::write_to(letter, 0, b"", b"", &vec![0; other], &mut []);
            assert_eq!(written.unwrap_err().number, Number::BadTagLength);
        }
        let written = envelope::write_to(letter, 0, b"", b"", &tag, &mut vec![0; whole - 1]);
        assert_eq!(written.unwrap_err().number, Number::NoRoom);
        assert_eq!(envelope::write_to(letter, 0, b"", b"", &tag, &mut vec![0; whole]), Ok(whole));
    }
    for letter in (0..=u8::MAX).filter(|letter| !b"SN".contains(letter)) {
        let written = raw::write_envelope(letter, 32, &[0; TEXT_MAX + 1], b"", b"", &mut []);
        let number = if letter == b'F' { 18 } else { 1 };
        assert_eq!(written, raw::Written { number, len: 0 }, "letter {letter}");
    }
}

/// A header alone is what the envelope begins with, and meets the checks of writing that it can meet.
#[test]
fn headers_alone() {
    let long = [0; TEXT_MAX + 1];
    for letter in [Letter::S, Letter::N] {
        let refused = |number| Err(Refusal { number, count: 0 });
        let longest = Plain { metadata: &long[1..], message: &long[1..] };
        for (group, plain) in [(0, plain(b"")), (7, plain(b"12001")), (31, longest)] {
            let header = envelope::write_header(letter, group, &plain).unwrap();
            let (metadata, message) = (plain.metadata, plain.message);
            let bytes = envelope::write(letter, group, metadata, message, &vec![9; letter.tag_length()]).unwrap();
            assert_eq!(envelope::read(&bytes).unwrap().header, header);
            assert_eq!(bytes.len(), header.len() + metadata.len() + message.len() + letter.tag_length());
        }
        for long in [Plain { metadata: &long, message: b"" }, plain(&long)] {
            assert_eq!(envelope::write_header(letter, 32, &long), refused(Number::BadGroup));
            assert_eq!(envelope::write_header(letter, 31, &long), refused(Number::TooLong));
        }
    }
}

/// What is unwrapped of an envelope has a tag of its letter's length, and no other.
#[test]
fn arrivals_of_envelopes() {
    let refused = Refusal { number: Number::BadTagLength, count: 0 };
    let bytes = envelope::write(Letter::S, 7, b"size C", b"12001", &[9; 32]).unwrap();
    let arrived = envelope::read(&bytes).unwrap();
    assert_eq!(arrived.arrival(), Ok(Arrival { metadata: b"size C", cryptogram: b"12001", tag: &[9; TAG_LENGTH] }));
    assert_eq!(arrived.arrival::<SANE_TAG_LENGTH>(), Err(refused));
    let bytes = envelope::write(Letter::N, 7, b"size C", b"12001", &[9; 16]).unwrap();
    let arrived = envelope::read(&bytes).unwrap();
    assert_eq!(
        arrived.arrival(),
        Ok(Arrival { metadata: b"size C", cryptogram: b"12001", tag: &[9; SANE_TAG_LENGTH] })
    );
    assert_eq!(arrived.arrival::<TAG_LENGTH>(), Err(refused));
}

#[test]
fn secrets_are_not_shown() {
    let (session, _) = Session::start(KEY).unwrap();
    assert_eq!(format!("{session:?}"), "Session { open: true, index: 0, toggle: false, .. }");
    let mut table = Table::new();
    table.start_day(9);
    table.open_group(3, KEY).unwrap();
    assert_eq!(
        format!("{table:?}"),
        "Table { allowance: 9, groups: [Group { group: 3, is_open: true, index: 0, toggle: false, count: 1 }], .. }"
    );
    // A closed group that has counted something is shown too.
    let mut bytes = [0; Table::BYTES];
    bytes[2 * (Session::BYTES + 4) + Session::BYTES] = 5;
    let table = Table::from_bytes(&bytes).unwrap();
    assert_eq!(
        format!("{table:?}"),
        "Table { allowance: 0, groups: [Group { group: 2, is_open: false, index: 0, toggle: false, count: 5 }], .. }"
    );
    let bytes = session.to_bytes();
    assert_eq!(format!("{bytes:?}"), "Secret(102 bytes)");
    let mut copy = bytes.to_vec();
    wipe(&mut copy);
    assert_eq!(copy, [0; Session::BYTES]);
    let (mut here, mut there) = (session, Session::start(KEY).unwrap().0);
    let plain = Plain { metadata: b"C", message: b"12001" };
    assert_eq!(format!("{plain:?}"), "Plain { metadata: [67], .. }");
    let sealed = here.seal(7, &plain).unwrap();
    let opened = there.open(&sealed.envelope).unwrap();
    assert_eq!(format!("{opened:?}"), "Opened { group: 7, metadata: [67], count: 7, .. }");
}

/// The library has no globals, so sessions and tables go from thread to thread; one call at a time is what `&mut` says.
#[test]
fn sessions_and_tables_go_to_other_threads() {
    fn goes<T: Send + Sync>(_: &T) {}
    let (mut here, _) = Session::start(KEY).unwrap();
    let (mut there, _) = Session::start(KEY).unwrap();
    goes(&Table::new());
    let sealed = std::thread::spawn(move || {
        let envelopes: Vec<_> = (0..50).map(|i| here.seal(7, &plain(&[i; 99])).unwrap().envelope).collect();
        (here, envelopes)
    });
    let (here, envelopes) = sealed.join().unwrap();
    let opened = std::thread::spawn(move || {
        envelopes.iter().zip(0..).for_each(|(envelope, i)| assert_eq!(there.open(envelope).unwrap().message, [i; 99]));
        there
    });
    assert_eq!(*opened.join().unwrap().to_bytes(), *here.to_bytes());
}
