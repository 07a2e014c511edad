//! Calls for envelopes at their edges, of either mode and of a table, through the C library and beside the independent
//! implementation: the header is the call's own, or gets 1 before every other check, and it stands under the tag before the metadata.

mod common;

use common::headers::{fits, header};
use common::tables::Tables;
use common::{Both, BothOf, Library, SaneBoth, any_session, copy, play, same};
use pevghazo::raw::{Answer, GroupRecord, Record, SaneRecord};
use pevghazo_reference::deck::Deck;
use pevghazo_reference::limits::INDEX_MAX;
use pevghazo_reference::random::Random;
use pevghazo_reference::session::{Header, Mode, Record as Reference, Scheme, growth, metadata_string};
use pevghazo_reference::table::{GroupRecord as ReferenceGroup, Table};

const KEY: &[u8] = b"one key for two groups.";
const REFUSED: Answer = Answer { number: 1, count: 0 };

/// A mode's sessions under the key.
trait Start: Library {
    fn start() -> BothOf<Self>;
}

impl Start for Record {
    fn start() -> Both {
        Both::start(&mut Random::new(1), KEY).0
    }
}

impl Start for SaneRecord {
    fn start() -> SaneBoth {
        SaneBoth::started(&mut Random::new(1), KEY, b"41")
    }
}

/// A message as it was wrapped.
struct Sent {
    metadata: Vec<u8>,
    message: Vec<u8>,
    cryptogram: Vec<u8>,
    tag: Vec<u8>,
    count: u32,
}

impl Sent {
    /// Wraps a message of these lengths at an end.
    fn from<R: Library>(end: &mut BothOf<R>, header: Header<'_>, (a, m): (usize, usize)) -> Sent {
        let mut random = Random::new(7);
        let (metadata, message) = (random.bytes(a), random.bytes(m));
        let (mut cryptogram, mut tag) = (vec![0; m], vec![0; R::Mode::TAG]);
        let answer = end.wrap_for(header, &metadata, &message, &mut cryptogram, &mut tag);
        assert_eq!(answer.number, 0, "{:?}", header.map(String::from_utf8_lossy));
        Sent { metadata, message, cryptogram, tag, count: answer.count }
    }

    /// Hands it to an end. Where it is accepted the message comes back.
    fn to<R: Library>(&self, end: &mut BothOf<R>, header: Header<'_>) -> Answer {
        let mut out = vec![0xA5; self.message.len() + 1];
        let answer = end.unwrap_for(header, &self.metadata, &self.cryptogram, &self.tag, &mut out);
        self.check(answer, &out);
        answer
    }

    /// Hands it to a group of a table.
    fn to_group(&self, tables: &mut Tables, group: u32, header: Header<'_>) -> Answer {
        let mut out = vec![0xA5; self.message.len() + 1];
        let answer = tables.unwrap_for(group, header, &self.metadata, &self.cryptogram, &self.tag, &mut out);
        self.check(answer, &out);
        answer
    }

    /// The output buffer holds the message, zeros, or what it held before.
    fn check(&self, answer: Answer, out: &[u8]) {
        let expected = match answer.number {
            0 => self.message.clone(),
            11 => vec![0; self.message.len()],
            _ => vec![0xA5; self.message.len()],
        };
        assert!(out[..expected.len()] == expected && out[expected.len()] == 0xA5, "{answer:?}");
    }

    /// The answer to it where the tag differs, by a metadata string of another length or of the same.
    fn wrong<R: Library>(&self, header: Header<'_>) -> Answer {
        Answer { number: 11, count: count::<R>(header, self.metadata.len(), self.message.len()) }
    }
}

/// The count of a call with a header, or none, and texts of these lengths.
fn count<R: Library>(header: Header<'_>, a: usize, m: usize) -> u32 {
    R::Mode::count(header.map_or(0, <[u8]>::len) + a, m)
}

/// The case of the request: two groups were given one key, and the group's digit was altered on the way.
fn readdressed<R: Start>() {
    let letter = R::Mode::LETTER;
    let (mut office, mut group_8, mut group_9) = (R::start(), R::start(), R::start());
    let [for_8, for_9] = [8, 9].map(|group| header(letter, group, 6, 11));
    let sent = Sent::from(&mut office, Some(&for_8), (6, 11));
    let before = copy(&group_9.library);
    for end in [&mut group_8, &mut group_9] {
        assert_eq!(sent.to(end, Some(&for_9)), sent.wrong::<R>(Some(&for_9)), "a lone session takes any group");
    }
    assert!(same(&group_9.library, &before), "the session goes on as it was");
    assert_eq!(sent.to(&mut group_8, Some(&for_8)), Answer { number: 0, count: sent.count });
    assert!(same(&group_8.library, &office.library));
}

#[test]
fn a_readdressed_envelope_at_lone_sessions() {
    readdressed::<Record>();
    readdressed::<SaneRecord>();
}

/// A table in which these groups have the key.
fn office(groups: &[u32]) -> Tables {
    let mut tables = Tables::of(Table::new());
    tables.start_day(10_000);
    for group in groups {
        assert_eq!(tables.open_group(*group, KEY).number, 0);
    }
    tables
}

#[test]
fn a_readdressed_envelope_in_the_table() {
    let mut tables = office(&[8, 9]);
    let mut lone = Record::start();
    let [for_8, for_9] = [8, 9].map(|group| header(b'S', group, 6, 11));
    let sent = Sent::from(&mut lone, Some(&for_8), (6, 11));
    for (group, instead) in [(9, &for_8), (8, &for_9), (8, &header(b'S', 18, 6, 11))] {
        assert_eq!(sent.to_group(&mut tables, group, Some(instead)), REFUSED, "the group is not the call's");
        assert_eq!(tables.records[group as usize].count, 1, "and nothing is counted");
    }
    let wrong = sent.wrong::<Record>(Some(&for_9));
    assert_eq!(sent.to_group(&mut tables, 9, Some(&for_9)), wrong, "with its own group's digit the tag differs");
    assert_eq!(tables.records[9].count, 1 + wrong.count);
    assert_eq!(sent.to_group(&mut tables, 8, Some(&for_8)), Answer { number: 0, count: sent.count });
    assert_eq!(tables.records[8].count, 1 + sent.count);
    assert!(same(&tables.records[8].session, &lone.library));
    for (group, instead) in [(9, &for_8), (8, &for_9)] {
        let (mut out, mut tag) = ([0xA5; 11], [0xA5; 32]);
        let answer = tables.wrap_for(group, Some(instead), &sent.metadata, &sent.message, &mut out, &mut tag);
        assert_eq!((answer, out, tag), (REFUSED, [0xA5; 11], [0xA5; 32]), "wrapping");
    }
}

/// A group and a length of metadata for which header and metadata together have this length, beside a message of m bytes.
fn with_string(letter: u8, length: usize, m: usize) -> Option<(u32, usize)> {
    let all = [7, 31].into_iter().flat_map(|group| (0..=16_384.min(length)).map(move |a| (group, a)));
    all.into_iter().find(|(group, a)| header(letter, *group, *a, m).len() + a == length)
}

/// What the cookbook's steps give with this string as the metadata, from a record on: cryptogram, tag and history.
fn by_the_cookbook<M: Mode>(from: &Reference<M>, string: &[u8], message: &[u8]) -> (Vec<u8>, Vec<u8>, Deck) {
    let history = Deck { accumulator: from.accumulator, mask: from.mask, index: from.index.into() };
    let (mut cryptogram, mut tag) = (vec![0; message.len()], vec![0; M::TAG]);
    let history = M::wrap(history, from.toggle, string, message, &mut cryptogram, &mut tag);
    (cryptogram, tag, history)
}

/// A message with a metadata string of this length is the cookbook's with the string as A.
fn string_of<R: Start>(end: &mut BothOf<R>, length: usize, m: usize) -> bool {
    let Some((group, a)) = with_string(R::Mode::LETTER, length, m) else { return false };
    let header = header(R::Mode::LETTER, group, a, m);
    let (before, mut there) = (end.reference.clone(), BothOf::<R>::of(end.reference.clone()));
    let sent = Sent::from(end, Some(&header), (a, m));
    let string = metadata_string(Some(&header), &sent.metadata);
    let (cryptogram, tag, history) = by_the_cookbook(&before, &string, &sent.message);
    assert!(sent.cryptogram == cryptogram && sent.tag == tag, "{length} and {m} bytes");
    let after = end.library.reference();
    assert!((after.accumulator, after.mask) == (history.accumulator, history.mask), "{length} and {m} bytes");
    assert_eq!(u64::from(after.index), history.index, "{length} and {m} bytes");
    assert_eq!(after.index - before.index, growth(length, m));
    assert_eq!((string.len(), sent.count), (length, R::Mode::count(length, m)));
    assert_eq!(sent.to(&mut there, Some(&header)), Answer { number: 0, count: sent.count });
    true
}

/// Header and metadata together up to a block's end, over it, and at the longest; and the shortest, of 8 bytes.
fn strings<R: Start>() {
    let mut end = R::start();
    // By four the first block is taken alone, then four at a time: up to 240 and 432 bytes.
    let of_four = [191, 192, 193, 239, 240, 241, 383, 384, 385, 431, 432, 433];
    for length in [8, 47, 48, 49, 95, 96, 97, 143, 144, 145, 16_384, 16_385, 16_400, 16_401].into_iter().chain(of_four)
    {
        let found =
            [0, 1, 9, 47, 48, 49, 96, 10_000, 16_384].iter().filter(|m| string_of(&mut end, length, **m)).count();
        // Strings above 16,384 bytes need a long message: its length takes digits.
        let least = if length == 8 || length > 16_384 { 2 } else { 9 };
        assert!(found >= least, "{found} messages with a string of {length} bytes");
    }
}

#[test]
fn header_and_metadata_at_the_ends_of_blocks() {
    strings::<Record>();
    strings::<SaneRecord>();
}

/// Metadata, message or both without bytes, with counts and growths by hand: a header of at most 17 bytes is one block.
#[test]
fn empty_parts() {
    let sanse = [(0, 0, 3, 2), (0, 1, 7, 4), (0, 48, 8, 5), (20, 0, 3, 2), (38, 0, 4, 3), (0, 16_384, 689, 345)];
    let sane = [(0, 0, 3, 2), (0, 1, 6, 4), (0, 48, 8, 5), (20, 0, 3, 2), (39, 0, 4, 3), (0, 16_384, 688, 345)];
    fn check<R: Start>(calls: [(usize, usize, u32, u32); 6]) {
        for (a, m, count, growth) in calls {
            let (mut here, mut there) = (R::start(), R::start());
            let index = here.library.reference().index;
            let header = header(R::Mode::LETTER, 31, a, m);
            let sent = Sent::from(&mut here, Some(&header), (a, m));
            assert_eq!((sent.count, here.library.reference().index), (count, index + growth), "{a} and {m} bytes");
            assert_eq!(sent.to(&mut there, Some(&header)), Answer { number: 0, count }, "{a} and {m} bytes");
            assert!(same(&here.library, &there.library));
        }
    }
    check::<Record>(sanse);
    check::<SaneRecord>(sane);
}

/// A wrap and an unwrap with a header, texts, a tag and a buffer of these lengths: both give this number, and alter nothing.
fn refused<R: Library>(session: &Reference<R::Mode>, header: &[u8], lengths: [usize; 4], number: u32) {
    let [metadata, text, mut tag, mut out] = lengths.map(|length| vec![0xA5; length]);
    let mut both = BothOf::<R>::of(session.clone());
    let expected = Answer { number, count: 0 };
    let shown = String::from_utf8_lossy(header);
    assert_eq!(both.wrap_for(Some(header), &metadata, &text, &mut out, &mut tag), expected, "{shown} {lengths:?}");
    assert_eq!(both.unwrap_for(Some(header), &metadata, &text, &tag, &mut out), expected, "{shown} {lengths:?}");
    assert!(out.iter().chain(&tag).all(|byte| *byte == 0xA5) && both.library.reference() == *session);
}

/// A call that meets all checks gets 1; without each in turn it gets the next one.
fn order<R: Library>() {
    let (letter, tag) = (R::Mode::LETTER, R::Mode::TAG);
    let full = Reference { index: INDEX_MAX, open: true, ..any_session(&mut Random::new(3)) };
    let closed = Reference { open: false, ..full.clone() };
    let fitting = header(letter, 7, 6, 11);
    for misfit in [&b""[..], b"S", b"N", &fitting[1..], &header(letter, 32, 6, 11), &header(b'F', 7, 6, 11), b"F"] {
        for session in [&closed, &full] {
            refused::<R>(session, misfit, [6, 11, tag - 1, 10], 1);
            refused::<R>(session, misfit, [6, 11, tag, 11], 1);
        }
    }
    refused::<R>(&closed, &fitting, [6, 11, tag - 1, 10], 5);
    refused::<R>(&full, &fitting, [6, 11, tag - 1, 10], 7);
    refused::<R>(&full, &fitting, [6, 11, tag + 1, 10], 7);
    refused::<R>(&full, &fitting, [6, 11, tag, 10], 8);
    refused::<R>(&full, &fitting, [6, 11, tag, 11], 9);
    // No header has a length above the limit, so that such a call gets 1 and not 6.
    for (a, m) in [(16_385, 11), (6, 16_385), (16_385, 16_385)] {
        for header in [header(letter, 7, a, m), header(letter, 7, a.min(16_384), m.min(16_384)), fitting.clone()] {
            refused::<R>(&full, &header, [a, m, tag, m], 1);
            refused::<R>(&closed, &header, [a, m, tag, m], 1);
        }
    }
}

#[test]
fn number_1_before_every_other() {
    order::<Record>();
    order::<SaneRecord>();
}

/// A wrap and an unwrap for a group of a table, both with this number.
fn refused_in(tables: &mut Tables, group: u32, header: Header<'_>, out: usize, number: u32) {
    let (mut out, mut tag) = (vec![0xA5; out], [0xA5; 32]);
    let expected = Answer { number, count: 0 };
    assert_eq!(tables.wrap_for(group, header, &[1; 6], &[2; 11], &mut out, &mut tag), expected, "group {group}");
    assert_eq!(tables.unwrap_for(group, header, &[1; 6], &[2; 11], &tag, &mut out), expected, "group {group}");
    assert!(out.iter().chain(&tag).all(|byte| *byte == 0xA5));
}

/// In a table 1 comes before 3, 5, 8 and 10, too. A group above 31 is in no header.
#[test]
fn number_1_before_every_other_in_the_table() {
    for size in [0, 1, 31, 33] {
        let mut tables = office(&[7]);
        tables.records.resize_with(size, GroupRecord::closed);
        tables.reference.records.resize(size, ReferenceGroup::CLOSED);
        for misfit in [&b""[..], b"S,8,6,11,", b"N,7,6,11,", b"S,7,6,12,"] {
            refused_in(&mut tables, 7, Some(misfit), 10, 1);
        }
        refused_in(&mut tables, 7, Some(b"S,7,6,11,"), 10, 3);
    }
    let mut tables = office(&[7]);
    for (group, header) in [(32, "S,32,6,11,"), (u32::MAX, "S,31,6,11,"), (39, "S,7,6,11,"), (8, "S,7,6,11,"), (8, "")]
    {
        refused_in(&mut tables, group, Some(header.as_bytes()), 10, 1);
    }
    refused_in(&mut tables, 32, None, 10, 3);
    refused_in(&mut tables, 8, Some(b"S,8,6,11,"), 10, 5);
    refused_in(&mut tables, 7, Some(b"S,7,6,11,"), 10, 8);
    tables.start_day(7);
    tables.set_count(7, 1);
    refused_in(&mut tables, 7, Some(b"S,7,6,11,,"), 11, 1);
    refused_in(&mut tables, 7, Some(b"S,7,6,11,"), 11, 10);
}

/// The allowance just covers a call for an envelope, or is one short: the count goes by header and metadata together. Metadata of
/// 38 bytes alone are one block, with this header two.
#[test]
fn the_allowance_of_a_call_for_an_envelope() {
    let (header, bare) = (header(b'S', 7, 38, 48), count::<Record>(None, 38, 48));
    let needed = count::<Record>(Some(&header), 38, 48);
    assert_eq!((header.len(), needed), (10, bare + 1));
    for (allowance, number) in [(bare, 10), (needed - 1, 10), (needed, 0)] {
        let mut tables = office(&[7]);
        tables.start_day(allowance);
        let answer = tables.wrap_for(7, Some(&header), &[1; 38], &[2; 48], &mut [0; 48], &mut [0; 32]);
        assert_eq!(answer, Answer { number, count: if number == 0 { needed } else { 0 } }, "{allowance}");
        assert_eq!(tables.records[7].count, answer.count);
        let mut tables = office(&[7]);
        tables.start_day(allowance);
        let answer = tables.unwrap_for(7, Some(&header), &[1; 38], &[2; 48], &[0; 32], &mut [0; 48]);
        assert_eq!(answer.number, if number == 0 { 11 } else { 10 }, "{allowance}");
        assert_eq!(tables.records[7].count, answer.count);
    }
}

/// What was wrapped without an envelope and put into one, as versions before 0.8 did, is refused by 11 as an envelope; and what was
/// wrapped for one is refused without it. Each is then taken as it was wrapped.
fn old_and_new<R: Start>() {
    for (a, m) in [(0, 0), (0, 11), (6, 0), (6, 11), (16_384, 16_384)] {
        let header = header(R::Mode::LETTER, 7, a, m);
        for (wrapped, instead) in [(None, Some(&header[..])), (Some(&header[..]), None)] {
            let (mut here, mut there) = (R::start(), R::start());
            let sent = Sent::from(&mut here, wrapped, (a, m));
            assert_eq!(sent.to(&mut there, instead), sent.wrong::<R>(instead), "{a} and {m} bytes");
            assert_eq!(sent.to(&mut there, wrapped).number, 0, "{a} and {m} bytes");
        }
    }
}

#[test]
fn envelopes_of_versions_before() {
    old_and_new::<Record>();
    old_and_new::<SaneRecord>();
    let (mut tables, mut lone) = (office(&[7]), Record::start());
    let header = header(b'S', 7, 6, 11);
    let sent = Sent::from(&mut lone, None, (6, 11));
    let wrong = sent.wrong::<Record>(Some(&header));
    assert_eq!(sent.to_group(&mut tables, 7, Some(&header)), wrong);
    assert_eq!(tables.records[7].count, 1 + wrong.count);
    assert_eq!(sent.to_group(&mut tables, 7, None).number, 0);
}

/// Calls of both sorts in one session, in every order of four, from both ends in turn.
fn mixed<R: Start>() {
    for order in 0..16_u32 {
        let (mut here, mut there) = (R::start(), R::start());
        for i in 0..4 {
            let header = header(R::Mode::LETTER, i, 6, 11 * i as usize);
            let header = (order >> i & 1 == 1).then_some(&header[..]);
            let sent = Sent::from(&mut here, header, (6, 11 * i as usize));
            assert_eq!(sent.to(&mut there, header), Answer { number: 0, count: sent.count }, "order {order}");
            assert!(same(&here.library, &there.library));
            assert_eq!(sent.to(&mut there, header), sent.wrong::<R>(header), "the same once more");
            std::mem::swap(&mut here, &mut there);
        }
    }
}

#[test]
fn both_sorts_in_one_session() {
    mixed::<Record>();
    mixed::<SaneRecord>();
}

/// Header and metadata of a call for an envelope, handed over together as the metadata of a call without one, are the same string:
/// whoever uses both sorts keeps them apart.
fn one_string<R: Start>() {
    let (mut here, mut there) = (R::start(), R::start());
    let header = header(R::Mode::LETTER, 7, 6, 11);
    let sent = Sent::from(&mut here, Some(&header), (6, 11));
    let together = Sent { metadata: metadata_string(Some(&header), &sent.metadata), ..sent };
    assert_eq!(together.to(&mut there, None), Answer { number: 0, count: together.count });
    assert!(same(&here.library, &there.library));
}

#[test]
fn header_and_metadata_are_one_string() {
    one_string::<Record>();
    one_string::<SaneRecord>();
}

/// Everything that one byte makes of a header: each byte another one, each left out, one put in at each place.
fn one_byte_off(whole: &[u8]) -> Vec<Vec<u8>> {
    let mut all = Vec::new();
    for place in 0..=whole.len() {
        let (before, after) = whole.split_at(place);
        for byte in 0..=u8::MAX {
            all.push([before, &[byte], after].concat());
            all.push([before, &[byte], &after[after.len().min(1)..]].concat());
        }
        all.push([before, &after[after.len().min(1)..]].concat());
    }
    all.extend((0..whole.len()).map(|end| whole[..end].to_vec()));
    all
}

/// Such a header is taken exactly where it is one of the layout's, for another group, and then the tag differs; in a table it is taken
/// for its own group alone.
fn headers_one_byte_off<R: Start>() {
    let mut taken = 0;
    for group in [1, 13, 31] {
        let (whole, mut here) = (header(R::Mode::LETTER, group, 6, 11), R::start());
        let sent = Sent::from(&mut here, Some(&whole), (6, 11));
        for bytes in one_byte_off(&whole).iter().filter(|bytes| **bytes != whole) {
            let is_header = fits(bytes, R::Mode::LETTER, 6, 11);
            let expected = if is_header { sent.wrong::<R>(Some(bytes)) } else { REFUSED };
            let mut there = R::start();
            assert_eq!(sent.to(&mut there, Some(bytes)), expected, "{}", String::from_utf8_lossy(bytes));
            let (mut out, mut tag) = ([0; 11], vec![0; R::Mode::TAG]);
            let answer = there.wrap_for(Some(bytes), &sent.metadata, &sent.message, &mut out, &mut tag);
            assert_eq!(answer.number, u32::from(!is_header), "{}", String::from_utf8_lossy(bytes));
            taken += u32::from(is_header);
        }
    }
    // Of 1: nine other digits, 10 to 19, and 11, 21, 31. Of 13: 23, nine other second digits, 1 and 3. Of 31: 11, 21, 30, 1 and 3.
    assert_eq!(taken, 22 + 12 + 5, "headers of other groups");
}

#[test]
fn every_header_that_is_one_byte_off() {
    headers_one_byte_off::<Record>();
    headers_one_byte_off::<SaneRecord>();
    let (mut tables, mut lone) = (office(&(0..32).collect::<Vec<u32>>()), Record::start());
    let whole = header(b'S', 13, 6, 11);
    let sent = Sent::from(&mut lone, Some(&whole), (6, 11));
    for bytes in one_byte_off(&whole).iter().filter(|bytes| **bytes != whole) {
        assert_eq!(sent.to_group(&mut tables, 13, Some(bytes)), REFUSED, "{}", String::from_utf8_lossy(bytes));
    }
    assert_eq!(sent.to_group(&mut tables, 13, Some(&whole)).number, 0);
}

/// Another mode's letter, with all else as the call has it.
#[test]
fn another_modes_letter() {
    for (a, m) in [(0, 0), (6, 11), (16_384, 16_384)] {
        let [sanse, sane, old] = [b'S', b'N', b'F'].map(|letter| header(letter, 7, a, m));
        for other in [&sane, &old] {
            refused::<Record>(&Record::start().reference, other, [a, m, 32, m], 1);
        }
        for other in [&sanse, &old] {
            refused::<SaneRecord>(&SaneRecord::start().reference, other, [a, m, 16, m], 1);
        }
        play::message(&mut Random::new(1), &mut Record::start(), Some(&sanse), (a, m));
        play::message(&mut Random::new(1), &mut SaneRecord::start(), Some(&sane), (a, m));
    }
}
