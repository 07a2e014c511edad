//! The sessions and codes of the repository's vectors through the C library: each end of SANSE as a lone session, and as a
//! group's session in a table; each end of SANE as a lone session; all of these with calls that take a block at a time, with calls by
//! four, and with each end by its own choice; and old letters, whose wraps are the first version's.

mod common;
#[path = "../../reference/tests/common/mod.rs"]
mod vectors;

use std::collections::HashMap;

use common::tables::{unwrap_group, wrap_group};
use common::{By, Held, Library, answer_of};
use pevghazo::raw::{self, Answer, GroupRecord, Record, SaeRecord, SaneRecord};
use pevghazo_reference::session::{Scheme, Session};
use vectors::{Record as Vector, records};

/// One end of a session, wherever its record stands.
trait End {
    /// The kind of record.
    type Record: Held;

    /// The record; whatever stands beside it is as it should be.
    fn record(&self) -> &Self::Record;

    /// Wraps.
    fn wrap(&mut self, metadata: &[u8], message: &[u8], out: &mut [u8], tag: &mut [u8]) -> Answer;

    /// Unwraps.
    fn unwrap(&mut self, metadata: &[u8], cryptogram: &[u8], tag: &[u8], out: &mut [u8]) -> Answer;
}

/// A lone session, and by which of the library's functions it wraps and unwraps.
struct Lone<R>(R, By);

impl<R: Library> End for Lone<R> {
    type Record = R;

    fn record(&self) -> &R {
        &self.0
    }

    fn wrap(&mut self, metadata: &[u8], message: &[u8], out: &mut [u8], tag: &mut [u8]) -> Answer {
        self.0.wrap_for(self.1, None, metadata, message, out, tag)
    }

    fn unwrap(&mut self, metadata: &[u8], cryptogram: &[u8], tag: &[u8], out: &mut [u8]) -> Answer {
        self.0.unwrap_for(self.1, None, metadata, cryptogram, tag, out)
    }
}

/// A session of old letters. The library wraps none, and alters nothing where it is asked to; the first version's wrap is made by the
/// reference.
struct Old(SaeRecord);

impl End for Old {
    type Record = SaeRecord;

    fn record(&self) -> &SaeRecord {
        &self.0
    }

    fn wrap(&mut self, metadata: &[u8], message: &[u8], out: &mut [u8], tag: &mut [u8]) -> Answer {
        let mut session = self.0.reference();
        let before = (session.clone(), out.to_vec(), tag.to_vec());
        let refused = raw::sae_wrap(&mut self.0, metadata, message, out, tag);
        assert_eq!(refused, Answer { number: 18, count: 0 });
        assert!((self.0.reference(), out.to_vec(), tag.to_vec()) == before, "a wrap has altered something");
        let answer = session.trial_wrap(metadata, message, out, tag);
        self.0 = SaeRecord::of(&session);
        answer_of(answer)
    }

    fn unwrap(&mut self, metadata: &[u8], cryptogram: &[u8], tag: &[u8], out: &mut [u8]) -> Answer {
        raw::sae_unwrap(&mut self.0, metadata, cryptogram, tag, out)
    }
}

/// A group's session in a table, by which of the library's functions it wraps and unwraps, the allowance, and what the group has
/// counted so far.
struct InTable {
    by: By,
    table: Vec<GroupRecord>,
    group: u32,
    allowance: u32,
    counted: u32,
}

impl InTable {
    /// Adds the count of an answer, as the group's record does.
    fn take(&mut self, given: Answer) -> Answer {
        self.counted += given.count;
        assert_eq!(self.table[self.group as usize].count, self.counted, "the group's count");
        given
    }
}

impl End for InTable {
    type Record = Record;

    fn record(&self) -> &Record {
        let is_closed = |record: &&GroupRecord| record.session.reference() == Session::CLOSED && record.count == 0;
        let closed = self.table.iter().filter(is_closed).count();
        assert_eq!((self.table.len(), closed), (32, 31), "the other groups");
        &self.table[self.group as usize].session
    }

    fn wrap(&mut self, metadata: &[u8], message: &[u8], out: &mut [u8], tag: &mut [u8]) -> Answer {
        let at = (self.group, self.allowance);
        let given = wrap_group(self.by, &mut self.table, at, None, [metadata, message], [out, tag]);
        self.take(given)
    }

    fn unwrap(&mut self, metadata: &[u8], cryptogram: &[u8], tag: &[u8], out: &mut [u8]) -> Answer {
        let at = (self.group, self.allowance);
        let given = unwrap_group(self.by, &mut self.table, at, None, [metadata, cryptogram, tag], out);
        self.take(given)
    }
}

/// Starts a lone session.
fn lone(vector: &Vector, by: By) -> (Lone<Record>, Answer) {
    let mut record = Record::closed();
    let answer = raw::start(&mut record, &vector.bytes("key"));
    (Lone(record, by), answer)
}

/// Opens a group.
fn in_table(vector: &Vector, by: By) -> (InTable, Answer) {
    let mut table: Vec<GroupRecord> = (0..32).map(|_| GroupRecord::closed()).collect();
    let allowance = raw::start_day(&mut table, 1_000_000);
    let mut end = InTable { by, table, group: vector.number("session") as u32 % 32, allowance, counted: 0 };
    let given = raw::open_group(&mut end.table, end.group, allowance, &vector.bytes("key"));
    let answer = end.take(given);
    (end, answer)
}

/// Starts a lone session of SANE.
fn sane(vector: &Vector, by: By) -> (Lone<SaneRecord>, Answer) {
    let (mut record, mut tag) = (SaneRecord::closed(), [0; 16]);
    let answer = raw::sane_start(&mut record, &vector.bytes("key"), &vector.bytes("nonce"), &mut tag);
    assert_eq!(tag[..], vector.bytes("T"), "T, line {}", vector.line);
    (Lone(record, by), answer)
}

/// Starts a session of old letters, which has no calls by four.
fn old(vector: &Vector, _: By) -> (Old, Answer) {
    let (mut record, mut tag) = (SaeRecord::closed(), [0; 16]);
    let answer = raw::sae_start(&mut record, &vector.bytes("key"), &vector.bytes("nonce"), &mut tag);
    assert_eq!(tag[..], vector.bytes("T"), "T, line {}", vector.line);
    (Old(record), answer)
}

/// What stands in an output buffer behind the text, and must stay.
const REST: [u8; 3] = [0xA5; 3];

/// An output buffer for a text of this length, with some bytes more.
fn buffer(length: usize) -> Vec<u8> {
    vec![0xA5; length + REST.len()]
}

/// What the history has left behind is the vector's.
fn check_history<E: End>(end: &E, vector: &Vector) {
    let (record, line) = (end.record().reference(), vector.line);
    assert!(record.open, "line {line}");
    assert_eq!(record.index as usize, vector.number("index"), "index, line {line}");
    assert_eq!(record.accumulator, vector.state("acc"), "acc, line {line}");
    assert_eq!(record.mask, vector.state("mask"), "mask, line {line}");
}

/// Number, count and record are those of the vector.
fn check<E: End>(end: &E, vector: &Vector, answer: Answer, number: u32) {
    let (line, count) = (vector.line, vector.number("count") as u32);
    assert_eq!(answer, Answer { number, count }, "line {line}");
    assert_eq!(usize::from(end.record().reference().toggle), vector.number("e"), "e, line {line}");
    check_history(end, vector);
}

/// Wraps.
fn wrap<E: End>(end: &mut E, vector: &Vector) {
    let (metadata, message) = (vector.bytes("A"), vector.bytes("M"));
    let mut out = buffer(message.len());
    let mut tag = vec![0; <E::Record as Held>::Mode::TAG];
    let answer = end.wrap(&metadata, &message, &mut out, &mut tag);
    check(end, vector, answer, 0);
    assert_eq!(out, [&vector.bytes("C")[..], &REST].concat(), "C, line {}", vector.line);
    assert_eq!(tag, vector.bytes("T"), "T, line {}", vector.line);
}

/// Unwraps, and gives whether it was accepted.
fn unwrap<E: End>(end: &mut E, vector: &Vector) -> bool {
    let (metadata, cryptogram, tag) = (vector.bytes("A"), vector.bytes("C"), vector.bytes("T"));
    let (number, message) = match vector.text("result") {
        "ok" => (0, vector.bytes("M")),
        "tag" => (11, vec![0; cryptogram.len()]),
        result => panic!("line {}: what is {result}?", vector.line),
    };
    let (mut out, before) = (buffer(message.len()), end.record().reference());
    let answer = end.unwrap(&metadata, &cryptogram, &tag, &mut out);
    check(end, vector, answer, number);
    assert_eq!(out, [&message[..], &REST].concat(), "M, line {}", vector.line);
    assert!(
        number == 0 || end.record().reference() == before,
        "a refusal has altered the record, line {}",
        vector.line
    );
    number == 0
}

/// What was played of the sessions: end a of each after its last record, with its key, and the wraps, the accepted unwraps and
/// the refused ones.
struct Played<E> {
    ends: HashMap<usize, (Vec<u8>, E)>,
    wraps: u32,
    accepted: u32,
    refused: u32,
}

/// Plays the sessions of a file at both ends, which have these choices, with every field of every record checked.
fn play<E: End>(file: &str, choices: [By; 2], start: impl Fn(&Vector, By) -> (E, Answer)) -> Played<E> {
    let mut played = Played { ends: HashMap::new(), wraps: 0, accepted: 0, refused: 0 };
    let mut end_b = None;
    for vector in &records(file) {
        let session = vector.number("session");
        if vector.text("op") == "start" {
            let [end_a, other] = choices.map(|by| {
                let (end, answer) = start(vector, by);
                check(&end, vector, answer, 0);
                end
            });
            played.ends.insert(session, (vector.bytes("key"), end_a));
            end_b = Some(other);
            continue;
        }
        let end = match vector.text("end") {
            "a" => played.ends.get_mut(&session).map(|(_, end)| end),
            "b" => end_b.as_mut(),
            end => panic!("line {}: which end is {end}?", vector.line),
        };
        let end = end.expect("a session that was started");
        match vector.text("op") {
            "wrap" => {
                wrap(end, vector);
                played.wraps += 1;
            }
            "unwrap" if unwrap(end, vector) => played.accepted += 1,
            "unwrap" => played.refused += 1,
            op => panic!("line {}: what is {op}?", vector.line),
        }
    }
    played
}

/// A file's sessions, wraps, accepted unwraps and refused ones, counted by its fields.
fn counted(file: &str) -> [usize; 4] {
    let all = records(file);
    let count = |name: &str, value: &str| all.iter().filter(|v| v.has(name) && v.text(name) == value).count();
    [count("op", "start"), count("op", "wrap"), count("result", "ok"), count("result", "tag")]
}

impl<E> Played<E> {
    /// All records of the file were played.
    fn check(&self, file: &str) {
        let played = [self.wraps, self.accepted, self.refused].map(|n| n as usize);
        assert_eq!([&[self.ends.len()], &played[..]].concat(), counted(file));
        assert!(counted(file).iter().all(|n| *n > 0));
    }
}

/// The choices of the two ends: the same, and each its own.
const CHOICES: [[By; 2]; 4] = [[By::One, By::One], [By::Four, By::Four], [By::One, By::Four], [By::Four, By::One]];

#[test]
fn sessions() {
    for choices in CHOICES {
        play("sanse.txt", choices, lone).check("sanse.txt");
        play("sanse.txt", choices, in_table).check("sanse.txt");
    }
}

#[test]
fn sane_sessions() {
    for choices in CHOICES {
        play("sane.txt", choices, sane).check("sane.txt");
    }
}

#[test]
fn old_letters() {
    play("sae.txt", CHOICES[0], old).check("sae.txt");
}

/// The codes of sessions that were played.
fn check_codes<E: End<Record = Record>>(played: &Played<E>) {
    for vector in &records("codes.txt") {
        let line = vector.line;
        let (key, end) = &played.ends[&vector.number("session")];
        assert_eq!(*key, vector.bytes("key"), "key, line {line}");
        check_history(end, vector);
        let mut out = buffer(8);
        let answer = raw::code(end.record(), vector.number("p") as u32, &mut out);
        assert_eq!(answer, Answer { number: 0, count: vector.number("count") as u32 }, "line {line}");
        assert_eq!(out, [&vector.bytes("code")[..], &REST].concat(), "code, line {line}");
        check_history(end, vector);
    }
}

#[test]
fn codes() {
    for by in By::EACH {
        check_codes(&play("sanse.txt", [by; 2], lone));
        check_codes(&play("sanse.txt", [by; 2], in_table));
    }
}
