//! The repository's vectors of sessions and codes: every field of every record, by the session's record and by its ledger.

mod common;

use std::collections::HashMap;

use common::{Record as Vector, records};
use pevghazo_reference::bits;
use pevghazo_reference::codes::CODE;
use pevghazo_reference::deck::xoofff;
use pevghazo_reference::ledger::{Algorithm, Ledger, LedgerOf, SaeLedger, SaneLedger};
use pevghazo_reference::refusal::{Number, Refusal};
use pevghazo_reference::sae::Sae;
use pevghazo_reference::sane::Sane;
use pevghazo_reference::sanse::Sanse;
use pevghazo_reference::session::{Record, SaeSession, SaneSession, Session};

/// One end of a session, kept twice: as a record and as a ledger.
#[derive(Clone)]
struct End<M> {
    session: Record<M>,
    ledger: LedgerOf<M>,
}

/// Starts a session of SANSE.
fn start(vector: &Vector) -> End<Sanse> {
    let key = vector.bytes("key");
    let session = Session::start(&key).expect("a good key");
    let ledger = Ledger::start(&key, xoofff).expect("a good key");
    assert_eq!(vector.number("count") as u32, Session::START_COUNT, "line {}", vector.line);
    End { session, ledger }
}

/// Checks the counts and the tags of a start with a nonce.
fn check_start(vector: &Vector, counts: [u32; 2], tags: [[u8; 16]; 2]) {
    assert_eq!(counts, [vector.number("count") as u32; 2], "count, line {}", vector.line);
    assert!(tags.iter().all(|tag| *tag == vector.bytes("T")[..]), "T, line {}", vector.line);
}

/// Starts a session of SANE.
fn sane_start(vector: &Vector) -> End<Sane> {
    let (key, nonce, mut tag) = (vector.bytes("key"), vector.bytes("nonce"), [[0; 16]; 2]);
    let (session, count) = SaneSession::start(&key, &nonce, &mut tag[0]).expect("a good start");
    let (ledger, counted) = SaneLedger::start(&key, &nonce, &mut tag[1], xoofff).expect("a good start");
    check_start(vector, [count, counted], tag);
    End { session, ledger }
}

/// Starts a session of old letters.
fn sae_start(vector: &Vector) -> End<Sae> {
    let (key, nonce, mut tag) = (vector.bytes("key"), vector.bytes("nonce"), [[0; 16]; 2]);
    let (session, count) = SaeSession::start(&key, &nonce, &mut tag[0]).expect("a good start");
    let (ledger, counted) = SaeLedger::start(&key, &nonce, &mut tag[1], xoofff).expect("a good start");
    check_start(vector, [count, counted], tag);
    End { session, ledger }
}

/// A scheme whose vectors have wraps: those of its mode, or of the first version.
trait Wraps: Algorithm {
    /// Wraps by the record and by the ledger, into two buffers each.
    fn both_wrap(
        end: &mut End<Self>,
        a: &[u8],
        m: &[u8],
        out: &mut [Vec<u8>; 2],
        tag: &mut [Vec<u8>; 2],
    ) -> [Answer; 2];
}

/// What a call answers.
type Answer = Result<u32, Refusal>;

/// The wraps of a scheme are these calls.
macro_rules! wraps {
    ($scheme:ty, $wrap:ident) => {
        impl Wraps for $scheme {
            fn both_wrap(
                end: &mut End<Self>,
                a: &[u8],
                m: &[u8],
                out: &mut [Vec<u8>; 2],
                tag: &mut [Vec<u8>; 2],
            ) -> [Answer; 2] {
                let session = end.session.$wrap(a, m, &mut out[0], &mut tag[0]);
                [session, end.ledger.$wrap(a, m, &mut out[1], &mut tag[1])]
            }
        }
    };
}

wraps!(Sanse, wrap);
wraps!(Sane, wrap);
wraps!(Sae, trial_wrap);

impl<M: Wraps> End<M> {
    /// Checks the record against the fields after a call.
    fn check(&self, vector: &Vector) {
        assert_eq!(usize::from(self.session.toggle), vector.number("e"), "e, line {}", vector.line);
        self.check_history(vector);
    }

    /// Checks what the history has left behind.
    fn check_history(&self, vector: &Vector) {
        let (session, line) = (&self.session, vector.line);
        assert!(session.open, "line {line}");
        assert_eq!(session.index as usize, vector.number("index"), "index, line {line}");
        assert_eq!(session.accumulator, vector.state("acc"), "acc, line {line}");
        assert_eq!(session.mask, vector.state("mask"), "mask, line {line}");
        assert_eq!(self.ledger.record(), *session, "the ledger's record, line {line}");
    }

    /// Wraps.
    fn wrap(&mut self, vector: &Vector) {
        let line = vector.line;
        let (metadata, message) = (vector.bytes("A"), vector.bytes("M"));
        let mut out = [buffer(message.len()), buffer(message.len())];
        let mut tag = [vec![0; M::TAG], vec![0; M::TAG]];
        let answers = M::both_wrap(self, &metadata, &message, &mut out, &mut tag);
        assert_eq!(answers, [Ok(vector.number("count") as u32); 2], "line {line}");
        for (out, tag) in out.iter().zip(tag) {
            assert_eq!(*out, [&vector.bytes("C")[..], &REST].concat(), "C, line {line}");
            assert_eq!(tag, vector.bytes("T"), "T, line {line}");
        }
        self.check(vector);
    }

    /// Unwraps, and gives whether it was accepted.
    fn unwrap(&mut self, vector: &Vector) -> bool {
        let (line, count) = (vector.line, vector.number("count") as u32);
        let (metadata, cryptogram, tag) = (vector.bytes("A"), vector.bytes("C"), vector.bytes("T"));
        let accepted = vector.text("result") == "ok";
        assert!(accepted || (vector.text("result") == "tag" && !vector.has("M")), "line {line}");
        let message = if accepted { vector.bytes("M") } else { vec![0; cryptogram.len()] };
        let expected = if accepted { Ok(count) } else { Err(Refusal { number: Number::Tag, count }) };
        let mut out = [buffer(message.len()), buffer(message.len())];
        let answer = self.session.unwrap(&metadata, &cryptogram, &tag, &mut out[0]);
        assert_eq!(answer, expected, "line {line}");
        assert_eq!(self.ledger.unwrap(&metadata, &cryptogram, &tag, &mut out[1]), expected, "line {line}");
        for out in out {
            assert_eq!(out, [&message[..], &REST].concat(), "M, line {line}");
        }
        self.check(vector);
        accepted
    }
}

/// What stands in an output buffer behind the text, and must stay.
const REST: [u8; 3] = [0xA5; 3];

/// An output buffer for a text of this length, with some bytes more.
fn buffer(length: usize) -> Vec<u8> {
    vec![0xA5; length + REST.len()]
}

/// What was played of the sessions: end a of each after its last record, and the accepted wraps, the accepted unwraps and the
/// refused ones.
struct Played<M> {
    ends: HashMap<usize, End<M>>,
    wraps: u32,
    accepted: u32,
    refused: u32,
}

/// Plays the sessions of a file at both ends, with every field of every record checked.
fn play<M: Wraps>(file: &str, start: impl Fn(&Vector) -> End<M>) -> Played<M> {
    let mut played = Played { ends: HashMap::new(), wraps: 0, accepted: 0, refused: 0 };
    let mut end_b = None;
    for vector in &records(file) {
        let session = vector.number("session");
        if vector.text("op") == "start" {
            let end = start(vector);
            end.check(vector);
            end_b = Some(end.clone());
            played.ends.insert(session, end);
            continue;
        }
        let end = match vector.text("end") {
            "a" => played.ends.get_mut(&session),
            "b" => end_b.as_mut(),
            end => panic!("line {}: which end is {end}?", vector.line),
        };
        let end = end.expect("an end that was started");
        match vector.text("op") {
            "wrap" => {
                end.wrap(vector);
                played.wraps += 1;
            }
            "unwrap" if end.unwrap(vector) => played.accepted += 1,
            "unwrap" => played.refused += 1,
            op => panic!("line {}: what is {op}?", vector.line),
        }
    }
    played
}

#[test]
fn sessions() {
    let played = play("sanse.txt", start);
    assert!(played.wraps > 0 && played.accepted > 0 && played.refused > 0);
}

#[test]
fn sane_sessions() {
    let played = play("sane.txt", sane_start);
    assert_eq!((played.ends.len(), played.wraps, played.accepted, played.refused), (10, 43, 43, 21));
}

/// The wraps of the file are the first version's.
#[test]
fn old_letters() {
    let played = play("sae.txt", sae_start);
    assert_eq!((played.ends.len(), played.wraps, played.accepted, played.refused), (5, 23, 23, 10));
}

#[test]
fn codes() {
    let ends = play("sanse.txt", start).ends;
    for vector in &records("codes.txt") {
        let line = vector.line;
        let end = &ends[&vector.number("session")];
        assert_eq!(end.ledger.key, vector.bytes("key"), "key, line {line}");
        end.check_history(vector);
        let (packet, count) = (vector.number("p") as u32, vector.number("count") as u32);
        let mut by_bits = Ledger::start(&end.ledger.key, bits::xoofff).unwrap();
        by_bits.history = end.ledger.history.clone();
        let expected = [&vector.bytes("code")[..], &REST].concat();
        let mut out = [buffer(CODE), buffer(CODE), buffer(CODE)];
        assert_eq!(end.session.code(packet, &mut out[0]), Ok(count), "line {line}");
        assert_eq!(end.ledger.code(packet, &mut out[1]), Ok(count), "by the history, line {line}");
        assert_eq!(by_bits.code(packet, &mut out[2]), Ok(count), "by bits, line {line}");
        assert!(out.iter().all(|out| *out == expected), "code, line {line}");
    }
}
