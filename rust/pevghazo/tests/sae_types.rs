//! The safe type of a session of old letters: its start, refusals, stored bytes, envelopes, and what is shown.

mod common;

use common::stored;
use pevghazo::{
    Arrival, Envelope, INDEX_MAX, KEY_MAX, KEY_MIN, Letter, NONCE_MAX, Number, Plain, Refusal, SAE_TAG_LENGTH,
    SaeSession, SaneSession, Session, TEXT_MAX, Table, envelope,
};
use pevghazo_reference::session::SaeSession as Trial;

const KEY: &[u8] = b"a key for the tests here";
const NONCE: &[u8] = b"41";
const BLOCK: Plain<'_> = Plain { metadata: b"size C", message: b"12001-12100" };

/// A session under the key and the nonce.
fn start() -> SaeSession {
    SaeSession::start(KEY, NONCE).unwrap().0
}

/// The first version's session under them, by the independent implementation.
fn trial() -> Trial {
    Trial::start(KEY, NONCE, &mut [0; 16]).unwrap().0
}

/// A refusal with no permutation done.
fn refused(number: Number) -> Refusal {
    Refusal { number, count: 0 }
}

/// The bytes of hexadecimal digits.
fn bytes(digits: &str) -> Vec<u8> {
    let digit = |i: usize| u8::from_str_radix(&digits[i..i + 2], 16).unwrap();
    (0..digits.len()).step_by(2).map(digit).collect()
}

#[test]
fn starts_and_their_counts() {
    for (length, blocks) in [(0, 1), (1, 1), (47, 1), (48, 2), (49, 2), (96, 3), (NONCE_MAX, 342)] {
        let nonce = vec![3; length];
        let (session, tag, count) = SaeSession::start(KEY, &nonce).unwrap();
        assert_eq!((count, session.index()), (blocks + 3, blocks + 1), "a nonce of {length} bytes");
        assert_eq!((session.toggle(), session.is_open()), (false, true));
        // A start may be made again: nothing is sealed.
        let (again, same_tag, _) = SaeSession::start(KEY, &nonce).unwrap();
        assert_eq!((&*again.to_bytes(), same_tag), (&*session.to_bytes(), tag));
    }
    let long = [0; NONCE_MAX + 1];
    let number = |key: &[u8], nonce: &[u8]| SaeSession::start(key, nonce).unwrap_err();
    for length in [0, KEY_MIN - 1, KEY_MAX + 1] {
        assert_eq!(number(&vec![0; length], &long), refused(Number::BadKey), "a key of {length} bytes");
    }
    assert_eq!(number(KEY, &long), refused(Number::TooLong));
}

/// The first session of the vectors (`vectors/sae.txt`), whose nonce and first letter have no bytes.
#[test]
fn the_first_vector() {
    let key = bytes("ae947c8d3be9b84b5dcb2583fb0e48bad0003213fe6196cb23ef05c0f474ce");
    let (mut session, tag, count) = SaeSession::start(&key, b"").unwrap();
    assert_eq!((&tag[..], count), (&bytes("4d6ef86b957df5311f9d7a940ab6fcb4")[..], 4));
    assert_eq!((session.index(), session.toggle()), (2, false));
    let letter = [b"F,7,0,0,", &bytes("1aac4534400f92ef158523286a2e644f")[..]].concat();
    let opened = session.open(&letter).unwrap();
    assert_eq!((opened.group, opened.metadata, &opened.message[..], opened.count), (7, &b""[..], &b""[..], 3));
    assert_eq!((session.index(), session.toggle()), (4, false));
}

#[test]
fn refusals_of_a_session() {
    let mut session = start();
    let before = session.to_bytes();
    let mut out = [0xAA; 4];
    let forged = Arrival { metadata: b"", cryptogram: b"123", tag: &[0xBB; SAE_TAG_LENGTH] };
    let long = Arrival { metadata: &[0; TEXT_MAX + 1], ..forged };
    assert_eq!(session.unwrap_to(&long, &mut out), Err(refused(Number::TooLong)));
    assert_eq!(session.unwrap_to(&forged, &mut out[..2]), Err(refused(Number::NoRoom)));
    assert_eq!(out, [0xAA; 4]);
    // Without metadata, 3 bytes in 1 block: 1 + 3 + 1.
    assert_eq!(session.unwrap_to(&forged, &mut out), Err(Refusal { number: Number::WrongTag, count: 5 }));
    assert_eq!(out, [0, 0, 0, 0xAA]);
    assert_eq!(*session.to_bytes(), *before, "refusals leave the session");

    let mut bytes = session.to_bytes().to_vec();
    bytes[96..100].copy_from_slice(&(INDEX_MAX - 1).to_le_bytes());
    let mut full = SaeSession::from_bytes(&bytes).unwrap();
    assert_eq!(full.unwrap(&forged).unwrap_err(), refused(Number::IndexFull));
    let mut closed = SaeSession::from_bytes(&[0; SaeSession::BYTES]).unwrap();
    assert!(!closed.is_open());
    assert_eq!(closed.unwrap(&long).unwrap_err(), refused(Number::NotOpen));
}

/// Wrapping is refused by 18 before all else, and alters neither the session nor a buffer.
#[test]
fn nothing_is_wrapped() {
    let long = Plain { metadata: &[0; TEXT_MAX + 1], message: &[0; TEXT_MAX + 1] };
    let closed = SaeSession::from_bytes(&[0; SaeSession::BYTES]).unwrap();
    for mut session in [start(), closed] {
        let before = session.to_bytes();
        for plain in [BLOCK, long, Plain { metadata: b"", message: b"" }] {
            assert_eq!(session.wrap(&plain).unwrap_err(), refused(Number::ReadOnly));
            let (mut out, mut tag) = ([0xAA; 4], [0xBB; SAE_TAG_LENGTH]);
            assert_eq!(session.wrap_to(&plain, &mut out, &mut tag), Err(refused(Number::ReadOnly)));
            assert_eq!((out, tag), ([0xAA; 4], [0xBB; SAE_TAG_LENGTH]));
        }
        assert_eq!(*session.to_bytes(), *before);
    }
}

/// A box of letters is opened in its order, also one behind the other in one run of bytes, with the session stored in between.
#[test]
fn a_box_of_letters() {
    let (mut trial, mut session) = (trial(), start());
    let texts: Vec<Vec<u8>> = (0..20).map(|i| vec![i; 7 * usize::from(i)]).collect();
    let letters: Vec<_> = (0..).zip(&texts).map(|(group, text)| trial.trial_seal(group, b"size C", text)).collect();
    let all = letters.concat();
    let mut rest = &all[..];
    for (group, (text, letter)) in (0..).zip(texts.iter().zip(&letters)) {
        session = SaeSession::from_bytes(&session.to_bytes()).unwrap();
        let opened = session.open(rest).unwrap();
        assert_eq!((opened.group, opened.metadata, &opened.message), (group, &b"size C"[..], text));
        rest = opened.rest;
        assert_eq!(session.open(letter).unwrap_err().number, Number::WrongTag, "the same letter again");
    }
    assert!(rest.is_empty());
    assert_eq!((session.index(), session.toggle()), (trial.index, trial.toggle));
}

/// A letter that is damaged, repeated, too early or missing is refused, and the right next one still opens.
#[test]
fn letters_out_of_order() {
    let (mut trial, mut session) = (trial(), start());
    let letters = [1, 2, 3].map(|i| trial.trial_seal(7, b"", &[i; 40]));
    let mut damaged = letters[0].clone();
    *damaged.last_mut().unwrap() ^= 1;
    let before = session.to_bytes();
    for wrong in [&damaged, &letters[1], &letters[2]] {
        assert_eq!(session.open(wrong).unwrap_err().number, Number::WrongTag);
    }
    assert_eq!(session.open(&letters[0][..letters[0].len() - 1]).unwrap_err(), refused(Number::TooFewBytes));
    assert_eq!(session.open(&letters[0][1..]).unwrap_err(), refused(Number::BadHeader));
    assert_eq!(*session.to_bytes(), *before, "refusals leave the session");
    for (i, letter) in (1..).zip(&letters) {
        assert_eq!(session.open(letter).unwrap().message, [i; 40]);
        assert_eq!(session.open(letter).unwrap_err().number, Number::WrongTag, "the same once more");
    }
}

/// The header is not under the tag: a letter that names another group opens, and the group is handed out as it stands there. Lengths
/// that were altered get 11, as do letters whose text was moved to the metadata.
#[test]
fn letters_with_another_header() {
    let letter = trial().trial_seal(8, BLOCK.metadata, BLOCK.message);
    let body = letter.strip_prefix(b"F,8,6,11,").unwrap();
    let with = |header: &[u8]| [header, body].concat();
    let readdressed = with(b"F,9,6,11,");
    let mut session = start();
    for header in [&b"F,8,7,10,"[..], b"F,8,5,12,", b"F,8,17,0,", b"F,8,0,17,"] {
        assert_eq!(session.open(&with(header)).unwrap_err().number, Number::WrongTag);
    }
    assert_eq!(session.open(&with(b"F,8,6,12,")).unwrap_err(), refused(Number::TooFewBytes));
    assert_eq!(session.open(&with(b"F,32,6,11,")).unwrap_err(), refused(Number::BadHeader));
    let opened = session.open(&readdressed).unwrap();
    assert_eq!((opened.group, &opened.message[..]), (9, BLOCK.message));
}

/// An envelope that was read goes by its letter and its parts; its header's bytes play no role.
#[test]
fn envelopes_that_were_read() {
    let letter = trial().trial_seal(7, BLOCK.metadata, BLOCK.message);
    let read = envelope::read(&letter).unwrap();
    assert_eq!((read.letter, read.group, read.header), (Letter::F, 7, &b"F,7,6,11,"[..]));
    assert_eq!((read.metadata, read.tag.len(), read.place), (BLOCK.metadata, Letter::F.tag_length(), letter.len()));
    let mut session = start();
    for letter in [Letter::S, Letter::N] {
        assert_eq!(session.unwrap_envelope(&Envelope { letter, ..read }).unwrap_err(), refused(Number::BadHeader));
    }
    let mut out = [0xAA; 12];
    assert_eq!(session.unwrap_envelope_to(&read, &mut out[..10]), Err(refused(Number::NoRoom)));
    let short = Envelope { tag: &read.tag[1..], ..read };
    assert_eq!(session.unwrap_envelope_to(&short, &mut out), Err(refused(Number::BadTagLength)));
    assert_eq!(out, [0xAA; 12]);
    let count = session.unwrap_envelope_to(&Envelope { header: b"", ..read }, &mut out).unwrap();
    assert_eq!((&out[..11], out[11], count), (BLOCK.message, 0xAA, 6));
    assert_eq!(start().unwrap(&read.arrival().unwrap()).unwrap().message, BLOCK.message);
    assert_eq!(start().unwrap_envelope(&read).unwrap().message, BLOCK.message);
}

/// Envelopes of other letters get 1 at a session of old letters, and old letters get 1 everywhere else, also under one key and nonce.
#[test]
fn envelopes_of_the_other_modes() {
    let (mut old, mut sane) = (start(), SaneSession::start(KEY, NONCE).unwrap().0);
    let mut sanse = Session::start(KEY).unwrap().0;
    let mut office = Table::new();
    office.start_day(1_000);
    office.open_group(7, KEY).unwrap();
    let letter = trial().trial_seal(7, BLOCK.metadata, BLOCK.message);
    let before = [old.to_bytes(), sane.to_bytes(), sanse.to_bytes(), office.to_bytes()];
    assert_eq!(sane.open(&letter).unwrap_err(), refused(Number::BadHeader));
    assert_eq!(sanse.open(&letter).unwrap_err(), refused(Number::BadHeader));
    assert_eq!(office.open(&letter).unwrap_err(), refused(Number::BadHeader));
    let (n, s) = ([b"N", &letter[1..]].concat(), [b"S", &letter[1..], &[0; 16]].concat());
    for other in [&n, &s] {
        assert_eq!(old.open(other).unwrap_err(), refused(Number::BadHeader));
        assert_eq!(SaeSession::from_bytes(&[0; 102]).unwrap().open(other).unwrap_err(), refused(Number::BadHeader));
    }
    assert_eq!(
        sane.open(&n).unwrap_err().number,
        Number::WrongTag,
        "the letter alone does not make it a message of SANE"
    );
    assert_eq!(sane.unwrap(&envelope::read(&n).unwrap().arrival().unwrap()).unwrap_err().number, Number::WrongTag);
    let after = [old.to_bytes(), sane.to_bytes(), sanse.to_bytes(), office.to_bytes()];
    assert!(before.iter().zip(&after).all(|(before, after)| **before == **after), "refusals leave everything");
    // The other way round: what SANE has sealed, with an F in the place of its letter.
    let sealed = sane.seal(7, &BLOCK).unwrap().envelope;
    let as_f = [b"F", &sealed[1..]].concat();
    assert_eq!(old.open(&as_f).unwrap_err().number, Number::WrongTag);
    assert_eq!(old.open(&letter).unwrap().message, BLOCK.message);
}

/// Writing an envelope or a header with the letter F is refused by 18 before all else.
#[test]
fn no_envelope_is_written() {
    let long = [0; TEXT_MAX + 1];
    for (group, text, tag) in [(7, &b"12001"[..], &[0; 16][..]), (32, &long, &[0; 32]), (u32::MAX, b"", b"")] {
        assert_eq!(envelope::write(Letter::F, group, text, text, tag), Err(refused(Number::ReadOnly)));
        let plain = Plain { metadata: text, message: text };
        assert_eq!(envelope::write_header(Letter::F, group, &plain), Err(refused(Number::ReadOnly)));
        for room in [0, 100, 40_000] {
            let mut out = vec![0xAA; room];
            let written = envelope::write_to(Letter::F, group, text, text, tag, &mut out);
            assert_eq!(written, Err(refused(Number::ReadOnly)));
            assert!(out.iter().all(|byte| *byte == 0xAA));
        }
    }
}

#[test]
fn stored_bytes_are_checked() {
    let bytes = start().to_bytes();
    assert_eq!(bytes.len(), SaeSession::BYTES);
    stored::are_checked(&bytes, SaeSession::from_bytes, |session| {
        (session.to_bytes().to_vec(), session.index(), session.toggle(), session.is_open())
    });
}

#[test]
fn secrets_are_not_shown() {
    let session = start();
    assert_eq!(format!("{session:?}"), "SaeSession { open: true, index: 2, toggle: false, .. }");
    assert_eq!(format!("{:?}", session.to_bytes()), "Secret(102 bytes)");
}

/// The library has no globals, so sessions go from thread to thread; one call at a time is what `&mut` says.
#[test]
fn sessions_go_to_other_threads() {
    fn checked<T: Send + Sync>() {}
    checked::<SaeSession>();
}
