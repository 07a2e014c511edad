//! Old letters: the record against the ledger, on random inputs and at the edges of nonces, counts and letters; what is refused; and
//! how they differ from messages of SANE.

mod ends;

use ends::{End, both_ends, flipped, key, number, random_sessions, random_sessions_on_bits, text};
use pevghazo_reference::deck::{Deck, Text, pad, xoofff};
use pevghazo_reference::envelope::{SAE_LETTER, read};
use pevghazo_reference::ledger::DeckFunction;
use pevghazo_reference::limits::{INDEX_MAX, LENGTH_MAX};
use pevghazo_reference::random::Random;
use pevghazo_reference::refusal::{Number, Refusal};
use pevghazo_reference::sae::{CRYPTOGRAM_FRAME, METADATA_FRAME, Sae};
use pevghazo_reference::sane::{NONCE_FRAME, count};
use pevghazo_reference::session::{Record, SaeSession, SaneSession, Scheme, growth};

/// The first version's end and the product's, whose starts give one tag.
fn started(key: &[u8], nonce: &[u8], deck: DeckFunction) -> [End<Sae>; 2] {
    both_ends(|tag| End::<Sae>::start(key, nonce, tag, deck))
}

/// One letter from the first version to the product, damaged and repeated ones among it, and a wrap at the product's end.
fn letter(random: &mut Random, [from, to]: &mut [End<Sae>; 2], longest: usize) {
    let (a, m) = (text(random, longest), text(random, longest));
    let count = count(a.len(), m.len());
    let (mut c, mut tag) = (random.bytes(m.len() + random.clone().below(3)), random.bytes(16));
    assert_eq!(from.trial_wrap(&a, &m, &mut c, &mut tag), Ok(count));
    let c = &c[..m.len()];
    let mut out = random.bytes(m.len() + random.clone().below(3));
    let wrong = Err(Refusal { number: Number::Tag, count });
    for place in 0..3 {
        let mut parts = [&a, c, &tag].map(<[u8]>::to_vec);
        if !parts[place].is_empty() {
            parts[place] = flipped(random, &parts[place]);
            assert_eq!(to.unwrap(&parts[0], &parts[1], &parts[2], &mut out), wrong);
        }
    }
    assert_eq!(number(to.refused_wrap(&a, &m, &mut out, &mut [7; 16])), Number::ReadOnly);
    assert_eq!(to.unwrap(&a, c, &tag, &mut out), Ok(count));
    assert_eq!((&out[..m.len()], &from.session), (&m[..], &to.session));
    assert!(!to.session.toggle);
    assert_eq!(to.unwrap(&a, c, &tag, &mut out), wrong);
}

/// Plays one random session.
fn play(random: &mut Random, letters: usize, longest: usize, deck: DeckFunction) {
    let (key, nonce) = (key(random), text(random, longest));
    let mut ends = started(&key, &nonce, deck);
    for _ in 0..letters {
        letter(random, &mut ends, longest);
    }
}

#[test]
fn random_sessions_against_the_ledger() {
    random_sessions(10, play);
}

#[test]
fn random_sessions_against_the_ledger_on_bits() {
    random_sessions_on_bits(11, play);
}

/// Closing bytes, by hand from the paper's frame bits: nonce 1, metadata 2, cryptogram 3. Counts, by hand from document 02.
#[test]
fn table_of_edges() {
    for length in [0, 1, 46, 47, 48, 100] {
        let after = |frame: &[bool]| pad(&vec![0xFF; length], frame)[length];
        assert_eq!([after(&NONCE_FRAME), after(&METADATA_FRAME), after(&CRYPTOGRAM_FRAME)], [1, 2, 3]);
    }
    let counts = [(0, 0), (0, 1), (20, 48), (16_384, 16_384), (0, 32), (0, 33)].map(|(a, m)| Sae::count(a, m));
    assert_eq!(counts, [3, 5, 8, 1_029, 5, 6]);
    for (nonce, expected) in [(0, 4), (47, 4), (48, 5), (16_384, 345)] {
        assert_eq!(SaeSession::start(&[1; 16], &vec![2; nonce], &mut [0; 16]).unwrap().1, expected);
    }
}

/// The history of three letters, written down by hand, gives the record, the tags and the keystream.
#[test]
fn a_history_by_hand() {
    let key = [5; 32];
    let mut session = SaeSession::start(&key, b"nonce", &mut [0; 16]).unwrap().0;
    let mut history = vec![Text::new(b"nonce", &[])];
    for (metadata, message) in [(&b"size C"[..], &b"12001-12100"[..]), (b"", b"12096"), (b"", b"")] {
        let keystream = xoofff(&key, &history, 16, message.len());
        let cryptogram: Vec<u8> = message.iter().zip(keystream).map(|(text, stream)| text ^ stream).collect();
        if metadata.len() + message.len() != 5 {
            history.push(Text::new(metadata, &[false]));
        }
        if !message.is_empty() {
            history.push(Text::new(&cryptogram, &[true]));
        }
        let (mut out, mut tag) = (vec![0; message.len()], [0; 16]);
        session.trial_wrap(metadata, message, &mut out, &mut tag).unwrap();
        assert_eq!((out, &tag[..]), (cryptogram, &xoofff(&key, &history, 0, 16)[..]));
        let deck = Deck::of(&key, &history);
        assert_eq!((session.accumulator, session.mask), (deck.accumulator, deck.mask));
        assert_eq!((u64::from(session.index), session.toggle), (deck.index, false));
    }
    assert_eq!(history.len(), 5);
}

#[test]
fn letters_and_nonces_at_the_edges() {
    let mut random = Random::new(12);
    for (nonce, index) in [(0, 2), (47, 2), (48, 3), (16_384, 343)] {
        let nonce = random.bytes(nonce);
        let mut ends = started(&[5; 47], &nonce, xoofff);
        assert_eq!((ends[0].session.index, ends[0].session.toggle, ends[0].session.open), (index, false, true));
        for (a, m) in [0, 20, 16_384].into_iter().flat_map(|a| [0, 1, 31, 32, 33, 47, 48, 49, 16_384].map(|m| (a, m))) {
            let (metadata, message, before) = (random.bytes(a), random.bytes(m), ends[0].session.index);
            let (mut cryptogram, mut tag, mut back) = (random.bytes(m), [0; 16], random.bytes(m));
            assert_eq!(ends[0].trial_wrap(&metadata, &message, &mut cryptogram, &mut tag), Ok(count(a, m)));
            assert_eq!(ends[1].unwrap(&metadata, &cryptogram, &tag, &mut back), Ok(count(a, m)));
            assert_eq!((back, ends[0].session.index), (message, before + growth(a, m)));
        }
        assert_eq!(ends[0].session, ends[1].session);
    }
}

#[test]
fn starts_are_refused_in_their_order() {
    let long = vec![0; LENGTH_MAX + 1];
    let number = |key: &[u8], nonce: &[u8], tag: &mut [u8]| End::<Sae>::start(key, nonce, tag, xoofff).err();
    for length in [0, 15, 48] {
        assert_eq!(number(&vec![1; length], &long, &mut [7; 15]), Some(Number::Key));
        assert_eq!(number(&vec![1; length], &[], &mut [7; 16]), Some(Number::Key));
    }
    for length in [16, 47] {
        assert_eq!(number(&vec![1; length], &long, &mut [7; 15]), Some(Number::TooLong));
        for tag in [0, 15, 17, 32] {
            assert_eq!(number(&vec![1; length], &long[1..], &mut vec![7; tag]), Some(Number::TagLength));
        }
        assert_eq!(number(&vec![1; length], &long[1..], &mut [7; 16]), None);
    }
}

/// Unwraps meet 5 to 9 in this order; a wrap gets 18 of any record and with any lengths.
#[test]
fn refusals_come_in_their_order() {
    let long = &vec![0; LENGTH_MAX + 1];
    let mut end = End::<Sae>::start(&[9; 16], b"nonce", &mut [0; 16], xoofff).unwrap().0;
    let mut out = vec![1; 10];
    assert_eq!(number(end.unwrap(long, &[0; 11], &[2; 15], &mut out)), Number::TooLong);
    assert_eq!(number(end.unwrap(&[], long, &[2; 16], &mut out)), Number::TooLong);
    for length in [0, 15, 17, 32] {
        assert_eq!(number(end.unwrap(&[], &[0; 11], &vec![2; length], &mut out)), Number::TagLength);
    }
    assert_eq!(number(end.unwrap(&[], &[0; 11], &[2; 16], &mut out)), Number::Buffer);
    let open = Record { toggle: true, index: u32::MAX, ..end.session.clone() };
    for mut session in [Record { open: false, ..open.clone() }, open, SaeSession::CLOSED] {
        let before = session.clone();
        if !session.open {
            assert_eq!(number(session.unwrap(long, &[0; 11], &[2; 15], &mut out)), Number::Closed);
        }
        for (a, m, tag) in [(0, 0, 16), (LENGTH_MAX + 1, 11, 16), (6, LENGTH_MAX + 1, 0), (6, 11, 32)] {
            let answer = session.wrap(&long[..a], &long[..m], &mut out, &mut vec![2; tag]);
            assert_eq!(number(answer), Number::ReadOnly);
        }
        assert_eq!((session, &out[..]), (before, &[1; 10][..]));
    }
}

/// Number 9, at the limit and above it, of the product's unwrap and the first version's wrap.
#[test]
fn index_stops_at_its_limit() {
    let started = SaeSession::start(&[1; 47], &[], &mut [0; 16]).unwrap().0;
    for (index, a, m, fits) in [
        (INDEX_MAX - 2, 0, 0, true),
        (INDEX_MAX - 1, 0, 0, false),
        (INDEX_MAX - 5, 20, 48, true),
        (INDEX_MAX - 4, 20, 48, false),
        (u32::MAX, LENGTH_MAX, LENGTH_MAX, false),
    ] {
        let session = Record { index, ..started.clone() };
        let (mut here, mut there) = (session.clone(), session.clone());
        let (metadata, mut c, mut tag) = (vec![3; a], vec![0; m], [0; 16]);
        let answer = here.trial_wrap(&metadata, &vec![4; m], &mut c, &mut tag);
        assert_eq!(there.unwrap(&metadata, &c, &tag, &mut vec![0; m]), answer);
        if fits {
            assert_eq!((answer, here.index, &here), (Ok(count(a, m)), INDEX_MAX, &there));
        } else {
            assert_eq!((answer, &here, &there), (Err(Number::Full.into()), &session, &session));
        }
    }
}

/// What the toggle of SANE is for, and SAE does not have: a letter of metadata and the letter of a text after it leave the session of
/// one letter with both. Put together, with the second one's tag, they are accepted, and another text comes out.
#[test]
fn two_letters_are_one() {
    let [mut from, mut to] = started(&[9; 16], b"1", xoofff);
    let (mut cryptogram, mut tag, mut out) = ([0; 11], [0; 16], [0; 11]);
    from.trial_wrap(b"size C", b"", &mut [], &mut tag).unwrap();
    from.trial_wrap(b"", b"12001-12100", &mut cryptogram, &mut tag).unwrap();
    assert_eq!(to.unwrap(b"size C", &cryptogram, &tag, &mut out), Ok(count(6, 11)));
    assert_eq!(to.session, from.session);
    assert_ne!(&out, b"12001-12100");
}

/// A letter's envelope has the letter F and the parts of the first version's wrap.
#[test]
fn envelopes_of_letters() {
    let [mut from, mut to] = started(&[9; 16], b"1", xoofff);
    let bytes = from.session.trial_seal(7, b"size C", b"12001-12100");
    assert!(bytes.starts_with(b"F,7,6,11,size C"));
    let parts = read(&bytes).unwrap();
    assert_eq!((parts.letter, parts.group, parts.place), (SAE_LETTER, 7, bytes.len()));
    let mut out = [0; 11];
    assert_eq!(to.unwrap(parts.metadata, parts.cryptogram, parts.tag, &mut out), Ok(count(6, 11)));
    assert_eq!((&out, to.session), (b"12001-12100", from.session));
}

/// Under one key and one nonce the starts are the same, and neither opens what the other wrapped.
#[test]
fn letters_are_no_messages_of_sane() {
    for (a, m) in [(&b""[..], &b""[..]), (b"size C", b""), (b"", b"12001"), (b"size C", b"12001")] {
        let mut tags = [[0; 16]; 2];
        let mut sae = SaeSession::start(&[9; 16], b"1", &mut tags[0]).unwrap().0;
        let mut sane = SaneSession::start(&[9; 16], b"1", &mut tags[1]).unwrap().0;
        assert_eq!((tags[0], sae.accumulator), (tags[1], sane.accumulator));
        let wrong = Err(Refusal { number: Number::Tag, count: count(a.len(), m.len()) });
        let (mut c, mut tag, mut out) = (vec![0; m.len()], [0; 16], vec![0; m.len()]);
        sae.clone().trial_wrap(a, m, &mut c, &mut tag).unwrap();
        assert_eq!(sane.unwrap(a, &c, &tag, &mut out), wrong);
        sane.clone().wrap(a, m, &mut c, &mut tag).unwrap();
        assert_eq!(sae.unwrap(a, &c, &tag, &mut out), wrong);
    }
}
