//! Messages and metadata that the library takes four blocks at a time, from 192 bytes on, beside shorter ones: every envelope is the one that
//! the independent implementation makes, and it opens, at both ends and in both modes. A text that is too long is refused.

mod common;

use common::Folder;
use common::envelopes::sealed;
use common::sane::{ENDS, pair, reference, text};
use pevghazo_reference::session::{Mode, Record, Session};

/// Lengths of metadata and message.
const LENGTHS: [(usize, usize); 10] = [
    (6, 191),
    (6, 192),
    (0, 193),
    (191, 0),
    (192, 0),
    (400, 400),
    (385, 1_000),
    (0, 16_384),
    (16_384, 48),
    (16_384, 16_384),
];

/// Messages of all lengths are sealed by one command and opened by another, and back by two others; what opening prints is said last.
fn both_ways<M: Mode>(folder: &Folder, mut session: Record<M>, lines: [(&str, &str, &str); 2]) {
    for ((a, m), (seal, open, printed)) in LENGTHS.into_iter().flat_map(|lengths| lines.map(|line| (lengths, line))) {
        let (metadata, message) = (text(a, a), text(a + m, m));
        folder.write("metadata", &metadata);
        folder.write("message", &message);
        folder.done_anew(&format!("{seal} --metadata metadata --message message --out envelope"));
        let expected = sealed(&mut session, 5, &metadata, &message);
        assert!(folder.read("envelope").unwrap() == expected, "{seal}: another envelope of {a} and {m} bytes");
        let said = folder.done_anew(&format!("{open} --in envelope --out opened --metadata-out opened-metadata"));
        assert_eq!(said, printed, "{a} and {m} bytes");
        assert!(folder.read("opened").unwrap() == message, "{open}: another message of {a} and {m} bytes");
        assert!(folder.read("opened-metadata").unwrap() == metadata, "{open}: other metadata of {a} and {m} bytes");
    }
    folder.write("message", &[7; 16_385]);
    for (seal, ..) in lines {
        folder.fails(16, &format!("{seal} --message message --out refused"));
        assert_eq!(folder.read("refused"), None);
    }
}

#[test]
fn between_the_office_and_a_group() {
    let folder = Folder::pair(5);
    let session = Session::start(&folder.read("key").unwrap()).unwrap();
    let out = ("office seal --state office --group 5", "group open --state group", "");
    let back = ("group seal --state group", "office open --state office", "group 5\n");
    both_ways(&folder, session, [out, back]);
}

#[test]
fn in_sane() {
    let folder = pair();
    let session = reference(&folder.read("key").unwrap(), &1_u64.to_le_bytes()).0;
    let [seals, opens] = ["seal", "open"].map(|word| ENDS.map(|end| format!("sane {word} --state {end}")));
    both_ways(&folder, session, [(&seals[0], &opens[1], ""), (&seals[1], &opens[0], "")]);
}
