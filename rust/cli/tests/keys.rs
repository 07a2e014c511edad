//! Keys: making them, and refusing those that were used before.

mod common;

use std::fs;
use std::os::unix::fs::PermissionsExt;

use common::Folder;

const SENTENCE: &str = "This key was used in this state file before: under it, old envelopes would be accepted again.";

#[test]
fn keygen_makes_a_new_key_and_takes_no_place_of_a_file() {
    let folder = Folder::new();
    folder.done("keygen --out a");
    folder.done("keygen --out b");
    let (a, b) = (folder.read("a").unwrap(), folder.read("b").unwrap());
    assert_eq!((a.len(), b.len()), (32, 32));
    assert_ne!(a, b);
    assert_eq!(fs::metadata(folder.0.join("a")).unwrap().permissions().mode() & 0o7777, 0o600);
    assert!(folder.fails(4, "keygen --out a").contains("There is a file "));
    assert_eq!(folder.read("a").unwrap(), a);
    folder.fails(2, "keygen");
    folder.fails(4, "keygen --out no/folder");
    let printed = folder.run("keygen --out -").printed;
    assert_eq!(printed.len(), 32);
    folder.done("office --state office create");
    folder.done("office --state office day --allowance 100");
    folder.done("office --state office open-group --group 5 --key a");
    folder.done("group --state group start --group 5 --key a");
    folder.write("text", b"20001");
    folder.done("office --state office seal --group 5 --message text --out envelope");
    folder.done("group --state group open --in envelope --out opened");
    assert_eq!(folder.read("opened"), folder.read("text"));
    assert_eq!(folder.names().iter().filter(|name| name.contains(".pevghazo-")).count(), 0);
}

/// Under a key that was used before, an old envelope would be accepted again.
#[test]
fn a_key_that_was_used_before_is_refused() {
    let folder = Folder::pair(5);
    folder.write("text", b"20001");
    folder.write("second", b"the second key of group 5");
    folder.done("office --state office seal --group 5 --message text --out old");
    let state = folder.read("office");
    for line in [
        "office --state office open-group --group 5 --key key --replace",
        "office --state office open-group --group 6 --key key",
    ] {
        assert!(folder.fails(7, line).contains(SENTENCE), "{line}");
        assert!(folder.read("office") == state, "{line}");
    }
    assert!(folder.fails(7, "group --state group start --group 5 --key key --replace").contains(SENTENCE));
    // The key of a session that was replaced is still known, and so is one whose file has another name.
    folder.done("office --state office open-group --group 5 --key second --replace");
    folder.done("group --state group start --group 5 --key second --replace");
    folder.write("another-name", &folder.read("key").unwrap());
    for key in ["key", "second", "another-name"] {
        folder.fails(7, &format!("office --state office open-group --group 5 --key {key} --replace"));
        folder.fails(7, &format!("office --state office open-group --group 31 --key {key}"));
        folder.fails(7, &format!("group --state group start --group 5 --key {key} --replace"));
    }
    folder.fails(21, "group --state group open --in old --out opened");
    // A refused opening notes no key.
    folder.write("third", b"the third key of group 5");
    folder.done("office --state office day --allowance 0");
    folder.fails(20, "office --state office open-group --group 7 --key third");
    folder.done("office --state office day --allowance 100");
    folder.done("office --state office open-group --group 7 --key third");
}

#[test]
fn a_key_is_used_again_where_that_is_wanted() {
    let folder = Folder::pair(5);
    folder.write("text", b"20001");
    folder.done("office --state office seal --group 5 --message text --out old");
    folder.done("office --state office open-group --group 5 --key key --replace --reuse-key");
    folder.done("office --state office open-group --group 6 --key key --reuse-key");
    folder.done("group --state group start --group 5 --key key --replace --reuse-key");
    folder.done("group --state new start --group 5 --key key --reuse-key");
    // This is what it means.
    folder.done("group --state group open --in old --out opened");
    assert_eq!(folder.read("opened"), folder.read("text"));
    assert!(folder.done("office --state office show --json").contains("\"keys\":1,"));
}
