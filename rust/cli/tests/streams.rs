//! The standard streams: closed, at a terminal, and as results for scripts.

mod common;

use common::{Folder, Run};

/// The check of a code that is not the packet's.
const CHECK: &str = "group --state group check-code --packet 7 --code 0123-4567-89ab-cdef";

fn after(folder: &Folder, shell: &str, line: &str) -> Run {
    Run::of(folder.command_after(shell, line))
}

#[test]
fn a_closed_standard_input_or_output_is_refused() {
    let folder = Folder::pair(5);
    folder.write("text", b"20001");
    folder.done("group --state group seal --message text --out sealed");
    let before = (folder.read("office"), folder.read("group"));
    for (shell, line, stream) in [
        ("exec <&-", "office --state office seal --group 5 --message - --out out", "read standard input"),
        (
            "exec <&-",
            "office --state office seal --group 5 --message text --metadata - --out out",
            "read standard input",
        ),
        ("exec <&-", "office --state office open --in - --out out", "read standard input"),
        ("exec <&-", "group --state new start --group 5 --key -", "read standard input"),
        ("exec >&-", "office --state office seal --group 5 --message text --out -", "write to standard output"),
        ("exec >&-", "keygen --out -", "write to standard output"),
        ("exec >&-", "office --state office show", "write to standard output"),
        ("exec >&-", "group --state group codes --packets 7", "write to standard output"),
        ("exec >&-", "group --state group codes --packets 7 --format csv --out -", "write to standard output"),
        ("exec >&-", CHECK, "write to standard output"),
        ("exec >&-", "sane --state new start --group 5 --key key --counter 1", "write to standard output"),
        ("exec <&-", "sane --state new start --group 5 --key key --nonce -", "read standard input"),
        ("exec >&-", "--help", "write to standard output"),
        // Open, but not for this.
        ("exec 0>/dev/null", "group --state group seal --message - --out out", "read standard input"),
        ("exec 1</dev/null", "group --state group seal --message text --out -", "write to standard output"),
    ] {
        let run = after(&folder, shell, line);
        assert_eq!(run.status, 4, "{shell}; {line}: {}", run.said);
        assert_eq!(run.said, format!("pevghazo: Could not {stream}: it is closed.\n"), "{shell}; {line}");
        assert!((folder.read("office"), folder.read("group")) == before, "{line}");
        assert_eq!(folder.read("out"), None);
    }
    assert_eq!(folder.read("new"), None);
    // By their other names too.
    for (shell, line) in [
        ("exec <&-", "office --state office seal --group 5 --message /dev/stdin --out out"),
        ("exec <&-", "office --state office seal --group 5 --message /proc/self/fd/0 --out out"),
        ("exec <&-", "group --state new start --group 5 --key /dev/stdin"),
        ("exec >&-", "office --state office seal --group 5 --message text --out /dev/stdout"),
        ("exec >&-", "group --state group codes --packets 7 --out /dev/stdout"),
        ("exec <&- >&-", "office --state office seal --group 5 --message text --out /dev/fd/1"),
    ] {
        let run = after(&folder, shell, line);
        assert_eq!(run.status, 4, "{shell}; {line}: {}", run.said);
        assert!((folder.read("office"), folder.read("group")) == before, "{line}");
        assert_eq!((folder.read("out"), folder.read("new")), (None, None));
    }
    // A closed stream that is not used is no hindrance, nor is the standard error.
    let run = after(&folder, "exec <&- >&-", "office --state office seal --group 5 --message text --out first");
    assert_eq!((run.status, run.said.as_str()), (0, ""));
    let run = after(&folder, "exec <&- >&-", "group --state group codes --packets 7 --out codes");
    assert_eq!((run.status, run.said.as_str()), (0, ""));
    assert_eq!(after(&folder, "exec 2>&-", "office --state office resend --group 6 --out x").status, 5);
}

/// `< /dev/null` is an empty message, and `> /dev/null` throws an envelope away; both are wanted.
#[test]
fn an_open_null_device_is_taken_as_it_is() {
    let folder = Folder::pair(5);
    let seal = "office --state office seal --group 5 --message - --out out";
    assert_eq!(after(&folder, "exec < /dev/null", seal).status, 0);
    assert!(folder.read("out").unwrap().starts_with(b"S,5,0,0,"));
    assert_eq!(after(&folder, "exec > /dev/null", "office --state office resend --group 5 --out -").status, 0);
}

/// What scripts need is on the standard output, or on the standard error where the output has the other.
#[test]
fn results_are_for_scripts_and_progress_is_for_terminals() {
    let folder = Folder::pair(5);
    folder.write("text", b"20001");
    folder.done("group --state group seal --message text --out first");
    folder.done("group --state group seal --message text --out second");
    let both = [folder.read("first").unwrap(), folder.read("second").unwrap()].concat();
    folder.write("both", &both);
    let next = folder.read("first").unwrap().len();
    assert_eq!(folder.done("office --state office open --in both --out opened"), format!("group 5\nnext {next}\n"));
    let run = folder.run(&format!("office --state office open --in both --from {next} --out -"));
    assert_eq!((run.status, &run.printed[..], run.said.as_str()), (0, &b"20001"[..], "group 5\n"));
    // At a terminal, people are told what was done.
    for (line, start) in [
        (
            "office --state office seal --group 5 --message text --out envelope",
            "Sealed 5 bytes for group 5: envelope of ",
        ),
        (
            "group --state group codes --packets 0-2 --out codes",
            "Listed the codes of packets 0 to 2 of group 5 at index ",
        ),
        ("sane --state sane start --group 5 --key key --counter 1 > tag", "A session in SANE has started for group 5."),
    ] {
        let run = folder.run_at_terminal(line);
        let told = String::from_utf8(run.printed).unwrap();
        assert!(run.status == 0 && told.starts_with(start), "{told}");
    }
}
