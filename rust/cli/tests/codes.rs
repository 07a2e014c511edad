//! The codes of packets and the check of one, at both ends. The expected codes are those of the vectors and of the independent
//! implementation.

mod common;

use std::ffi::OsStr;
use std::fs;
use std::io::Read;
use std::os::unix::ffi::OsStrExt;
use std::os::unix::fs::{MetadataExt, PermissionsExt};
use std::process::{Command, Stdio};

use common::envelopes::opened;
use common::{Folder, PLACE, Run, code, grouped, until_blocked};
use pevghazo_reference::session::Session;

const OFFICE: &str = "office --state office codes --group 5";
const GROUP: &str = "group --state group codes";
const OFFICE_CHECKS: &str = "office --state office check-code --group 5";
const GROUP_CHECKS: &str = "group --state group check-code";

/// The place of the session in the state of the office, for group 5, and in that of a group.
const PLACES: [(&str, usize); 2] = [("office", common::place_at_office(5)), ("group", PLACE)];

/// An office and its group 5 with a delivered message, and the independent implementation of their session.
fn delivered() -> (Folder, Session) {
    let folder = Folder::pair(5);
    let mut session = Session::start(&folder.read("key").unwrap()).unwrap();
    deliver(&folder, &mut session, b"20001 to 20100");
    (folder, session)
}

/// The office seals a message and the group opens it.
fn deliver(folder: &Folder, session: &mut Session, message: &[u8]) {
    folder.write("text", message);
    folder.done_anew("office --state office seal --group 5 --message text --metadata-text size --out to");
    folder.done_anew("group --state group open --in to --out opened");
    take(folder, session);
}

/// The independent implementation takes the envelope that the office has sealed.
fn take(folder: &Folder, session: &mut Session) {
    assert_eq!(opened(session, &folder.read("to").unwrap()), folder.read("text").unwrap());
}

/// The program with one more option, whose value may have spaces.
fn checked(folder: &Folder, line: &str, packet: u32, code: &OsStr) -> Run {
    let mut command = folder.command(line);
    command.args(["--packet", &packet.to_string(), "--code"]).arg(code);
    Run::of(command)
}

/// The verdict on a code at both ends, and that status and sentence are those of the verdict.
fn verdict(folder: &Folder, packet: u32, index: u32, code: &str) -> bool {
    let runs = [OFFICE_CHECKS, GROUP_CHECKS].map(|line| checked(folder, line, packet, OsStr::new(code)));
    let sentence = format!(
        "pevghazo: This is not the code of packet {packet} of group 5 at index {index}. Codes change with each message that is \
         sealed or opened: was the packet labelled at this index?\n"
    );
    let verdicts = runs.map(|run| match (run.status, &run.printed[..]) {
        (0, b"match\n") if run.said.is_empty() => true,
        (9, b"mismatch\n") if run.said == sentence => false,
        _ => panic!("{code}: {run:?}"),
    });
    assert_eq!(verdicts[0], verdicts[1], "{code}");
    verdicts[0]
}

#[test]
fn codes_are_those_of_the_vectors() {
    let folder = Folder::pair(5);
    let text = include_str!("../../../vectors/codes.txt");
    let mut tried = 0;
    for record in text.split("\n\n").filter(|record| record.contains("code = ")) {
        let field = |name: &str| {
            let start = format!("{name} = ");
            record.lines().find_map(|line| line.strip_prefix(&start)).unwrap_or_else(|| panic!("{name}: {record}"))
        };
        let byte = |digits: &[u8]| u8::from_str_radix(std::str::from_utf8(digits).unwrap(), 16).unwrap();
        let lanes: Vec<u8> = [field("acc"), field("mask")].concat().as_bytes().chunks(2).map(byte).collect();
        let index: u32 = field("index").parse().unwrap();
        for (state, place) in PLACES {
            folder.forge(state, place, &[&lanes[..], &index.to_le_bytes()].concat());
        }
        let (packet, code) = (field("p").parse().unwrap(), grouped(field("code")));
        for line in [OFFICE, GROUP] {
            assert_eq!(folder.done(&format!("{line} --packets {packet}")), format!("{packet:4} {code}\n"));
        }
        assert!(verdict(&folder, packet, index, &code));
        tried += 1;
    }
    assert!(tried >= 10, "{tried} vectors");
}

#[test]
fn the_formats() {
    let (folder, session) = delivered();
    for (range, packets) in
        [("0-2047", 0..=2047), ("9-11", 9..=11), ("2047", 2047..=2047), ("0", 0..=0), ("5-5", 5..=5)]
    {
        let index = session.index;
        let lines = |line: &dyn Fn(u32, &str) -> String| -> String {
            packets.clone().map(|packet| line(packet, &code(&session, packet))).collect()
        };
        let text = lines(&|packet, code| format!("{packet:4} {code}\n"));
        let rows = lines(&|packet, code| format!("5,{index},{packet},{code}\n"));
        let table = String::from("group,index,packet,code\n") + &rows;
        let labels = lines(&|packet, code| {
            format!(
                "<div class=\"label\"><p>Group <b>5</b></p> <p class=\"packet\">Packet <b>{packet}</b></p> \
                 <p class=\"code\">{code}</p> <p class=\"index\">at index {index}</p></div>\n"
            )
        });
        for line in [OFFICE, GROUP] {
            let line = format!("{line} --packets {range}");
            assert_eq!(folder.done(&line), text);
            assert_eq!(folder.done(&format!("{line} --format text --out -")), text);
            assert_eq!(folder.done(&format!("{line} --format=csv")), table);
            let page = folder.done(&format!("{line} --format html"));
            let found: String = page.split_inclusive('\n').filter(|line| line.contains("\"label\"")).collect();
            assert_eq!(found, labels);
            let last = packets.end();
            let what = if packets.start() == last {
                format!("packet {last}")
            } else {
                format!("packets {} to {last}", packets.start())
            };
            assert!(page.contains(&format!("<title>Codes of {what} of group 5 at index {index}</title>\n")));
            assert_eq!(page.matches("<div class=\"sheet\">").count(), packets.clone().count().div_ceil(24));
        }
    }
}

/// The two ends have the same codes while they stand at the same message, and other ones after the next.
#[test]
fn codes_change_with_each_message() {
    let (folder, mut session) = delivered();
    let listed = |session: &Session| format!("   7 {}\n", code(session, 7));
    let both = || [OFFICE, GROUP].map(|line| folder.done(&format!("{line} --packets 7")));
    let (first, index) = (listed(&session), session.index);
    assert_eq!(both(), [&first; 2].map(String::clone));
    assert!(verdict(&folder, 7, index, &first[5..24]));
    // The office has sealed and the group has not opened yet.
    let before = session.clone();
    folder.done_anew("office --state office seal --group 5 --message text --out to");
    take(&folder, &mut session);
    let second = listed(&session);
    assert_ne!(first, second);
    assert_eq!(both(), [second.clone(), first.clone()]);
    // A refused arrival changes nothing.
    let mut damaged = folder.read("to").unwrap();
    *damaged.last_mut().unwrap() ^= 1;
    folder.write("damaged", &damaged);
    folder.fails(21, "group --state group open --in damaged --out none");
    assert_eq!(both()[1], listed(&before));
    folder.done_anew("group --state group open --in to --out opened");
    assert_eq!(both(), [&second; 2].map(String::clone));
    assert!(verdict(&folder, 7, session.index, &second[5..24]));
    assert!(!verdict(&folder, 7, session.index, &first[5..24]), "the code of an older state");
}

#[test]
fn a_code_is_checked_as_it_is_read() {
    let (folder, session) = delivered();
    for packet in [0, 1, 5, 6, 2_047] {
        let code = code(&session, packet);
        let digits = code.replace(' ', "");
        for text in [
            &code,
            &digits,
            &code.to_uppercase(),
            &digits.to_uppercase(),
            &code.replace(' ', "-"),
            &code.replace(' ', " - "),
        ] {
            assert!(verdict(&folder, packet, session.index, text), "{text}");
        }
        for place in 0..digits.len() {
            let digit = u8::from_str_radix(&digits[place..=place], 16).unwrap();
            let wrong = format!("{}{:x}{}", &digits[..place], digit ^ 1 << (place % 4), &digits[place + 1..]);
            assert!(!verdict(&folder, packet, session.index, &wrong), "{wrong}");
        }
        assert!(!verdict(&folder, packet ^ 1, session.index, &code), "another packet's");
    }
}

#[test]
fn a_text_that_is_no_code_is_a_bad_command_line() {
    let (folder, session) = delivered();
    let code = code(&session, 7);
    let sentence = "pevghazo: The value of --code is no code. A code has 16 hexadecimal digits, and between its groups of four \
                    there may be spaces and hyphens.\n";
    let texts = [
        "",
        " ",
        "7",
        &code[..18],
        &code[5..],
        &format!("{code}0"),
        &format!("{code} 0000"),
        &code.replace(' ', "."),
        &code.replace(' ', "\n"),
        &format!("0x{}", &code[2..]),
        "012345678O9abcde",
        "--",
        "\u{664}\u{664}",
    ];
    for text in texts.map(str::as_bytes).into_iter().chain([&b"\xff\xff\xff\xff\xff\xff\xff\xff"[..]]) {
        for line in [OFFICE_CHECKS, GROUP_CHECKS] {
            let text = [b"--code=", text].concat();
            let mut command = folder.command(&format!("{line} --packet 7"));
            let run = Run::of({
                command.arg(OsStr::from_bytes(&text));
                command
            });
            assert_eq!((run.status, &run.printed[..], run.said.as_str()), (2, &b""[..], sentence), "{text:?}");
        }
    }
    // Before the state file is looked at, and also for what is no packet.
    folder.fails(2, "group --state nothing check-code --packet 7 --code 7");
    folder.fails(2, &format!("{GROUP_CHECKS} --packet x --code 0123456789abcdef"));
    folder.fails(2, &format!("{GROUP_CHECKS} --code 0123456789abcdef"));
    folder.fails(2, &format!("{GROUP_CHECKS} --packet 7"));
    let said = folder.fails(2, &format!("{GROUP_CHECKS} --packet 7 --code {code}"));
    assert!(said.ends_with(" Spaces in the value of --code need quotes around it.\n"), "{said}");
}

#[test]
fn ranges_and_formats_that_are_none() {
    let (folder, _) = delivered();
    let names = folder.names();
    for line in [OFFICE, GROUP] {
        for range in ["1-0", "2047-0", "x", "-1", "1-", "0-x", "1-2-3", "0..23", "4294967296"] {
            folder.fails(2, &format!("{line} --packets={range} --out out"));
        }
        for format in ["", "pdf", "HTML"] {
            folder.fails(2, &format!("{line} --packets 7 --out out --format={format}"));
        }
        folder.fails(2, &format!("{line} --out out"));
    }
    folder.fails(2, "office --state office codes --packets 7");
    folder.fails(2, "group --state group codes --packets 7 --group 5");
    assert_eq!(folder.names(), names);
}

#[test]
fn codes_go_to_a_new_file_or_nowhere() {
    let (folder, session) = delivered();
    let expected = format!("group,index,packet,code\n5,{},7,{}\n", session.index, code(&session, 7));
    let line = format!("{OFFICE} --packets 7 --format csv");
    assert_eq!(folder.done(&format!("{line} --out codes.csv")), "");
    assert_eq!(folder.read("codes.csv").unwrap(), expected.as_bytes());
    assert_eq!(fs::metadata(folder.0.join("codes.csv")).unwrap().permissions().mode() & 0o777, 0o600);
    // A file that is there stays, also one with the same codes.
    for out in ["codes.csv", "text", "key"] {
        let before = folder.read(out);
        assert!(folder.fails(4, &format!("{line} --out {out}")).contains("There is a file "), "{out}");
        assert_eq!(folder.read(out), before);
    }
    for out in ["office", "office.lock", "./office", ".office.pevghazo-0123456789abcdef", "new/"] {
        folder.fails(2, &format!("{line} --out {out}"));
    }
    for out in ["no/folder", "/dev/full"] {
        assert!(folder.fails(4, &format!("{line} --out {out}")).contains("Could not "), "{out}");
    }
    let run = folder.run(&format!("{line} --out /dev/stdout"));
    assert_eq!((run.status, run.printed), (0, expected.into_bytes()));
    assert!(!folder.names().iter().any(|name| name.contains(".pevghazo-")));
}

/// A kill or a failure at any step leaves the whole file or none, and the state as it was.
#[test]
fn disturbed_outputs_are_whole_or_not_there() {
    let (folder, _) = delivered();
    let line = format!("{GROUP} --packets 0-99 --format html --out page");
    let undisturbed = folder.copy();
    let log = undisturbed.run_with("log", &line);
    assert_eq!(log.status, 0);
    let steps = log.said.lines().filter(|line| line.starts_with("step ") && !line.ends_with(": end")).count();
    assert!(steps > 3, "{}", log.said);
    for (fault, n) in (1..=steps).flat_map(|n| [("abort", n), ("fail", n)]) {
        let copy = folder.copy();
        let run = copy.run_with(&format!("{fault}@{n}"), &line);
        assert!(run.signal.is_some() || [3, 4].contains(&run.status), "{fault}@{n}: {}", run.said);
        assert!(copy.read("page").is_none_or(|page| Some(page) == undisturbed.read("page")), "{fault}@{n}");
        assert!(copy.read("group") == folder.read("group"), "{fault}@{n}");
        if copy.read("page").is_none() {
            copy.done(&line);
        } else {
            copy.fails(4, &line);
        }
        assert_eq!(copy.names(), undisturbed.names(), "{fault}@{n}");
    }
}

/// What is known of a state file and its lock file: their bytes, and that they are the same files, not written to.
fn known(folder: &Folder) -> Vec<(Option<Vec<u8>>, u64, i64, i64)> {
    ["office", "office.lock", "group", "group.lock"]
        .map(|name| {
            let metadata = fs::metadata(folder.0.join(name)).unwrap();
            (folder.read(name), metadata.ino(), metadata.mtime(), metadata.mtime_nsec())
        })
        .to_vec()
}

#[test]
fn nothing_is_committed_and_nothing_is_spent() {
    let (folder, session) = delivered();
    let right = code(&session, 7).replace(' ', "-");
    // No allowance is left, which hinders no code.
    folder.done("office --state office day --allowance 0");
    let (before, names) = (known(&folder), folder.names());
    let shown = ["office", "group"].map(|end| folder.done(&format!("{end} --state {end} show --json")));
    for (list, check) in [(OFFICE, OFFICE_CHECKS), (GROUP, GROUP_CHECKS)] {
        for format in ["text", "csv", "html"] {
            folder.done(&format!("{list} --packets 0-2047 --format {format} --wait 0"));
        }
        folder.fails(22, &format!("{list} --packets 2040-2048"));
        folder.done(&format!("{check} --packet 7 --code {right} --wait 0"));
        assert_eq!(folder.run(&format!("{check} --packet 8 --code {right}")).status, 9);
    }
    assert!(known(&folder) == before);
    assert_eq!(folder.names(), names);
    assert_eq!(["office", "group"].map(|end| folder.done(&format!("{end} --state {end} show --json"))), shown);
}

/// An older copy is refused, and with `--restore` it is only looked at.
#[test]
fn an_older_copy_is_only_looked_at() {
    let (folder, mut session) = delivered();
    let (older, right) = (format!("   7 {}\n", code(&session, 7)), code(&session, 7).replace(' ', "-"));
    let copies = ["office", "group"].map(|name| folder.read(name).unwrap());
    deliver(&folder, &mut session, b"20101 to 20200");
    for (name, copy) in ["office", "group"].into_iter().zip(&copies) {
        folder.write(name, copy);
    }
    let before = known(&folder);
    for (list, check) in [(OFFICE, OFFICE_CHECKS), (GROUP, GROUP_CHECKS)] {
        folder.fails(8, &format!("{list} --packets 7"));
        folder.fails(8, &format!("{check} --packet 7 --code {right}"));
        assert_eq!(folder.done(&format!("{list} --packets 7 --restore")), older);
        assert_eq!(folder.done(&format!("{check} --packet 7 --code {right} --restore")), "match\n");
        folder.fails(8, &format!("{list} --packets 7"));
    }
    assert!(known(&folder) == before);
}

/// The state file is locked while it is read, and free again while somebody reads the codes slowly.
#[test]
fn a_slow_reader_of_codes_keeps_nobody_waiting() {
    let (folder, _) = delivered();
    let store = pevghazo_store::Store::open(
        folder.0.join("group"),
        pevghazo_store::Presence::MustExist,
        pevghazo_store::Wait::Never,
    )
    .unwrap();
    for line in [format!("{GROUP} --packets 7"), format!("{GROUP_CHECKS} --packet 7 --code 0123456789abcdef")] {
        assert!(folder.fails(3, &format!("{line} --wait 0")).contains("Another program is using the state file "));
    }
    drop(store);
    let mut child = folder.command(&format!("{GROUP} --packets 0-2047 --format html")).spawn().unwrap();
    let mut output = child.stdout.take().unwrap();
    // The page is longer than a pipe holds, and it has begun to come.
    let mut first = [0; 15];
    output.read_exact(&mut first).unwrap();
    assert_eq!(&first, b"<!DOCTYPE html>");
    folder.done("group --state group show --wait 0");
    let mut rest = Vec::new();
    output.read_to_end(&mut rest).unwrap();
    assert!(rest.len() > 1 << 17 && rest.ends_with(b"</html>\n"));
    assert!(child.wait().unwrap().success());
}

/// So it is where nobody takes the verdict: the pipe is full of zeros.
#[test]
fn a_verdict_that_nobody_takes_keeps_nobody_waiting() {
    let (folder, session) = delivered();
    let (reader, writer) = std::io::pipe().unwrap();
    let zeros = Command::new("cat").arg("/dev/zero").stdout(writer.try_clone().unwrap()).stderr(Stdio::null()).spawn();
    let mut children = vec![zeros.unwrap()];
    until_blocked(&children[0]);
    for packet in [7, 8] {
        let line = format!("{GROUP_CHECKS} --packet {packet} --code {}", code(&session, 7).replace(' ', "-"));
        children.push(folder.command(&line).stdout(writer.try_clone().unwrap()).spawn().unwrap());
        until_blocked(children.last().unwrap());
        folder.done("group --state group show --wait 0");
    }
    drop(reader);
    let statuses: Vec<_> = children.iter_mut().map(|child| child.wait().unwrap().code()).collect();
    assert_eq!(statuses[1..], [Some(4); 2]);
}

/// Each of the office's groups has codes of its own, at its own index.
#[test]
fn the_codes_of_several_groups() {
    let folder = Folder::pair(5);
    folder.write("text", b"20001");
    for (group, messages) in [(9, 1), (2, 2), (5, 3)] {
        let key = format!("the secret key of group {group}");
        let mut session = Session::start(key.as_bytes()).unwrap();
        if group != 5 {
            folder.write("key", key.as_bytes());
            folder.done(&format!("office --state office open-group --group {group} --key key"));
        }
        for _ in 0..messages {
            folder.done_anew(&format!("office --state office seal --group {group} --message text --out to"));
            take(&folder, &mut session);
        }
        let right = code(&session, 7);
        let line = format!("office --state office codes --group {group} --packets 7");
        assert_eq!(folder.done(&line), format!("   7 {right}\n"));
        let index = session.index;
        let table = format!("group,index,packet,code\n{group},{index},7,{right}\n");
        assert_eq!(folder.done(&format!("{line} --format csv")), table);
        let title = format!("<title>Codes of packet 7 of group {group} at index {index}</title>\n");
        assert!(folder.done(&format!("{line} --format html")).contains(&title), "{title}");
        for (packet, status) in [(7, 0), (8, 9)] {
            let line = format!("office --state office check-code --group {group}");
            let run = checked(&folder, &line, packet, OsStr::new(&right));
            assert_eq!(run.status, status, "{run:?}");
            let place = format!("packet {packet} of group {group} at index {index}. ");
            assert_eq!(run.said.contains(&place), status == 9, "{run:?}");
        }
    }
}
