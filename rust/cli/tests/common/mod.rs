//! What the tests of the command line share: folders, and running the program in them.
#![allow(dead_code)] // Each test program uses a part of it.

pub mod envelopes;
pub mod letters;
pub mod sane;
pub mod seasons;
pub mod tills;
pub mod vectors;

use std::fs;
use std::io::Write;
use std::os::unix::fs::OpenOptionsExt;
use std::os::unix::process::ExitStatusExt;
use std::path::{Path, PathBuf};
use std::process::{Child, Command, Stdio};
use std::sync::atomic::{AtomicU32, Ordering};
use std::thread::sleep;
use std::time::Duration;

use pevghazo_reference::session::Session;
pub use pevghazo_store::fault::VARIABLE;
use pevghazo_store::{Presence, Store, Wait};

/// The program.
pub const PROGRAM: &str = env!("CARGO_BIN_EXE_pevghazo");

/// Runs a command at a new terminal and prints all that is shown there. Python's `pty.spawn` is not used: when the command has ended, it
/// drops what its own output has not taken yet, so that lines are lost where a busy machine reads that late.
const TERMINAL: &str = r#"
import os, pty, sys
process, terminal = pty.fork()
if process == 0:
    os.execvp(sys.argv[1], sys.argv[1:])
shown = True
while shown:
    try:
        shown = os.read(terminal, 65536)
    except OSError:
        break  # The terminal's other end is closed.
    sys.stdout.buffer.write(shown)
sys.stdout.flush()
sys.exit(os.waitstatus_to_exitcode(os.waitpid(process, 0)[1]))
"#;

/// The bytes of a session.
pub const SESSION: usize = 102;

/// Where a group's session starts in the state of the office: each is followed by the group's count.
pub const fn place_at_office(group: usize) -> usize {
    8 + group * (SESSION + 4)
}

/// Where the session starts in the state of a group, or of one end of a session in SANE.
pub const PLACE: usize = 12;

/// A folder of its own for each test, removed at the end. It is in memory where the system has such a place: syncs are fast.
pub struct Folder(pub PathBuf);

impl Folder {
    pub fn new() -> Folder {
        static NEXT: AtomicU32 = AtomicU32::new(0);
        let name = format!("pevghazo-cli-{}-{}", std::process::id(), NEXT.fetch_add(1, Ordering::Relaxed));
        let memory = Path::new("/dev/shm").join(&name);
        let disk = Path::new(env!("CARGO_TARGET_TMPDIR")).join(&name);
        let path = if fs::create_dir(&memory).is_ok() { memory } else { disk };
        let _ = fs::create_dir(&path);
        Folder(path)
    }

    /// A folder with copies of the files of an earlier program, closed to others; `data/README.md` says how they were made.
    pub fn of(data: &str) -> Folder {
        let folder = Folder::new();
        let data = Path::new(env!("CARGO_MANIFEST_DIR")).join("tests/data").join(data);
        for entry in fs::read_dir(data).unwrap() {
            let entry = entry.unwrap();
            folder.write(entry.file_name().to_str().unwrap(), &fs::read(entry.path()).unwrap());
        }
        folder
    }

    /// A copy of this folder, with the folders in it.
    pub fn copy(&self) -> Folder {
        let copy = Folder::new();
        for name in self.names() {
            let (from, to) = (self.0.join(&name), copy.0.join(&name));
            if from.is_dir() {
                fs::create_dir(&to).unwrap();
                for file in self.names_in(&name) {
                    fs::copy(from.join(&file), to.join(&file)).unwrap();
                }
            } else {
                fs::copy(from, to).unwrap();
            }
        }
        copy
    }

    /// The names in the folder, sorted.
    pub fn names(&self) -> Vec<String> {
        self.names_in("")
    }

    /// The names in a folder in it, sorted.
    pub fn names_in(&self, folder: &str) -> Vec<String> {
        let entries = fs::read_dir(self.0.join(folder)).unwrap();
        let mut names: Vec<String> = entries.map(|entry| entry.unwrap().file_name().into_string().unwrap()).collect();
        names.sort();
        names
    }

    /// A file's content, if there is one.
    pub fn read(&self, name: &str) -> Option<Vec<u8>> {
        fs::read(self.0.join(name)).ok()
    }

    /// Writes a file that is closed to others.
    pub fn write(&self, name: &str, bytes: &[u8]) {
        let path = self.0.join(name);
        let _ = fs::remove_file(&path);
        let mut file = fs::OpenOptions::new().write(true).create_new(true).mode(0o600).open(path).unwrap();
        file.write_all(bytes).unwrap();
    }

    /// Puts bytes in the place of those at an offset of a state file's state.
    pub fn forge(&self, name: &str, offset: usize, bytes: &[u8]) {
        let mut store = Store::open(self.0.join(name), Presence::MustExist, Wait::Never).unwrap();
        let mut state = store.bytes().unwrap().to_vec();
        state[offset..offset + bytes.len()].copy_from_slice(bytes);
        store.commit(&state).unwrap();
    }

    /// The bytes of the session at an offset of a state file's state.
    pub fn session(&self, name: &str, offset: usize) -> Vec<u8> {
        let store = Store::open(self.0.join(name), Presence::MustExist, Wait::Never).unwrap();
        store.bytes().unwrap()[offset..offset + SESSION].to_vec()
    }

    /// The program with these arguments, separated by spaces, to be run in the folder.
    pub fn command(&self, line: &str) -> Command {
        let mut command = Command::new(PROGRAM);
        command.args(line.split_whitespace());
        self.prepared(command)
    }

    /// The same, by a shell that does something else first.
    pub fn command_after(&self, shell: &str, line: &str) -> Command {
        let mut command = Command::new("sh");
        command.arg("-c").arg(format!("{shell}; exec \"$0\" \"$@\"")).arg(PROGRAM).args(line.split_whitespace());
        self.prepared(command)
    }

    fn prepared(&self, mut command: Command) -> Command {
        command.current_dir(&self.0).env_remove(VARIABLE);
        command.stdin(Stdio::null()).stdout(Stdio::piped()).stderr(Stdio::piped());
        command
    }

    /// Runs the program.
    pub fn run(&self, line: &str) -> Run {
        Run::of(self.command(line))
    }

    /// Runs the program with something planned against it; see the fault injection of the store.
    pub fn run_with(&self, fault: &str, line: &str) -> Run {
        let mut command = self.command_after("ulimit -c 0", line);
        command.env(VARIABLE, fault);
        Run::of(command)
    }

    /// Runs the program with bytes on its standard input.
    pub fn run_on(&self, line: &str, bytes: &[u8]) -> Run {
        let mut child = self.command(line).stdin(Stdio::piped()).spawn().unwrap();
        child.stdin.take().unwrap().write_all(bytes).unwrap();
        Run::from(child.wait_with_output().unwrap())
    }

    /// Runs the program at a terminal, by a shell, with everything that is shown there as what it prints.
    pub fn run_at_terminal(&self, line: &str) -> Run {
        let mut command = Command::new("python3");
        command.args(["-c", TERMINAL, "sh", "-c", &format!("exec \"$0\" {line}"), PROGRAM]);
        Run::of(self.prepared(command))
    }

    /// Runs the program, which must succeed, and gives what it prints.
    pub fn done(&self, line: &str) -> String {
        let run = self.run(line);
        assert_eq!(run.status, 0, "{line}: {}", run.said);
        assert_eq!(run.said, "", "{line}");
        String::from_utf8(run.printed).unwrap()
    }

    /// The same, with the outputs that the line names removed before.
    pub fn done_anew(&self, line: &str) -> String {
        let words: Vec<&str> = line.split_whitespace().collect();
        for pair in words.windows(2).filter(|pair| ["--out", "--metadata-out"].contains(&pair[0])) {
            let _ = fs::remove_file(self.0.join(pair[1]));
        }
        self.done(line)
    }

    /// Runs the program, which must fail with this status and print nothing, and gives its sentence.
    pub fn fails(&self, status: i32, line: &str) -> String {
        let run = self.run(line);
        assert_eq!(run.status, status, "{line}: {}", run.said);
        assert_eq!(run.printed, b"", "{line}");
        assert!(run.said.starts_with("pevghazo: ") && run.said.ends_with('\n'), "{line}: {}", run.said);
        run.said
    }

    /// The office with an allowance and one open group, and that group: `office`, `group`, `key`.
    pub fn pair(group: u32) -> Folder {
        let folder = Folder::new();
        folder.write("key", format!("the secret key of group {group}").as_bytes());
        folder.done("office --state office create");
        folder.done("office --state office day --allowance 1000000");
        folder.done(&format!("office --state office open-group --group {group} --key key"));
        folder.done(&format!("group --state group start --group {group} --key key"));
        folder
    }
}

impl Drop for Folder {
    fn drop(&mut self) {
        let _ = fs::remove_dir_all(&self.0);
    }
}

/// How a run of the program ended.
#[derive(Debug)]
pub struct Run {
    /// The exit status, or -1 where a signal ended it.
    pub status: i32,
    pub signal: Option<i32>,
    pub printed: Vec<u8>,
    pub said: String,
}

impl Run {
    pub fn of(mut command: Command) -> Run {
        Run::from(command.output().unwrap())
    }

    pub fn from(output: std::process::Output) -> Run {
        Run {
            status: output.status.code().unwrap_or(-1),
            signal: output.status.signal(),
            printed: output.stdout,
            said: String::from_utf8(output.stderr).unwrap(),
        }
    }
}

/// Waits until a program cannot go on.
pub fn until_blocked(child: &Child) {
    let state = || {
        let stat = fs::read_to_string(format!("/proc/{}/stat", child.id())).unwrap();
        stat[stat.rfind(')').unwrap()..].chars().nth(2)
    };
    while state() != Some('S') {
        assert_ne!(state(), Some('Z'), "it has gone on");
        sleep(Duration::from_millis(1));
    }
}

/// A packet's code by the independent implementation, as it is shown: digits in groups of four.
pub fn code(session: &Session, packet: u32) -> String {
    let mut bytes = [0; 8];
    session.code(packet, &mut bytes).unwrap();
    grouped(&bytes.map(|byte| format!("{byte:02x}")).concat())
}

/// Digits in groups of four.
pub fn grouped(digits: &str) -> String {
    let groups: Vec<&str> = (0..digits.len()).step_by(4).map(|place| &digits[place..place + 4]).collect();
    groups.join(" ")
}

/// Adds to a pool with each step of the commit failing in turn, until a run ends by the status of a refused line. Where the commit fails,
/// nothing is listed, and a sentence says whether the lines are in the pool, which is seen by a ring of an accepted one.
pub fn additions_that_fail(first: &Folder, add: &str, ring: &str, refused: i32) {
    let (mut not_added, mut added) = (0, 0);
    for step in 1.. {
        let folder = first.copy();
        let run = folder.run_with(&format!("fail@{step}"), add);
        if run.status == refused {
            break;
        }
        assert_eq!((run.status, &run.printed[..]), (3, &b""[..]), "step {step}: {}", run.said);
        let is_added = folder.run(&format!("pool --state pool find {ring}")).status == 0;
        let says_so = run.said.ends_with(" The lines were added all the same: `pool show` shows the pool.\n");
        assert_eq!(says_so, is_added, "step {step}: {}", run.said);
        added += i32::from(is_added);
        not_added += i32::from(run.said.ends_with(" Nothing was added.\n"));
    }
    assert!(added > 0 && not_added > 0, "{added} {not_added}");
}
