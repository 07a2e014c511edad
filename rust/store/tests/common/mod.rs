//! What the tests of the store share: folders, and a second process.
//!
//! Faults end or hinder a whole process, so they are tried on a second process: a test program runs itself again, with `child`
//! as the only test and its orders in the environment.
#![allow(dead_code)] // Each test program uses a part of it.

use std::fs;
use std::io::Write;
use std::os::unix::fs::PermissionsExt;
use std::path::{Path, PathBuf};
use std::process::{Command, Output, Stdio, exit};
use std::sync::atomic::{AtomicU32, Ordering};
use std::time::Duration;

use pevghazo_store::{Error, Presence, Store, Wait, fault, new_file};

pub const ORDER: &str = "PEVGHAZO_STORE_TEST_ORDER";
pub const PATH: &str = "PEVGHAZO_STORE_TEST_PATH";

pub const REFUSED: i32 = 3;
pub const BUSY: i32 = 4;

/// A folder of its own for each test, removed at the end.
pub struct Folder(pub PathBuf);

impl Folder {
    pub fn new() -> Folder {
        static NEXT: AtomicU32 = AtomicU32::new(0);
        let name = format!("store-{}-{}", std::process::id(), NEXT.fetch_add(1, Ordering::Relaxed));
        let path = Path::new(env!("CARGO_TARGET_TMPDIR")).join(name);
        fs::create_dir(&path).unwrap();
        Folder(path)
    }

    pub fn state(&self) -> PathBuf {
        self.0.join("office.state")
    }

    /// The names in the folder, sorted, each checked to be closed to others.
    pub fn names(&self) -> Vec<String> {
        let mut names = Vec::new();
        for entry in fs::read_dir(&self.0).unwrap() {
            let entry = entry.unwrap();
            assert_eq!(entry.metadata().unwrap().permissions().mode() & 0o7777, 0o600, "{:?}", entry.file_name());
            names.push(entry.file_name().into_string().unwrap());
        }
        names.sort();
        names
    }
}

impl Drop for Folder {
    fn drop(&mut self) {
        let _ = fs::remove_dir_all(&self.0);
    }
}

pub fn put(path: &Path, bytes: &[u8]) {
    Store::open(path, Presence::MayExist, Wait::Forever).unwrap().commit(bytes).unwrap();
}

pub fn get(path: &Path) -> Option<Vec<u8>> {
    Store::open(path, Presence::MayExist, Wait::Forever).unwrap().bytes().map(<[u8]>::to_vec)
}

/// The temporary names in a folder.
pub fn temporaries(folder: &Path) -> Vec<String> {
    let names = fs::read_dir(folder).unwrap().map(|entry| entry.unwrap().file_name().into_string().unwrap());
    names.filter(|name| name.starts_with('.') && name.contains(".pevghazo-")).collect()
}

/// The second process, which does what its orders say. Without orders, as in a plain run of the tests, it does nothing.
pub fn child() {
    let Ok(order) = std::env::var(ORDER) else { return };
    let path = PathBuf::from(std::env::var_os(PATH).unwrap());
    let words: Vec<&str> = order.split(' ').collect();
    let size = || words[1].parse::<usize>().unwrap();
    let open = |wait| match Store::open(&path, Presence::MayExist, wait) {
        Ok(store) => store,
        Err(Error::Busy { .. }) => exit(BUSY),
        Err(error) => {
            eprintln!("{error}");
            exit(REFUSED)
        }
    };
    match words[0] {
        // Commits so many bytes 'a'.
        "commit" => {
            let mut store = open(Wait::Forever);
            if let Err(error) = store.commit(&vec![b'a'; size()]) {
                eprintln!("{error}");
                // The value says what the file holds, and further commits are possible.
                let held = store.bytes().map(<[u8]>::to_vec);
                drop(store);
                assert!(temporaries(path.parent().unwrap()).is_empty(), "tidied up after the failure");
                assert_eq!(get(&path), held);
                exit(REFUSED);
            }
        }
        // Commits twice; a failed first commit is no hindrance for the second.
        "retry" => {
            let mut store = open(Wait::Forever);
            if store.commit(b"first").is_err() {
                store.commit(b"second").unwrap();
            }
        }
        // Adds one, so many times, letting others in between.
        "add" => {
            for _ in 0..size() {
                let mut store = open(Wait::Forever);
                let number: u32 = std::str::from_utf8(store.bytes().unwrap()).unwrap().parse().unwrap();
                store.commit((number + 1).to_string().as_bytes()).unwrap();
            }
        }
        // Commits one number after the other until it is killed, and reports each that is safe.
        "forever" => {
            for number in 0u64.. {
                open(Wait::Forever).commit(&number.to_le_bytes().repeat(300)).unwrap();
                println!("safe {number}");
                std::io::stdout().flush().unwrap();
            }
        }
        "try" => drop(open(Wait::Never)),
        "wait" => drop(open(Wait::AtMost(Duration::from_millis(60)))),
        // Makes a new file of these bytes.
        "new" => match new_file::create(&path, words[1].as_bytes()) {
            Ok(()) => println!("mine is there"),
            Err(error) if error.kind() == std::io::ErrorKind::AlreadyExists => exit(REFUSED),
            Err(error) => panic!("{error}"),
        },
        // On a small file system: what does not fit is refused and leaves the old state, what fits is taken.
        "full" => {
            let mut store = open(Wait::Forever);
            store.commit(&[b'b'; 100]).unwrap();
            for _ in 0..3 {
                let error = store.commit(&vec![b'a'; size()]).unwrap_err();
                assert!(matches!(error, Error::System { .. }), "{error}");
                assert_eq!(store.bytes(), Some(&[b'b'; 100][..]));
            }
            drop(store);
            assert_eq!(get(&path), Some(vec![b'b'; 100]));
            put(&path, b"fits");
            assert_eq!(get(&path), Some(b"fits".to_vec()));
            println!("checked");
        }
        _ => panic!("what is {order}?"),
    }
    exit(0);
}

/// The arguments with which the test program runs as the second process.
pub const CHILD: [&str; 4] = ["--exact", "child", "--nocapture", "--test-threads=1"];

/// The second process, to be run as it is.
pub fn second(order: &str, path: &Path) -> Command {
    with_orders(Command::new(std::env::current_exe().unwrap()), order, path)
}

/// The second process, to be run by a shell that first does something else.
pub fn second_after(shell: &str, order: &str, path: &Path) -> Command {
    let mut command = Command::new("sh");
    command.arg("-c").arg(format!("{shell}; exec \"$@\"")).arg("sh").arg(std::env::current_exe().unwrap());
    with_orders(command, order, path)
}

pub fn with_orders(mut command: Command, order: &str, path: &Path) -> Command {
    command.args(CHILD).env(ORDER, order).env(PATH, path).env_remove(fault::VARIABLE);
    command.stdin(Stdio::null()).stdout(Stdio::piped()).stderr(Stdio::piped());
    command
}

pub fn run(mut command: Command) -> Output {
    command.output().unwrap()
}

/// The names of the steps that a process makes for these orders.
pub fn steps(order: &str, path: &Path) -> Vec<String> {
    let mut command = second(order, path);
    command.env(fault::VARIABLE, "log");
    let output = run(command);
    assert!(output.status.success());
    let log = String::from_utf8(output.stderr).unwrap();
    let names: Vec<String> =
        log.lines().filter_map(|line| Some(line.strip_prefix("step ")?.split_once(": ")?.1.to_string())).collect();
    assert!(names.len() >= 6, "{names:?}");
    names
}
