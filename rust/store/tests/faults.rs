//! The state file under kills, failures, full disks and several processes at once.

mod common;

use std::io::{BufRead, BufReader};
use std::os::unix::process::ExitStatusExt;
use std::process::{Child, Command, Stdio};
use std::time::Duration;

use common::{BUSY, Folder, REFUSED, get, put, run, second, second_after, steps, temporaries, with_orders};
use pevghazo_store::{Error, Presence, Store, Wait, fault};

/// See the shared module.
#[test]
fn child() {
    common::child();
}

/// Kills a process before each of its steps, once with an old state and once without one.
#[test]
fn killed_before_any_step_the_file_is_before_or_after() {
    for old in [Some(b"before".to_vec()), None] {
        let start = |folder: &Folder| {
            if let Some(old) = &old {
                put(&folder.state(), old);
            }
        };
        let folder = Folder::new();
        start(&folder);
        let names = steps("commit 2000", &folder.state());
        let rename = names.iter().position(|name| name == "rename").unwrap() + 1;
        for n in 1..=names.len() + 1 {
            let folder = Folder::new();
            start(&folder);
            // A process that lets others in by default: the files are closed all the same.
            let mut command = second_after("umask 0; ulimit -c 0", "commit 2000", &folder.state());
            command.env(fault::VARIABLE, format!("abort@{n}"));
            let status = run(command).status;
            if n <= names.len() {
                assert!(status.signal().is_some(), "killed before step {n}");
            } else {
                assert!(status.success());
            }
            folder.names();
            let after = Some(vec![b'a'; 2_000]);
            assert_eq!(get(&folder.state()), if n <= rename { old.clone() } else { after }, "before step {n}");
            put(&folder.state(), b"and on");
            assert_eq!(get(&folder.state()), Some(b"and on".to_vec()));
            assert_eq!(folder.names(), ["office.state", "office.state.lock"], "tidied up at the next opening");
            assert_eq!(get(&folder.state()), Some(b"and on".to_vec()));
        }
    }
}

/// Makes each step fail in turn.
#[test]
fn failing_at_any_step_the_file_is_before_or_after() {
    let folder = Folder::new();
    put(&folder.state(), b"before");
    let names = steps("commit 2000", &folder.state());
    for n in 1..=names.len() {
        put(&folder.state(), b"before");
        let mut command = second("commit 2000", &folder.state());
        command.env(fault::VARIABLE, format!("fail@{n}"));
        let output = run(command);
        assert_eq!(output.status.code(), Some(REFUSED), "step {n}");
        let said = String::from_utf8(output.stderr).unwrap();
        assert!(said.contains(&format!("step {n} was made to fail")), "{said}");
        let renamed = names.iter().position(|name| name == "rename").unwrap() + 1;
        assert_eq!(said.contains("did not confirm"), n > renamed, "{said}");
        let names_now = folder.names();
        assert_eq!(names_now, ["office.state", "office.state.lock"], "nothing is left behind");
        let held = get(&folder.state()).unwrap();
        assert_eq!(held, if n <= renamed { b"before".to_vec() } else { vec![b'a'; 2_000] }, "step {n}");
    }
    for n in 1..=names.len() {
        let mut command = second("retry", &folder.state());
        command.env(fault::VARIABLE, format!("fail@{n}"));
        let output = run(command);
        let opening = names.iter().position(|name| name == "create the new file").unwrap();
        if n <= opening {
            assert_eq!(output.status.code(), Some(REFUSED), "step {n}");
        } else {
            assert_eq!(output.status.code(), Some(0), "step {n}");
            assert_eq!(get(&folder.state()), Some(b"second".to_vec()));
        }
    }
    let mut command = second("commit 2000", &folder.state());
    command.env(fault::VARIABLE, "misspelt");
    assert_eq!(run(command).status.code(), Some(REFUSED));
}

/// Ends a process from outside while it stands before each step, with others waiting for it.
#[test]
fn a_killed_process_lets_the_next_one_in() {
    let folder = Folder::new();
    put(&folder.state(), b"before");
    let names = steps("commit 2000", &folder.state());
    let locked = names.iter().position(|name| name == "lock").unwrap() + 1;
    for n in [locked + 1, names.len() - 3, names.len() - 1, names.len()] {
        put(&folder.state(), b"before");
        let mut command = second("commit 2000", &folder.state());
        command.env(fault::VARIABLE, format!("pause@{n}"));
        let mut holder = command.spawn().unwrap();
        // Until the holder has the lock.
        while !matches!(Store::open(folder.state(), Presence::MustExist, Wait::Never), Err(Error::Busy { .. })) {
            std::thread::sleep(Duration::from_millis(5));
        }
        let mut waiting = second("commit 50", &folder.state()).spawn().unwrap();
        std::thread::sleep(Duration::from_millis(50));
        assert!(waiting.try_wait().unwrap().is_none());
        assert_eq!(run(second("try", &folder.state())).status.code(), Some(BUSY));
        holder.kill().unwrap();
        holder.wait().unwrap();
        assert!(waiting.wait_with_output().unwrap().status.success());
        assert_eq!(get(&folder.state()), Some(vec![b'a'; 50]));
        assert_eq!(folder.names(), ["office.state", "office.state.lock"]);
    }
}

#[test]
fn several_processes_at_once_lose_nothing() {
    let folder = Folder::new();
    put(&folder.state(), b"0");
    let children: Vec<Child> = (0..4).map(|_| second("add 20", &folder.state()).spawn().unwrap()).collect();
    for child in children {
        let output = child.wait_with_output().unwrap();
        assert!(output.status.success(), "{}", String::from_utf8_lossy(&output.stdout));
    }
    assert_eq!(get(&folder.state()), Some(b"80".to_vec()));
    assert_eq!(folder.names(), ["office.state", "office.state.lock"]);
}

/// Two processes that both find no file: one creates it, the other goes on from there.
#[test]
fn only_one_process_creates_the_file() {
    let folder = Folder::new();
    let mut first = Store::open(folder.state(), Presence::MustBeNew, Wait::Never).unwrap();
    let path = folder.state();
    let other = std::thread::spawn(move || Store::open(path, Presence::MustBeNew, Wait::Forever).map(drop));
    std::thread::sleep(Duration::from_millis(50));
    first.commit(b"mine").unwrap();
    drop(first);
    assert!(matches!(other.join().unwrap(), Err(Error::Exists { .. })));
    assert_eq!(get(&folder.state()), Some(b"mine".to_vec()));
}

/// Kills a busy process at moments of no choice.
#[test]
fn killed_at_any_moment_nothing_reported_safe_is_lost() {
    let folder = Folder::new();
    for round in 0..12 {
        let mut child = second("forever", &folder.state()).spawn().unwrap();
        let mut safe = BufReader::new(child.stdout.take().unwrap())
            .lines()
            .map_while(Result::ok)
            .filter_map(|line| line.strip_prefix("safe ")?.parse::<u64>().ok());
        let first = safe.next().expect("a report");
        let killer = std::thread::spawn(move || {
            std::thread::sleep(Duration::from_micros(10_000 + 1_700 * round));
            child.kill().unwrap();
            child.wait().unwrap();
        });
        let safe = safe.last().unwrap_or(first);
        killer.join().unwrap();
        let held = get(&folder.state()).unwrap();
        let number = u64::from_le_bytes(held[..8].try_into().unwrap());
        assert_eq!(held, number.to_le_bytes().repeat(300), "whole");
        assert!(number == safe || number == safe + 1, "{number} is held and {safe} was reported");
    }
}

/// No file may grow beyond a limit: as an error of the write, and as the signal that ends a process by default.
#[test]
fn with_no_room_for_the_new_file_the_old_one_stays() {
    let folder = Folder::new();
    put(&folder.state(), b"before");
    let output = run(second_after("trap '' XFSZ; ulimit -f 8", "commit 20000", &folder.state()));
    assert_eq!(output.status.code(), Some(REFUSED), "{}", String::from_utf8_lossy(&output.stderr));
    assert!(String::from_utf8(output.stderr).unwrap().contains("Could not write the new file"));
    assert_eq!(folder.names(), ["office.state", "office.state.lock"]);
    assert_eq!(get(&folder.state()), Some(b"before".to_vec()));

    let output = run(second_after("ulimit -c 0; ulimit -f 8", "commit 20000", &folder.state()));
    assert!(output.status.signal().is_some(), "{}", output.status);
    assert_eq!(temporaries(&folder.0).len(), 1);
    assert_eq!(get(&folder.state()), Some(b"before".to_vec()));
    assert_eq!(folder.names(), ["office.state", "office.state.lock"]);

    let output = run(second_after("trap '' XFSZ; ulimit -f 8", "commit 2000", &folder.state()));
    assert!(output.status.success(), "what fits is taken");
    assert_eq!(get(&folder.state()), Some(vec![b'a'; 2_000]));
}

/// A file system of 16 KiB in a name space of the process's own, where the system lets one make it.
#[test]
fn on_a_full_file_system_the_old_state_stays() {
    let folder = Folder::new();
    let mount = "mount -t tmpfs -o size=16k tmpfs \"$0\"";
    let small = |rest: &str| {
        let mut command = Command::new("unshare");
        command.arg("-rm").arg("sh").arg("-c").arg(format!("{mount} && {rest}")).arg(&folder.0);
        command
    };
    let may = small("true").stderr(Stdio::null()).status().is_ok_and(|status| status.success());
    if !may {
        eprintln!("not tried: this system does not let the test mount a small file system");
        return;
    }
    let mut command = small("exec \"$@\"");
    command.arg(std::env::current_exe().unwrap());
    let output = run(with_orders(command, "full 60000", &folder.state()));
    let said = String::from_utf8_lossy(&output.stdout);
    assert!(output.status.success() && said.contains("checked"), "{said}{}", String::from_utf8_lossy(&output.stderr));
}
