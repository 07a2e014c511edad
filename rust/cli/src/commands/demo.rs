//! A season, played in a temporary folder with the commands of this program.
//!
//! The keys are fixed, so that every run prints the same; they are for the demo only.

mod charges;
mod old;

use std::ffi::OsString;
use std::fs::{self, DirBuilder};
use std::io::Write;
use std::os::unix::fs::{DirBuilderExt, OpenOptionsExt};
use std::path::{Path, PathBuf};

use crate::arguments::{Arguments, Request, parse};
use crate::failure::Failure;
use crate::output::print;
use crate::table::Command;

/// What runs a command.
pub type Run = fn(&Command, &Arguments, &mut dyn Write) -> Result<(), Failure>;

/// A group's number, the block of ring numbers that it gets, and the numbers that it does not use.
const BLOCKS: [(u32, &str, &str); 3] = [
    (4, "S 20001 to S 20100", "S 20088 to S 20100"),
    (11, "M 5001 to M 5050", "M 5046 to M 5050"),
    (27, "K 701 to K 720", "none"),
];

/// The mark of the office: it renews the key of a group whose index is above it.
const MARK: &str = "10";

/// Plays the season; `run` runs each of its commands.
pub fn run(out: &mut dyn Write, run: Run) -> Result<(), Failure> {
    let folder = Folder::new(run)?;
    print(
        out,
        "The office begins a day, with an allowance of 30 for each group, and opens three groups, each with a key of its own.\n",
    )?;
    open_all(&folder)?;
    print(out, "\nThe office sends each group a block of ring numbers:\n")?;
    for (group, block, _) in BLOCKS {
        folder.office_sends(out, group, block)?;
    }
    label(&folder, out)?;
    return_unused(&folder, out)?;
    misdirect(&folder, out)?;
    one_key(&folder, out)?;
    keep_busy(&folder, out)?;
    with_counter(&folder, out)?;
    old::open_box(&folder, out)?;
    pool(&folder, out)?;
    seasons(&folder, out)?;
    charges::charge(&folder, out)?;
    print(out, "\nWhat the office holds:\n")?;
    print(out, &indented(&folder.play(&["office", "show"], "office.state")?))?;
    to_renew(&folder, out)?;
    print(out, "\nWhat the groups hold:\n")?;
    for (group, ..) in BLOCKS {
        print(out, &indented(&folder.play(&["group", "show"], &format!("group-{group}.state"))?))?;
    }
    Ok(())
}

/// The office lists the groups whose index is above its mark.
fn to_renew(folder: &Folder, out: &mut dyn Write) -> Result<(), Failure> {
    let line = format!("The groups with an index above {MARK}, in the order in which the office renews their keys:\n");
    print(out, &line)?;
    print(out, &indented(&folder.play(&["office", "nearly-full", "--mark", MARK, "--all"], "office.state")?))
}

/// The office and the groups start, each group with the key that the office has for it.
fn open_all(folder: &Folder) -> Result<(), Failure> {
    folder.play(&["office", "create"], "office.state")?;
    folder.day()?;
    for (group, ..) in BLOCKS {
        folder.write("key", format!("a fixed key, for the demo, of group {group}").as_bytes())?;
        folder.open_group(group, &[])?;
    }
    Ok(())
}

/// A group prints codes on its packets, and the office checks one of them.
fn label(folder: &Folder, out: &mut dyn Write) -> Result<(), Failure> {
    print(out, "\nGroup 4 prints a code on each of its packets, here on packets 0 to 2:\n")?;
    let codes = folder.play(&["group", "codes", "--packets", "0-2"], "group-4.state")?;
    print(out, &indented(&codes))?;
    let first = codes.trim_start().strip_prefix("0 ").and_then(|rest| rest.lines().next());
    let code = first.ok_or(Failure::Demo("a code is not there as it should be"))?;
    let check = |packet| ["office", "check-code", "--group", "4", "--code", code, "--packet", packet];
    let verdict = folder.play(&check("0"), "office.state")?;
    print(out, &format!("  the office checks the code of packet 0: {verdict}"))?;
    print(out, "  the same code on packet 1:\n")?;
    folder.refused(out, &check("1"), "office.state")
}

/// The groups return numbers; the first envelope comes in damaged, and then whole.
fn return_unused(folder: &Folder, out: &mut dyn Write) -> Result<(), Failure> {
    print(out, "\nThe groups return the numbers that they did not use:\n")?;
    for (group, _, unused) in BLOCKS {
        let envelope = folder.group_seals(group, unused)?;
        if group == BLOCKS[0].0 {
            print(out, &format!("  group {group:2}: an envelope of {envelope} bytes comes in, damaged in one bit:\n"))?;
            folder.damage("from-4", "damaged")?;
            folder.refused(out, &["office", "open", "--in", "damaged", "--out", "none"], "office.state")?;
        }
        let opened = folder.office_opens(group)?;
        print(
            out,
            &format!("  group {group:2}: an envelope of {envelope} bytes comes in and is opened as {opened}\n"),
        )?;
    }
    Ok(())
}

/// Arrivals in the wrong place are refused.
fn misdirect(folder: &Folder, out: &mut dyn Write) -> Result<(), Failure> {
    print(out, "\nOther arrivals that are refused:\n")?;
    print(out, "  repeated: the office gets the envelope of group 11 a second time:\n")?;
    folder.refused(out, &["office", "open", "--in", "from-11", "--out", "none"], "office.state")?;
    print(out, "  misdirected: group 27 gets the envelope for group 4:\n")?;
    folder.refused(out, &["group", "open", "--in", "to-4", "--out", "none"], "group-27.state")?;
    print(out, "  misdirected, and readdressed to 27:\n")?;
    folder.readdress("to-4", "S,4,", "S,27,", "readdressed")?;
    folder.refused(out, &["group", "open", "--in", "readdressed", "--out", "none"], "group-27.state")
}

/// An envelope for one of two groups with one key, readdressed to the other: it is refused there, and at the office.
fn one_key(folder: &Folder, out: &mut dyn Write) -> Result<(), Failure> {
    print(out, "\nGroups 8 and 9 were given one key, and the office sends group 8 a block:\n")?;
    folder.write("key", b"a fixed key, for the demo, of two groups")?;
    for group in [8, 9] {
        folder.open_group(group, &["--reuse-key"])?;
    }
    folder.office_sends(out, 8, "C 12001 to C 12100")?;
    folder.readdress("to-8", "S,8,", "S,9,", "readdressed")?;
    print(out, "  the same envelope, with its group digit changed to 9, at group 9:\n")?;
    folder.refused(out, &["group", "open", "--in", "readdressed", "--out", "none"], "group-9.state")?;
    print(out, "  and at the office, where group 9 has the same key too:\n")?;
    folder.refused(out, &["office", "open", "--in", "readdressed", "--out", "none"], "office.state")
}

/// A busy group spends its own allowance and not that of the others; the next day it goes on.
fn keep_busy(folder: &Folder, out: &mut dyn Write) -> Result<(), Failure> {
    print(out, "\nGroup 27 needs more and more blocks, and spends its allowance of the day:\n")?;
    for block in ["K 721 to K 740", "K 741 to K 760"] {
        folder.office_sends(out, 27, block)?;
    }
    print(out, "  another block for it:\n")?;
    folder.write("text", b"K 761 to K 780")?;
    folder.refused(out, &["office", "seal", "--group", "27", "--message", "text", "--out", "none"], "office.state")?;
    print(out, "The others go on, each with its own allowance:\n")?;
    folder.office_sends(out, 11, "M 5051 to M 5060")?;
    print(out, "What the office holds at the end of the day:\n")?;
    print(out, &indented(&folder.play(&["office", "show"], "office.state")?))?;
    print(out, "The next day begins, with the same allowance for each:\n")?;
    folder.day()?;
    folder.office_sends(out, 27, "K 761 to K 780")
}

/// A group that keeps a counter, and the office: a session in SANE, in a state file at each end.
fn with_counter(folder: &Folder, out: &mut dyn Write) -> Result<(), Failure> {
    print(
        out,
        "\nGroup 19 keeps a counter. It and the office start a session in SANE with counter 1, and compare tags:\n",
    )?;
    folder.write("key", b"a fixed key, for the demo, of group 19")?;
    let start = ["sane", "start", "--group", "19", "--key", "key", "--counter", "1"];
    let tag = folder.play(&start, "office-19.state")?;
    print(out, &format!("  the office: {tag}"))?;
    let expected = tag.trim_start_matches("tag ").trim_end();
    let tag = folder.play(&[&start[..], &["--expect", expected]].concat(), "group-19.state")?;
    print(out, &format!("  group 19:   {tag}"))?;
    let (office, group) = ("office-19.state", "group-19.state");
    for (from, to, way, text) in
        [(office, group, "goes out", "K 801 to K 820"), (group, office, "comes in", "K 817 to K 820")]
    {
        let (envelope, opened) = folder.sane_sends(from, to, text)?;
        print(out, &format!("  an envelope of {envelope} bytes {way} and is opened as {opened}\n"))?;
    }
    print(out, "  the last envelope comes in again:\n")?;
    folder.refused(out, &["sane", "open", "--in", "sane", "--out", "none"], office)?;
    print(out, "  the office starts another session with counter 1:\n")?;
    folder.refused(out, &[&start[..], &["--replace"]].concat(), office)?;
    print(out, &indented(&folder.play(&["sane", "show"], group)?))
}

/// The office pools unused rings that groups return as issue lines.
fn pool(folder: &Folder, out: &mut dyn Write) -> Result<(), Failure> {
    const STATE: &str = "pool.state";
    const LINES: &str = "4,C,20088,20100,20250304\n27,E,701,720,20250304\n11,C,20101,20150,20250305\n";
    print(out, "\nThree groups return unused rings as issue lines, and the office pools them:\n")?;
    print(out, &indented(LINES))?;
    folder.play(&["pool", "create"], STATE)?;
    folder.write("lines", LINES.as_bytes())?;
    print(out, &indented(&folder.play(&["pool", "add", "--in", "lines"], STATE)?))?;
    print(out, "  a line comes a second time:\n")?;
    folder.write("lines", b"27,E,701,720,20250304\n")?;
    folder.refused(out, &["pool", "add", "--in", "lines"], STATE)?;
    print(out, "The runs of the pool:\n")?;
    print(out, &indented(&folder.play(&["pool", "show", "--runs"], STATE)?))?;
    let found = folder.play(&["pool", "find", "C", "20101"], STATE)?;
    print(out, &format!("  where the ring C 20101 is: {found}"))
}

/// A group returns rings outside their season, and the office asks when these may be issued.
fn seasons(folder: &Folder, out: &mut dyn Write) -> Result<(), Failure> {
    const WINDOWS: &str =
        "A,0101,1231\nB,0101,1231\nC,0301,0930\nD,0101,1231\nE,1001,0229\nF,0101,1231\nG,0101,1231\nH,0101,1231\n";
    const LINES: &str = "4,C,20151,20160,20251115\n27,E,721,740,20251115\n";
    print(
        out,
        "\nRings of size C are issued from 1 March to 30 September, and those of size E over New Year. Two lines come:\n",
    )?;
    print(out, &indented(LINES))?;
    folder.write("windows", WINDOWS.as_bytes())?;
    folder.write("lines", LINES.as_bytes())?;
    folder.refused(out, &["pool", "add", "--windows", "windows", "--in", "lines"], "pool.state")?;
    let first = folder.play_alone(&["season", "first-day", "E", "20250301", "--windows", "windows"])?;
    print(out, &format!("  the first day for rings of size E from 1 March 2025 on: {first}"))
}

fn indented(text: &str) -> String {
    text.lines().map(|line| format!("{}\n", format!("  {line}").trim_end())).collect()
}

/// A temporary folder, removed at the end.
struct Folder(PathBuf, Run);

impl Drop for Folder {
    fn drop(&mut self) {
        let _ = fs::remove_dir_all(&self.0);
    }
}

impl Folder {
    fn new(run: Run) -> Result<Folder, Failure> {
        let path = std::env::temp_dir().join(format!("pevghazo-demo-{}", std::process::id()));
        DirBuilder::new().mode(0o700).create(&path).map_err(Failure::file("create the folder", &path))?;
        Ok(Folder(path, run))
    }

    /// Runs a command on a state file. Gives what it prints.
    fn play(&self, words: &[&str], state: &str) -> Result<String, Failure> {
        self.play_alone(&[words, &["--state", state]].concat())
    }

    /// Runs a command; the values of the options that name files, and letters, are files of this folder. Gives what it prints.
    fn play_alone(&self, words: &[&str]) -> Result<String, Failure> {
        const FILES: [&str; 8] =
            ["--state", "--key", "--message", "--in", "--out", "--out-dir", "--windows", "--prices"];
        let mut tokens: Vec<OsString> = Vec::new();
        let mut before = "";
        for word in words.iter().copied() {
            let is_file = FILES.contains(&before) || word.ends_with(".env");
            tokens.push(if is_file { self.0.join(word).into() } else { word.into() });
            before = word;
        }
        let mut printed = Vec::new();
        match parse(tokens)? {
            Request::Run(command, arguments) => (self.1)(command, &arguments, &mut printed)?,
            Request::Print(text) => printed.extend(text.bytes()),
        }
        Ok(self.within(&String::from_utf8_lossy(&printed)))
    }

    /// A text without the folder's own name, which every run has another.
    fn within(&self, text: &str) -> String {
        text.replace(&format!("{}/", self.0.display()), "")
    }

    /// The office begins a day.
    fn day(&self) -> Result<String, Failure> {
        self.play(&["office", "day", "--allowance", "30"], "office.state")
    }

    /// The office opens a group, and the group starts, with the key that was written and these options at the office.
    fn open_group(&self, group: u32, options: &[&str]) -> Result<(), Failure> {
        let number = group.to_string();
        let words = ["office", "open-group", "--group", &number, "--key", "key"];
        self.play(&[&words, options].concat(), "office.state")?;
        self.play(&["group", "start", "--group", &number, "--key", "key"], &format!("group-{group}.state"))?;
        Ok(())
    }

    /// The office seals a message for a group, which opens it; prints a line on that.
    fn office_sends(&self, out: &mut dyn Write, group: u32, text: &str) -> Result<(), Failure> {
        self.write("text", text.as_bytes())?;
        let (number, file) = (group.to_string(), format!("to-{group}"));
        let _ = fs::remove_file(self.0.join(&file));
        let mut words = vec!["office", "seal", "--group", &number, "--metadata-text", "rings"];
        words.extend(["--message", "text", "--out", &file]);
        self.play(&words, "office.state")?;
        self.play(&["group", "open", "--in", &file, "--out", "opened"], &format!("group-{group}.state"))?;
        let (envelope, opened) = (self.read(&file)?.len(), self.opened()?);
        print(out, &format!("  group {group:2}: an envelope of {envelope} bytes goes out and is opened as {opened}\n"))
    }

    /// A group seals a message for the office. Gives the envelope's length.
    fn group_seals(&self, group: u32, text: &str) -> Result<usize, Failure> {
        self.write("text", text.as_bytes())?;
        let file = format!("from-{group}");
        let words = ["group", "seal", "--metadata-text", "unused", "--message", "text", "--out", &file];
        self.play(&words, &format!("group-{group}.state"))?;
        Ok(self.read(&file)?.len())
    }

    fn office_opens(&self, group: u32) -> Result<String, Failure> {
        self.play(&["office", "open", "--in", &format!("from-{group}"), "--out", "opened"], "office.state")?;
        self.opened()
    }

    /// One end of a session in SANE seals a message and the other opens it. Gives the envelope's length and the message.
    fn sane_sends(&self, from: &str, to: &str, text: &str) -> Result<(usize, String), Failure> {
        self.write("text", text.as_bytes())?;
        let _ = fs::remove_file(self.0.join("sane"));
        self.play(&["sane", "seal", "--metadata-text", "rings", "--message", "text", "--out", "sane"], from)?;
        self.play(&["sane", "open", "--in", "sane", "--out", "opened"], to)?;
        Ok((self.read("sane")?.len(), self.opened()?))
    }

    /// The message that was opened last.
    fn opened(&self) -> Result<String, Failure> {
        let text = self.read("opened")?;
        let path = self.0.join("opened");
        fs::remove_file(&path).map_err(Failure::file("remove", &path))?;
        Ok(format!("\"{}\"", String::from_utf8_lossy(&text)))
    }

    /// Runs a command that is to be refused, or to find a mismatch, and prints why.
    fn refused(&self, out: &mut dyn Write, words: &[&str], state: &str) -> Result<(), Failure> {
        match self.play(words, state) {
            Err(failure) if [6, 7, 9].contains(&failure.status()) || failure.status() > 10 => {
                print(out, &format!("      {}\n", self.within(&failure.to_string())))
            }
            Err(failure) => Err(failure),
            Ok(_) => Err(Failure::Demo("something was accepted that had to be refused")),
        }
    }

    /// Changes a bit in the middle of an envelope.
    fn damage(&self, from: &str, to: &str) -> Result<(), Failure> {
        let mut bytes = self.read(from)?;
        let middle = bytes.len() / 2;
        if let Some(byte) = bytes.get_mut(middle) {
            *byte ^= 1;
        }
        self.write(to, &bytes)
    }

    /// Writes another start before the rest of an envelope.
    fn readdress(&self, from: &str, old: &str, new: &str, to: &str) -> Result<(), Failure> {
        let bytes = self.read(from)?;
        let rest =
            bytes.strip_prefix(old.as_bytes()).ok_or(Failure::Demo("an envelope does not start as it should"))?;
        self.write(to, &[new.as_bytes(), rest].concat())
    }

    fn read(&self, name: &str) -> Result<Vec<u8>, Failure> {
        let path = self.0.join(name);
        fs::read(&path).map_err(Failure::file("read", &path))
    }

    fn write(&self, name: &str, bytes: &[u8]) -> Result<(), Failure> {
        let path: &Path = &self.0.join(name);
        let file = fs::OpenOptions::new().write(true).create(true).truncate(true).mode(0o600).open(path);
        file.and_then(|mut file| file.write_all(bytes)).map_err(Failure::file("write", path))
    }
}
