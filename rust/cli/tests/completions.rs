//! The completions for shells: the committed files are what the table of commands gives, and bash's do what they say.

mod common;

use std::path::Path;
use std::process::Command;

use common::{Folder, PROGRAM};

const FOLDER: &str = concat!(env!("CARGO_MANIFEST_DIR"), "/../../completions");
const FILES: [(&str, &str); 3] = [("bash", "pevghazo.bash"), ("zsh", "_pevghazo"), ("fish", "pevghazo.fish")];

#[test]
fn the_committed_files_are_those_of_the_table() {
    let folder = Folder::new();
    for (shell, file) in FILES {
        let made = folder.done(&format!("completions {shell}"));
        let path = Path::new(FOLDER).join(file);
        let committed = std::fs::read_to_string(&path).unwrap_or_default();
        assert!(committed == made, "{file} differs: `pevghazo completions {shell} > completions/{file}` writes it");
    }
    for line in ["completions csh", "completions", "completions bash zsh", "completions --help"] {
        assert!(folder.fails(2, line).contains("There are completions for bash, zsh, fish: "), "{line}");
    }
}

/// What bash offers after these words, the last of which is being typed.
fn offered(folder: &Folder, words: &[&str]) -> Vec<String> {
    let quoted: Vec<String> = words.iter().map(|word| format!("'{word}'")).collect();
    let script = format!(
        "source {FOLDER}/pevghazo.bash; COMP_WORDS=(pevghazo {}); COMP_CWORD={}; compopt() {{ :; }}; _pevghazo; printf '%s\\n' \"${{COMPREPLY[@]}}\"",
        quoted.join(" "),
        words.len()
    );
    let output = Command::new("bash").args(["--norc", "-c", &script]).current_dir(&folder.0).output().unwrap();
    assert!(output.status.success() && output.stderr.is_empty(), "{}", String::from_utf8_lossy(&output.stderr));
    let text = String::from_utf8(output.stdout).unwrap();
    text.lines().filter(|line| !line.is_empty()).map(str::to_string).collect()
}

#[test]
fn bash_offers_words_options_and_files() {
    let folder = Folder::new();
    folder.write("office.state", b"");
    assert!(Path::new(PROGRAM).exists());
    assert_eq!(offered(&folder, &["of"]), ["office"]);
    assert_eq!(offered(&folder, &["office", "op"]), ["open-group", "open"]);
    assert_eq!(offered(&folder, &["group", "s"]), ["start", "seal", "show"]);
    assert_eq!(offered(&folder, &["s"]), ["sane", "sae", "season"]);
    assert_eq!(offered(&folder, &["sane", "s"]), ["start", "seal", "show"]);
    assert_eq!(offered(&folder, &["sane", "start", "--n"]), ["--nonce"]);
    assert_eq!(offered(&folder, &["sane", "start", "--nonce", "of"]), ["office.state"]);
    assert_eq!(offered(&folder, &["sane", "start", "--counter", ""]), [""; 0]);
    assert_eq!(offered(&folder, &["sane", "--counter", "41", "sta"]), ["start"]);
    assert_eq!(offered(&folder, &["office", "seal", "--m"]), ["--message", "--metadata", "--metadata-text"]);
    assert_eq!(offered(&folder, &["office", "nearly-full", "--a"]), ["--all"]);
    assert_eq!(offered(&folder, &["office", "nearly-full", "--all", "--m"]), ["--mark"]);
    assert_eq!(offered(&folder, &["office", "--state", "office.state", "da"]), ["day"]);
    assert_eq!(offered(&folder, &["office", "day", "--state", "of"]), ["office.state"]);
    assert_eq!(offered(&folder, &["office", "day", "--allowance", ""]), [""; 0]);
    assert!(offered(&folder, &["group", "--state", "office", "seal", "--o"]).contains(&"--out".to_string()));
    assert_eq!(offered(&folder, &["keygen", "--o"]), ["--out"]);
    assert_eq!(offered(&folder, &["--v"]), ["--version"]);
    assert_eq!(offered(&folder, &["office", "day", "--v"]), [""; 0]);
    // The words that an option takes.
    assert_eq!(offered(&folder, &["group", "c"]), ["codes", "check-code"]);
    assert_eq!(offered(&folder, &["office", "codes", "--format", ""]), ["text", "csv", "html"]);
    assert_eq!(offered(&folder, &["office", "codes", "--format", "h"]), ["html"]);
    assert_eq!(offered(&folder, &["office", "codes", "--format", "=", "c"]), ["csv"]);
    assert_eq!(offered(&folder, &["office", "codes", "--format=h"]), ["--format=html"]);
    assert_eq!(offered(&folder, &["office", "codes", "--packets", ""]), [""; 0]);
    assert_eq!(offered(&folder, &["group", "--format", "html", "co"]), ["codes"]);
    // The words of a command after `help`.
    assert_eq!(
        offered(&folder, &["help", ""]),
        ["office", "group", "sane", "sae", "pool", "season", "till", "keygen", "demo", "help"]
    );
    assert_eq!(offered(&folder, &["help", "office", "op"]), ["open-group", "open"]);
    assert_eq!(offered(&folder, &["help", "office", "open", ""]), [""; 0]);
    // A value after `=`, which may be a word of its own.
    assert_eq!(offered(&folder, &["office", "day", "--state", "=", "of"]), ["office.state"]);
    assert_eq!(offered(&folder, &["office", "day", "--state=of"]), ["--state=office.state"]);
    assert_eq!(offered(&folder, &["office", "day", "--state", "="]), ["office.state"]);
    assert_eq!(offered(&folder, &["office", "--state", "=", "office.state", "da"]), ["day"]);
    assert_eq!(offered(&folder, &["office", "--state=office.state", "da"]), ["day"]);
    assert_eq!(offered(&folder, &["office", "day", "--allowance", "=", "1"]), [""; 0]);
}

/// The words of an option that other commands have with other words.
#[test]
fn bash_offers_seasons() {
    let folder = Folder::new();
    folder.write("windows.txt", b"");
    assert_eq!(offered(&folder, &["season", ""]), ["first-day", "show", "--help"]);
    assert_eq!(offered(&folder, &["season", "show", "--"]), ["--windows", "--year", "--format", "--out", "--help"]);
    assert_eq!(offered(&folder, &["season", "show", "--windows", "w"]), ["windows.txt"]);
    assert_eq!(offered(&folder, &["season", "show", "--year", ""]), [""; 0]);
    assert_eq!(offered(&folder, &["season", "show", "--format", ""]), ["text", "html"]);
    assert_eq!(offered(&folder, &["season", "--year", "2024", "show", "--format=h"]), ["--format=html"]);
    assert_eq!(offered(&folder, &["season", "show", "--format", "c"]), [""; 0]);
    assert_eq!(offered(&folder, &["group", "codes", "--format", ""]), ["text", "csv", "html"]);
    assert_eq!(offered(&folder, &["season", "first-day", "C", "20250304", "--w"]), ["--windows"]);
    assert_eq!(offered(&folder, &["pool", "add", "--windows=w"]), ["--windows=windows.txt"]);
    assert_eq!(offered(&folder, &["help", "season", "f"]), ["first-day"]);
}

#[test]
fn bash_offers_the_pool() {
    let folder = Folder::new();
    folder.write("office.state", b"");
    assert_eq!(offered(&folder, &["pool", ""]), ["create", "add", "show", "find", "--help"]);
    assert_eq!(offered(&folder, &["pool", "add", "--a"]), ["--all-or-none"]);
    assert_eq!(offered(&folder, &["pool", "add", "--in", "of"]), ["office.state"]);
    assert_eq!(
        offered(&folder, &["pool", "show", "--"]),
        ["--state", "--runs", "--csv", "--json", "--wait", "--restore", "--help"]
    );
    assert_eq!(offered(&folder, &["pool", "find", "C", "12001", "--s"]), ["--state"]);
}

/// A command that files follow, any number of them, and a folder.
#[test]
fn bash_offers_files_for_old_letters() {
    let folder = Folder::new();
    ["1.env", "2.env"].iter().for_each(|name| folder.write(name, b""));
    std::fs::create_dir(folder.0.join("out")).unwrap();
    assert_eq!(offered(&folder, &["sae", ""]), ["start", "open", "seal", "show", "--help"]);
    assert_eq!(offered(&folder, &["sae", "open", "1"]), ["1.env"]);
    let mut files = offered(&folder, &["sae", "open", "--state", "old", "1.env", ""]);
    files.sort();
    assert_eq!(files, ["1.env", "2.env", "out"]);
    assert_eq!(
        offered(&folder, &["sae", "open", "1.env", "--"]),
        ["--state", "--out-dir", "--format", "--wait", "--restore", "--help"]
    );
    assert_eq!(offered(&folder, &["sae", "open", "1.env", "--out-dir", ""]), ["out"]);
    assert_eq!(offered(&folder, &["sae", "open", "--out-dir=o"]), ["--out-dir=out"]);
    assert_eq!(offered(&folder, &["sae", "open", "--format", ""]), ["text", "csv"]);
    assert_eq!(offered(&folder, &["sae", "show", ""]), ["--state", "--json", "--wait", "--restore", "--help"]);
    assert_eq!(offered(&folder, &["help", "sae", "open", ""]), [""; 0]);
}
