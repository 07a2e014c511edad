//! The help texts, made from the table of commands.

use std::fmt::Write;

use crate::table::{COMMANDS, COMMON, Command};

/// The version of this program.
pub fn version() -> String {
    format!("pevghazo {}\n", env!("CARGO_PKG_VERSION"))
}

/// The list of all commands, or of those about one thing.
pub fn list(area: &str) -> String {
    let mut text = String::from("pevghazo: sealing of ring numbers, for the office and its groups\n\n");
    for command in COMMANDS.iter().filter(|command| area.is_empty() || command.area == area) {
        line(&mut text, &command.title(), command.about, 28);
    }
    text.push('\n');
    for option in &COMMON {
        let letter = option.letter.map(|letter| format!(", -{letter}")).unwrap_or_default();
        line(&mut text, &format!("{option}{letter}"), option.about, 28);
    }
    text.push_str("\n`--help` after a command shows its options. A file `-` is the standard input or output.\n");
    text.push_str(
        "\nExit status: 0 done; 2 command line; 3 state file; 4 input or output; 5 not now; 6 another group's or mode's;\n",
    );
    text.push_str("7 key or nonce used before; 8 state file is an older copy; 9 code or tag does not match, or ring not pooled;\n");
    text.push_str("11 to 32 refused, 10 and the refusal's number.\n");
    text.push_str("`man pevghazo` is the manual.\n");
    text
}

/// The help text of a command.
pub fn command(command: &'static Command) -> String {
    let mut text = format!("{}: {}\n\n  {0}", command.title(), command.about);
    if !command.words.is_empty() {
        let _ = write!(text, " {}", command.words);
    }
    for option in command.options {
        text.push_str(&if option.required { format!(" {option}") } else { format!(" [{option}]") });
    }
    text.push_str("\n\n");
    for option in command.options {
        line(&mut text, &option.to_string(), option.about, 22);
    }
    if !command.more.is_empty() {
        let _ = write!(text, "\n{}\n", command.more);
    }
    text
}

fn line(text: &mut String, left: &str, right: &str, width: usize) {
    let _ = writeln!(text, "  {left:width$} {right}");
}
