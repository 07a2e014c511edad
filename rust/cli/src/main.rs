//! The command line `pevghazo`: sealing for the office and for its groups, with the sessions in a state file, the opening of old letters,
//! a pool of unused rings in another state file, the seasons in which rings may be issued, and a till that charges for rings.
//!
//! Every command that alters a session works in the same order: read all inputs, open and lock the state file, make the call of
//! the proved library, commit the new state together with what belongs to it (the envelope, or the opened message), and only
//! then hand that out. A kill at any moment leaves the state before or after the call, and what was not handed out is still in
//! it. A pool's state is committed once for all lines of an input, and a till's too, with what its receipt is worked out from; that of
//! old letters after each letter, once its message is in its file. `docs/COMMANDS.md` is the manual.
//!
//! | module | what it holds |
//! |---|---|
//! | [`table`] | the table of commands, their options and help texts |
//! | [`arguments`] | the words and options of a command line, checked against the table |
//! | [`help`], [`completions`] | the help texts, and the completions for shells |
//! | [`commands`] | what each command does |
//! | [`end`] | the ends of sessions, and their sealing, opening and codes by the proved library |
//! | [`labels`] | the codes of packets as lines, as a table and as a page to print |
//! | [`letters`] | a box of old letters, the report on it, and the letters that were opened in a state file |
//! | [`by_size`] | small files with one line for each size, which windows and prices have |
//! | [`windows`] | the file with the windows of the sizes, and why their season refuses a line |
//! | [`calendar`] | a year's calendar of the sizes that are open, for a terminal and as a page to print |
//! | [`prices`], [`money`] | the file with the prices of the sizes, and sums of money as they are shown |
//! | [`receipt`] | the receipt for charged lines, as text, as a table and as a page to print |
//! | [`page`] | what pages to print have in common |
//! | [`lines`], [`progress`] | the lines of a long input, and how far it was read, for a terminal |
//! | [`refused`] | the refused lines of an input, remembered and listed |
//! | [`state`] | what a state file holds, and its bytes |
//! | [`keys`] | the keys that were used in a state file, and their fingerprints |
//! | [`starts`] | the nonces that were used in the state file of a session in SANE, under each key |
//! | [`tag`] | the tag of a start with a nonce, as it is shown and typed |
//! | [`state_file`] | opening, locking and committing a state file |
//! | [`input`], [`output`] | files and standard streams; an output is written as a whole or not at all |
//! | [`streams`] | the standard streams as the program was started with them |
//! | [`failure`] | everything that may go wrong, each with a sentence and an exit status |
#![deny(unsafe_code)]

mod arguments;
mod by_size;
mod calendar;
mod commands;
mod completions;
mod end;
mod failure;
mod help;
mod input;
mod keys;
mod labels;
mod letters;
mod lines;
mod money;
mod output;
mod page;
mod prices;
mod progress;
mod receipt;
mod refused;
mod starts;
mod state;
mod state_file;
#[allow(unsafe_code)]
mod streams;
mod table;
mod tag;
mod windows;

use std::io::{Write, stderr};
use std::process::ExitCode;

use arguments::Request;
use pevghazo_store::{fault, wipe_stack};
use streams::StandardOutput;

fn main() -> ExitCode {
    let status = done();
    wipe_stack();
    // Where a test looks for what is left in memory.
    let _ = fault::step("end", || Ok(()));
    ExitCode::from(status)
}

/// Does what the command line asks for, and gives the exit status.
#[inline(never)]
fn done() -> u8 {
    let mut out = StandardOutput::new();
    let done = arguments::parse(std::env::args_os().skip(1)).and_then(|request| match request {
        Request::Print(text) => output::print(&mut out, &text),
        Request::Run(command, arguments) => commands::run(command, &arguments, &mut out),
    });
    match done {
        Ok(()) => 0,
        Err(failure) => {
            // Where the sentence cannot be written, the exit status still says it.
            let _ = stderr().write_all(format!("pevghazo: {failure}\n").as_bytes());
            failure.status()
        }
    }
}
