//! Showing a till, to people and to scripts.

use std::io::Write;

use pevghazo::TILL_LINES;

use crate::arguments::Arguments;
use crate::commands::show::{json_word, word};
use crate::failure::Failure;
use crate::money::difference;
use crate::output::print;
use crate::receipt::{Totals, totals_text};
use crate::state::TillBook;
use crate::state_file::Used;

/// Shows how many receipts there are and whether the last one was handed out, the totals, and how far these lie apart and may.
pub fn show(arguments: &Arguments, out: &mut dyn Write) -> Result<(), Failure> {
    let used = Used::<TillBook>::open(arguments)?;
    let text = if arguments.has("json") { json(&used.state, used.generation()) } else { lines(&used.state) };
    // Whoever reads the output may be slow, and needs the state file no more.
    drop(used);
    print(out, &text)
}

/// For people.
fn lines(book: &TillBook) -> String {
    let (receipts, last, totals) = (book.receipts, word(&book.last), Totals::from(book.till));
    let charged = format!("lines charged  {} of {TILL_LINES}\n{}", totals.lines, totals_text(totals));
    format!("receipts       {receipts}\nlast receipt   {last}\n{charged}")
}

/// For scripts: a JSON object.
fn json(book: &TillBook, commit: u64) -> String {
    let (receipts, last) = (book.receipts, json_word(&book.last));
    let Totals { lines, charged, exact } = book.till.into();
    let apart = difference(charged, exact);
    format!(
        "{{\"commit\":{commit},\"receipts\":{receipts},\"receipt\":\"{last}\",\"lines\":{lines},\"charged\":{charged},\
         \"exact\":{exact},\"difference\":{apart}}}\n"
    )
}
