//! Charging for the rings of issue lines.
//!
//! Prices and lines are read, and all lines are priced on a copy of the till. Then the till after them is committed, together with what
//! the receipt is worked out from and a note that it was not handed out yet; then the receipt is handed out; then that is noted. A next
//! receipt does not take the place of one that was never handed out: `till receipt` gives it, and only then more is charged. A line that
//! the last receipt has charged is not charged twice, unless that is asked for: so a run that was killed can be run again, and so can one
//! with refused lines that were mended, once the others are taken out.

use std::io::Write;

use crate::arguments::Arguments;
use crate::commands::messages::typed;
use crate::failure::Failure;
use crate::lines::Lines;
use crate::money::pounds;
use crate::output::{Output, Time, check_standard, print, tell};
use crate::prices::PriceList;
use crate::receipt::{Receipt, Sale};
use crate::state::{TillBook, waits};
use crate::state_file::Used;
use crate::table::FORMATS;

use super::{NAME, note_handed_out};

/// Charges for the issue lines of an input: those that are accepted together, or none where one is refused and that is wanted.
pub fn charge(arguments: &Arguments, out: &mut dyn Write) -> Result<(), Failure> {
    let format = arguments.word("format", &FORMATS)?.unwrap_or(FORMATS[0]);
    check_standard()?;
    let (list, lines) = (PriceList::open(arguments)?, read_lines(arguments)?);
    let mut used = Used::<TillBook>::open(arguments)?;
    let output = Output::of(arguments, "out", |path| used.is_own(path))?.unwrap_or(Output::Standard);
    must_be_handed_out(&used, arguments)?;
    let sale = Sale { before: used.state.till, list, lines };
    if !arguments.has("again")
        && let Some(known) = Known::of(&used, &sale, arguments)
    {
        drop(used);
        return known.tell(out);
    }
    output.must_be_new()?;
    let receipt = Receipt::new(used.state.receipts + 1, &sale);
    if receipt.count() == 0 || (arguments.has("all-or-none") && receipt.refused.count > 0) {
        drop(used);
        return nothing_charged(&receipt, out);
    }
    let (text, done, after) = (receipt.text(format), told(&receipt), receipt.after);
    let refusal = receipt.refusal(receipt.count());
    drop(receipt);
    used.state.book(sale, after);
    commit(&mut used, arguments)?;
    let written = output.write(text.as_bytes(), Time::First, out);
    written.map_err(|failure| charged_all_the_same(failure, &used, arguments))?;
    note_handed_out(&mut used)?;
    tell(&done);
    refusal.map_or(Ok(()), Err)
}

/// All lines of the input; no more than a till takes.
fn read_lines(arguments: &Arguments) -> Result<Vec<Vec<u8>>, Failure> {
    let mut lines = Lines::open(arguments)?;
    let mut all = Vec::new();
    while let Some(line) = lines.next()? {
        if all.len() == Sale::MOST {
            return Err(Failure::ManyLines(lines.path));
        }
        all.push(line.to_vec());
    }
    Ok(all)
}

/// Refuses to charge where the last receipt waits: the next one would take its place.
fn must_be_handed_out(used: &Used<TillBook>, arguments: &Arguments) -> Result<(), Failure> {
    if !waits(&used.state.last) {
        return Ok(());
    }
    Err(Failure::NotNow(format!(
        "Receipt {}, for lines that were charged before, was not handed out: do that first, with `{}`. Nothing was charged now.",
        used.state.receipts,
        again(used, arguments)
    )))
}

/// What the last receipt has of a sale that is not to be charged twice.
struct Known {
    /// The number of the last receipt.
    receipt: u32,
    /// The places of the lines that it has charged, if the sale is not just its own.
    places: Vec<u64>,
    /// What is said of them.
    sentence: String,
}

impl Known {
    /// What the last receipt has of a sale: all of it, where input and prices are the same, or lines that it has charged.
    fn of(used: &Used<TillBook>, sale: &Sale, arguments: &Arguments) -> Option<Known> {
        let (last, receipt) = (&used.state.last.as_ref()?.content, used.state.receipt()?);
        let command = again(used, arguments);
        let (places, sentence) = if (&last.lines, last.list) == (&sale.lines, sale.list) {
            (Vec::new(), same_input(&receipt, &command))
        } else {
            let places = receipt.charged_of(&sale.lines);
            let sentence = known_lines(places.len(), *places.first()?, receipt.number, &command);
            (places, sentence)
        };
        Some(Known { receipt: receipt.number, places, sentence })
    }

    /// Lists the lines, and fails.
    fn tell(self, out: &mut dyn Write) -> Result<(), Failure> {
        let Known { receipt, places, sentence } = self;
        let listed = |place| format!("line {place}: charged already, in receipt {receipt}\n");
        print(out, &places.into_iter().map(listed).collect::<String>())?;
        Err(Failure::NotNow(sentence))
    }
}

/// What is said of the input of the last receipt, where it comes again.
fn same_input(receipt: &Receipt, command: &str) -> String {
    let (number, count, lines) = (receipt.number, receipt.count(), receipt.lines);
    let charged = if count < lines {
        format!("{count} of its {lines} lines, and the others were refused. ")
    } else {
        String::new()
    };
    format!(
        "This input was charged at these prices already, as receipt {number}: {charged}`{command}` gives that receipt again, and \
         `--again` charges the input once more."
    )
}

/// What is said of so many lines that the last receipt has charged.
fn known_lines(count: usize, first: u64, receipt: u32, command: &str) -> String {
    let (known, them) = if count == 1 {
        (format!("1 line of this input was charged already, in receipt {receipt}: line {first}"), "it")
    } else {
        let known = format!("{count} lines of this input were charged already, in receipt {receipt}");
        (format!("{known}; the first of them is line {first}"), "them")
    };
    format!(
        "{known}. Take {them} out, or charge {them} once more with `--again`; `{command}` gives that receipt again. Nothing was \
         charged now."
    )
}

/// Lists the refused lines where nothing is charged.
fn nothing_charged(receipt: &Receipt, out: &mut dyn Write) -> Result<(), Failure> {
    receipt.refused.list(out)?;
    print(out, &format!("charged 0 of {} lines\n", receipt.lines))?;
    receipt.refusal(0).map_or(Ok(()), Err)
}

/// What was done, for a person.
fn told(receipt: &Receipt) -> String {
    let (number, count, lines, sum) =
        (receipt.number, receipt.count(), receipt.lines, pounds(receipt.totals().charged));
    format!("Charged {count} of {lines} lines with {sum} pounds, as receipt {number}.")
}

/// Commits the till with its new receipt.
fn commit(used: &mut Used<TillBook>, arguments: &Arguments) -> Result<(), Failure> {
    used.commit().map_err(|error| match error.is_committed() {
        true => charged_all_the_same(Failure::State(error), used, arguments),
        false => Failure::NotCharged(error),
    })
}

/// A failure after the commit.
fn charged_all_the_same(failure: Failure, used: &Used<TillBook>, arguments: &Arguments) -> Failure {
    Failure::Charged { command: again(used, arguments), source: Box::new(failure) }
}

/// The command that gives the last receipt, as it is typed.
fn again(used: &Used<TillBook>, arguments: &Arguments) -> String {
    let restore = if used.is_older() { " --restore" } else { "" };
    typed(NAME, "receipt", arguments) + restore
}
