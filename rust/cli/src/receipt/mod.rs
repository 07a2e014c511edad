//! The receipt for the lines of an input that were charged: as text for people, as a table for spreadsheets and scripts, and as a page to
//! print.
//!
//! It is worked out from a [`Sale`] by the proved library alone, which prices each line. A sale and a number give the same receipt, byte
//! for byte, whenever they are asked for it: nothing of the day or of the machine goes into it.

mod page;
mod text;

use std::collections::HashSet;

use pevghazo::{TILL_LINES, Till};

use crate::failure::Failure;
use crate::prices::PriceList;
use crate::refused::{Reason, Refused};
use crate::windows::size_in;
pub use text::totals as totals_text;

/// What a receipt is worked out from.
#[derive(Clone, Debug, PartialEq, Eq)]
pub struct Sale {
    /// The till before it.
    pub before: Till,
    /// The prices.
    pub list: PriceList,
    /// The lines of the input, as they were read.
    pub lines: Vec<Vec<u8>>,
}

impl Sale {
    /// The most lines of an input: a till takes no more.
    pub const MOST: usize = TILL_LINES as usize;
}

/// A line that was charged.
struct Charged<'a> {
    /// Its place in the input.
    place: u64,
    /// Its bytes.
    line: &'a [u8],
    /// How many rings it has, by the till's exact total.
    rings: u64,
    /// The price of a hundred of them, in pence.
    price: u32,
    /// What was charged, in pence.
    charge: u64,
}

/// Totals of some lines.
#[derive(Clone, Copy, Debug, PartialEq, Eq)]
pub struct Totals {
    /// How many lines there are.
    pub lines: u64,
    /// What was charged for them, in pence.
    pub charged: u64,
    /// What they come to exactly, in hundredths of a penny.
    pub exact: u64,
}

impl From<Till> for Totals {
    /// All that is booked in a till.
    fn from(till: Till) -> Totals {
        Totals { lines: till.lines(), charged: till.charged(), exact: till.exact() }
    }
}

impl Totals {
    /// What was booked since these totals were the till's.
    fn since(self, before: Totals) -> Totals {
        Totals {
            lines: self.lines - before.lines,
            charged: self.charged - before.charged,
            exact: self.exact - before.exact,
        }
    }

    /// How far the two totals may lie apart by the proved bound, half a penny for each line, in hundredths of a penny.
    pub fn bound(self) -> u64 {
        50 * self.lines
    }
}

/// A receipt.
pub struct Receipt<'a> {
    /// Its number.
    pub number: u32,
    /// How many lines the input has.
    pub lines: u64,
    /// The till after it.
    pub after: Till,
    /// The refused lines.
    pub refused: Refused,
    /// The till before it.
    before: Till,
    /// The charged lines.
    charged: Vec<Charged<'a>>,
}

impl<'a> Receipt<'a> {
    /// The receipt of this number for a sale: prices its lines in their order.
    pub fn new(number: u32, sale: &'a Sale) -> Receipt<'a> {
        let Sale { before, list, lines } = sale;
        let (mut charged, mut refused, mut till) = (Vec::new(), Refused::default(), *before);
        for (place, line) in (1..).zip(lines) {
            let booked = till.exact();
            match till.price(&list.prices(), line) {
                Ok(charge) => charged.push(Charged::new(place, line, list, till.exact() - booked, charge)),
                Err(refusal) => refused.add(place, Reason::of_charge(refusal, line)),
            }
        }
        Receipt { number, lines: lines.len() as u64, before: *before, after: till, charged, refused }
    }

    /// How many lines were charged.
    pub fn count(&self) -> u64 {
        self.charged.len() as u64
    }

    /// How many rings these have.
    pub fn rings(&self) -> u64 {
        self.charged.iter().map(|line| line.rings).sum()
    }

    /// What was charged, by the totals of the till before and after.
    pub fn totals(&self) -> Totals {
        Totals::from(self.after).since(self.before.into())
    }

    /// The places of those lines that this receipt has charged, byte for byte the same.
    pub fn charged_of(&self, lines: &[Vec<u8>]) -> Vec<u64> {
        let charged: HashSet<&[u8]> = self.charged.iter().map(|charged| charged.line).collect();
        (1..).zip(lines).filter(|(_, line)| charged.contains(&line[..])).map(|(place, _)| place).collect()
    }

    /// The failure of a sale with refused lines, of which so many were charged.
    pub fn refusal(&self, charged: u64) -> Option<Failure> {
        let (line, reason) = self.refused.first()?;
        Some(Failure::Lines { reason, line, refused: self.refused.count, done: Some(("charged", charged)) })
    }

    /// The text in a format of the table of commands.
    pub fn text(&self, format: &str) -> String {
        match format {
            "csv" => text::csv(self),
            "html" => page::html(self),
            _ => text::text(self),
        }
    }
}

impl<'a> Charged<'a> {
    /// A line that was charged, which came to so many hundredths of a penny: its rings times their price.
    fn new(place: u64, line: &'a [u8], list: &PriceList, exact: u64, charge: u64) -> Charged<'a> {
        let price = size_in(line).map_or(0, |size| list.prices().of(size));
        let rings = exact.checked_div(price.into()).unwrap_or(0);
        Charged { place, line, rings, price, charge }
    }

    /// Its group, size, first and last number, and day, as it has them.
    fn fields(&self) -> [&'a str; 5] {
        let text = str::from_utf8(self.line).unwrap_or_default().trim_end_matches('\n');
        let mut fields = [""; 5];
        fields.iter_mut().zip(text.split(',')).for_each(|(field, part)| *field = part);
        fields
    }
}
