//! A receipt for a terminal, of at most 80 columns but for the reasons of refused lines; and as a table with commas.

use std::fmt::Write;

use pevghazo::TILL_LINES;

use super::{Charged, Receipt, Totals};
use crate::money::{difference, exact_pounds, pounds, signed_pounds};
use crate::refused::listed;

/// The receipt: the charged lines, their totals and those of the till, and the refused lines.
pub fn text(receipt: &Receipt) -> String {
    let mut text = format!("Receipt {}, with prices and charges in pounds\n\n", receipt.number);
    text.push_str(" line group size    first     last    rings      day  per 100        charge\n");
    receipt.charged.iter().for_each(|line| text.push_str(&row(line)));
    let _ = write!(text, "\nlines charged  {} of {}\n", receipt.count(), receipt.lines);
    let _ = writeln!(text, "rings          {}", receipt.rings());
    text.push_str(&totals(receipt.totals()));
    let after = Totals::from(receipt.after);
    let _ = write!(text, "\nThe till after this receipt:\nlines charged  {} of {TILL_LINES}\n", after.lines);
    text.push_str(&totals(after));
    if receipt.refused.count > 0 {
        text.push_str("\nRefused lines, which are not charged:\n");
        receipt.refused.lines().for_each(|(line, reason)| text.push_str(&listed(line, reason)));
    }
    text
}

/// A charged line.
fn row(line: &Charged) -> String {
    let (Charged { place, rings, price, charge, .. }, [group, size, first, last, day]) = (line, line.fields());
    let (price, charge) = (pounds((*price).into()), pounds(*charge));
    format!("{place:5} {group:>5} {size:>4} {first:>8} {last:>8} {rings:8} {day} {price:>8} {charge:>13}\n")
}

/// What was charged, what the lines come to exactly, and how far these lie apart.
pub fn totals(totals: Totals) -> String {
    let Totals { lines, charged, exact } = totals;
    let apart = signed_pounds(difference(charged, exact));
    let (charged, exact, bound) = (pounds(charged), exact_pounds(exact), exact_pounds(totals.bound()));
    let lines = if lines == 1 { "1 line".to_string() } else { format!("{lines} lines") };
    format!(
        "total charged  {charged} pounds\nexact total    {exact} pounds\n\
         difference     {apart} pounds, at most {bound} for {lines}\n"
    )
}

/// A table with commas: a row for each line of the input, in its order. No field needs quotes, and lines end with a line feed alone. There is
/// no row for all together, which a sum over a column would count twice; and of a refused line there is its number alone.
pub fn csv(receipt: &Receipt) -> String {
    let number = receipt.number;
    let charged = receipt.charged.iter().map(|line| (line.place, charged_fields(line)));
    let refused = receipt.refused.lines().map(|(line, reason)| (line, refused_fields(reason.number.number())));
    let mut rows: Vec<(u64, String)> = charged.chain(refused).collect();
    rows.sort_by_key(|(line, _)| *line);
    let rows = rows.into_iter().map(|(line, fields)| format!("{number},{line},{fields}\n"));
    format!("{HEAD}\n{}", rows.collect::<String>())
}

/// The names of the fields.
const HEAD: &str = "receipt,line,group,size,first,last,rings,day,price_pence,charge_pence,charge_pounds,refused";

/// The fields of a charged line.
fn charged_fields(line: &Charged) -> String {
    let (Charged { rings, price, charge, .. }, [group, size, first, last, day]) = (line, line.fields());
    format!("{group},{size},{first},{last},{rings},{day},{price},{charge},{},", pounds(*charge))
}

/// The fields of a refused line: only the number of its refusal.
fn refused_fields(number: u8) -> String {
    format!(",,,,,,,,,{number}")
}
