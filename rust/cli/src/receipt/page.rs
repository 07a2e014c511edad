//! A receipt as a page to print: HTML for A4.

use pevghazo::TILL_LINES;

use super::{Charged, Receipt, Totals};
use crate::money::{difference, exact_pounds, pounds, signed_pounds};
use crate::page::{document, escaped, row, table};
use crate::refused::Reason;

/// How the page looks.
const STYLE: &str = include_str!("page.css");

/// The page.
pub fn html(receipt: &Receipt) -> String {
    let title = format!("Receipt {}", receipt.number);
    let refused = if receipt.refused.count > 0 { refused(receipt) } else { String::new() };
    let body = format!("<main>\n<h1>{title}</h1>\n{}{}{refused}</main>\n", charged(receipt), totals(receipt));
    document(&title, STYLE, &body)
}

/// The charged lines.
fn charged(receipt: &Receipt) -> String {
    const HEAD: [&str; 9] =
        ["Line", "Group", "Size", "First", "Last", "Rings", "Day", "&pound; per 100", "Charge in &pound;"];
    let rows: String = receipt.charged.iter().map(charged_row).collect();
    let caption = format!("Charged lines: {} of {}, with {} rings", receipt.count(), receipt.lines, receipt.rings());
    table("lines", &caption, &HEAD.map(str::to_string), &rows)
}

/// The row of a charged line.
fn charged_row(line: &Charged) -> String {
    let Charged { place, rings, price, charge, .. } = line;
    let [group, size, first, last, day] = line.fields().map(escaped);
    let cells = [group, size, first, last, rings.to_string(), day, pounds((*price).into()), pounds(*charge)];
    row(&place.to_string(), &cells.map(|cell| format!("<td>{cell}</td>")).concat())
}

/// The totals of the receipt, and those of the till after it.
fn totals(receipt: &Receipt) -> String {
    let (own, till) = (receipt.totals(), Totals::from(receipt.after));
    let head = ["Item", "This receipt", "The till after it"].map(str::to_string);
    let rows = [
        ("Lines charged", own.lines.to_string(), format!("{} of {TILL_LINES}", till.lines)),
        ("Total charged", in_pounds(&pounds(own.charged)), in_pounds(&pounds(till.charged))),
        ("Exact total", in_pounds(&exact_pounds(own.exact)), in_pounds(&exact_pounds(till.exact))),
        ("Difference", apart(own), apart(till)),
        ("Difference at most", in_pounds(&exact_pounds(own.bound())), in_pounds(&exact_pounds(till.bound()))),
    ];
    let rows = rows.map(|(name, own, till)| row(name, &format!("<td>{own}</td><td>{till}</td>")));
    table("totals", "Totals", &head, &rows.concat())
}

/// A sum with the sign of pounds.
fn in_pounds(sum: &str) -> String {
    format!("&pound;{sum}")
}

/// How far the two totals lie apart.
fn apart(totals: Totals) -> String {
    let text = signed_pounds(difference(totals.charged, totals.exact));
    let (sign, sum) = text.split_at(text.find(|letter: char| letter.is_ascii_digit()).unwrap_or(0));
    // A minus as it is read out.
    let sign = if sign == "-" { "&minus;" } else { sign };
    format!("{sign}{}", in_pounds(sum))
}

/// The refused lines.
fn refused(receipt: &Receipt) -> String {
    let head = ["Line", "Number", "Reason"].map(str::to_string);
    let rows: String = receipt.refused.lines().map(refused_row).collect();
    table("refused", "Refused lines, which are not charged", &head, &rows)
}

/// The row of a refused line, which may hold any bytes, and is not shown.
fn refused_row((line, reason): (u64, Reason)) -> String {
    let cells = format!("<td>{}</td><td>{}</td>", reason.number.number(), escaped(&reason.to_string()));
    row(&line.to_string(), &cells)
}
