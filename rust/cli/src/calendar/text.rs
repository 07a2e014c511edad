//! A calendar for a terminal, of at most 80 columns.

use std::fmt::Write;

use super::{Calendar, MONTHS, Season};
use crate::windows::Date;

/// The calendar: the windows, and then the days of two halves of the year.
pub fn text(calendar: &Calendar) -> String {
    let Calendar { year, file, .. } = calendar;
    let mut text = format!("Issue seasons of {year}, by {file}\n\n{}\n", windows(calendar));
    text.push_str("The letters of the sizes that are open on each day:\n");
    for months in [1..=6, 7..=12] {
        text.push('\n');
        text.push_str(&head(months.clone()));
        (1..=31).for_each(|day| text.push_str(&row(calendar, months.clone(), day)));
    }
    text
}

/// Months of the year.
type Months = std::ops::RangeInclusive<u32>;

/// The windows as written, how many days they hold in the year, and which.
fn windows(calendar: &Calendar) -> String {
    let mut text = format!("size  window     days  open in {}\n", calendar.year);
    for season in &calendar.seasons {
        let Season { size, window, open } = season;
        let (opening, closing) = (Date::opening(*window), Date::closing(*window));
        let meaning = calendar.meaning(season);
        let _ = writeln!(text, "{size:5} {opening}-{closing}  {:4}  {meaning}", open.len());
    }
    if let Some(note) = calendar.note() {
        let _ = writeln!(text, "{note}");
    }
    text
}

/// The names of months.
fn head(months: Months) -> String {
    let names: String = months.map(|month| format!("{:10}", MONTHS[month as usize - 1])).collect();
    format!("day  {}\n", names.trim_end())
}

/// A day of each month, with the letters of the sizes that are open.
fn row(calendar: &Calendar, months: Months, day: u32) -> String {
    let cell = |month| format!("{:10}", calendar.letters(month, day).unwrap_or_default());
    let cells: String = months.map(cell).collect();
    format!("{}\n", format!("{day:3}  {cells}").trim_end())
}
