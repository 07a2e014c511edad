//! A calendar as a page to print: HTML for A4. Letters and dashes tell what is open, and no colour has to.

use super::{Calendar, MONTHS, Season, short};
use crate::page::{document, escaped, row, table};
use crate::windows::Date;

/// How the page looks.
const STYLE: &str = include_str!("page.css");

/// The page.
pub fn html(calendar: &Calendar) -> String {
    let Calendar { year, file, .. } = calendar;
    let title = format!("Issue seasons of {year}");
    let file = escaped(file);
    let note = calendar.note().map(|note| format!("<p>{}</p>\n", escaped(&note))).unwrap_or_default();
    let body = format!(
        "<main>\n<h1>{title}</h1>\n<p>By the windows of {file}. Both ends of a window are included.</p>\n{}{note}{}</main>\n",
        windows(calendar),
        days(calendar)
    );
    document(&title, STYLE, &body)
}

/// The windows as written, how many days they hold in the year, and which.
fn windows(calendar: &Calendar) -> String {
    let year = calendar.year;
    let head = ["Size", "Opens", "Closes", "Days", &format!("Open in {year}")].map(str::to_string);
    let rows: String = calendar.seasons.iter().map(|season| window(calendar, season)).collect();
    table("windows", "The window of each size, as month and day", &head, &rows)
}

/// The row of a size's window.
fn window(calendar: &Calendar, season: &Season) -> String {
    let Season { size, window, open } = season;
    let (opening, closing) = (Date::opening(*window), Date::closing(*window));
    let meaning = escaped(&calendar.meaning(season));
    let cells = [opening.to_string(), closing.to_string(), open.len().to_string(), meaning];
    row(&size.to_string(), &cells.map(|cell| format!("<td>{cell}</td>")).concat())
}

/// The days: a row for each number and a column for each month.
fn days(calendar: &Calendar) -> String {
    let month = |month: &str| format!("<abbr title=\"{month}\">{}</abbr>", short(month));
    let head: Vec<String> = std::iter::once("Day".to_string()).chain(MONTHS.map(month)).collect();
    let cells = |day| (1..=12).map(|month| cell(calendar.letters(month, day))).collect::<String>();
    let rows: String = (1..=31).map(|day| row(&day.to_string(), &cells(day))).collect();
    table("days", "The letters of the sizes that are open on each day", &head, &rows)
}

/// The cell of a day, or of a day that the year does not have. Dashes keep the letters in their columns, and are not read out.
fn cell(letters: Option<String>) -> String {
    let Some(letters) = letters else { return "<td class=\"none\"></td>".to_string() };
    let parts = letters.as_bytes().chunk_by(|one, next| (*one == b'-') == (*next == b'-'));
    let part = |part: &[u8]| match String::from_utf8_lossy(part) {
        dashes if dashes.starts_with('-') => format!("<span aria-hidden=\"true\">{dashes}</span>"),
        letters => letters.into_owned(),
    };
    format!("<td>{}</td>", parts.map(part).collect::<String>())
}
