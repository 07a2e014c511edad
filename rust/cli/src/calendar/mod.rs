//! A year's calendar of the sizes that are open.
//!
//! Which days the year has, and on which of them a size is open, is asked of the proved library alone, by its question for the first
//! permitted day. What a window means in the year is told from these days.

mod page;
mod text;

use pevghazo::{Size, Window, Windows};

use crate::windows::{Date, WindowsFile, has_day, line_of, wrong_dates};

/// The months.
const MONTHS: [&str; 12] = [
    "January",
    "February",
    "March",
    "April",
    "May",
    "June",
    "July",
    "August",
    "September",
    "October",
    "November",
    "December",
];

/// A year's calendar.
pub struct Calendar {
    /// The year.
    year: u32,
    /// The name of the file with the windows, as it is shown.
    file: String,
    /// The days of the year, in their order, each as the number of its eight digits.
    days: Vec<u32>,
    /// The sizes, in their order.
    seasons: Vec<Season>,
}

/// When a size is open in a year.
struct Season {
    /// The size.
    size: Size,
    /// Its window, as written.
    window: Window,
    /// The places of the open days among those of the year, rising.
    open: Vec<usize>,
}

impl Calendar {
    /// The calendar of a year.
    pub fn new(file: &WindowsFile, year: u32) -> Calendar {
        let all = (1..=12).flat_map(|month| (1..=31).map(move |day| year * 10_000 + month * 100 + day));
        let days: Vec<u32> = all.filter(|day| has_day(&line_of(Size::A, *day))).collect();
        let season = |size| Season { size, window: file.windows.of(size), open: open_days(&file.windows, size, &days) };
        let seasons = Size::ALL.into_iter().map(season).collect();
        Calendar { year, file: file.name.clone(), days, seasons }
    }

    /// The text in a format of the table of commands.
    pub fn text(&self, format: &str) -> String {
        if format == "html" { page::html(self) } else { text::text(self) }
    }

    /// For each size its letter where it is open on a day, and otherwise a dash; nothing if the year has no such day.
    fn letters(&self, month: u32, day: u32) -> Option<String> {
        let place = self.days.binary_search(&(self.year * 10_000 + month * 100 + day)).ok()?;
        let letter = |season: &Season| match season.open.binary_search(&place) {
            Ok(_) => season.size.to_string(),
            Err(_) => "-".to_string(),
        };
        Some(self.seasons.iter().map(letter).collect())
    }

    /// What a window means in the year.
    fn meaning(&self, season: &Season) -> String {
        let wrong = wrong_dates(season.window);
        if !wrong.is_empty() {
            return format!("no day: {}, which no year has", wrong.join(", "));
        }
        let spans: Vec<String> =
            season.open.chunk_by(|day, next| day + 1 == *next).map(|span| self.span(span)).collect();
        let spans = match &spans[..] {
            [] => "no day".to_string(),
            _ if season.open.len() == self.days.len() => "every day".to_string(),
            [span] => span.clone(),
            spans => format!("{}, over New Year", spans.join(" and ")),
        };
        format!("{spans}{}", if self.moves(season.window) { " *" } else { "" })
    }

    /// Days that follow each other, by the first and the last: as `1 Mar to 30 Sep`.
    fn span(&self, places: &[usize]) -> String {
        let name = |place: &usize| {
            let (month, day) = (self.days[*place] / 100 % 100, self.days[*place] % 100);
            format!("{day} {}", short(MONTHS[month as usize - 1]))
        };
        match places {
            [first, .., last] => format!("{} to {}", name(first), name(last)),
            places => places.iter().map(name).collect(),
        }
    }

    /// Whether the window has 29 February and the year has not. One with a date that no year has is never open.
    fn moves(&self, window: Window) -> bool {
        let (is_common, is_good) = (self.letters(2, 29).is_none(), wrong_dates(window).is_empty());
        is_common && is_good && (Date::opening(window).is_leap_day() || Date::closing(window).is_leap_day())
    }

    /// What is said of windows with 29 February, if there are some and the year has no such day.
    fn note(&self) -> Option<String> {
        let moved = self.seasons.iter().any(|season| self.moves(season.window));
        moved.then(|| {
            let year = self.year;
            format!("* {year} has no 29 February: an opening on it is 1 March, a closing 28 February.")
        })
    }
}

/// A month's name in three letters.
fn short(month: &str) -> &str {
    &month[..3]
}

/// The places of the days on which a size is open. The answer for a day is the next open one, from which the walk goes on; it ends where
/// that is after the year, or there is none, or the window is refused.
fn open_days(windows: &Windows, size: Size, days: &[u32]) -> Vec<usize> {
    let mut open = Vec::new();
    let mut place = 0;
    while place < days.len()
        && let Ok(Some(first)) = windows.first_day(&line_of(size, days[place]))
    {
        place += days[place..].partition_point(|day| *day < first);
        if place < days.len() {
            open.push(place);
        }
        place += 1;
    }
    open
}
