//! Windows that are held twice: by the C library, and by the independent implementation; and windows and lines for tests of seasons.

use std::hint::black_box;

use pevghazo::Window;
use pevghazo::raw::{self, First, WindowsRecord};
use pevghazo_reference::days;
use pevghazo_reference::issue::Line;
use pevghazo_reference::random::Random;
use pevghazo_reference::refusal::Number;
use pevghazo_reference::season::{Date, Window as ReferenceWindow, Windows as Reference};

/// The window from one date of four digits, month and day, to another.
pub fn window(opening: u32, closing: u32) -> Window {
    let [open_month, open_day, close_month, close_day] =
        [opening / 100, opening % 100, closing / 100, closing % 100].map(|number| number as u8);
    Window { open_month, open_day, close_month, close_day }
}

/// A line of size C on a day.
pub fn line_on(day: u32) -> Vec<u8> {
    Line { group: 7, size: 'C', first: 12_001, last: 12_100, day }.bytes()
}

/// The same window for the independent implementation.
pub fn reference_of(window: Window) -> ReferenceWindow {
    let date = |month, day| Date { month, day };
    ReferenceWindow {
        opening: date(window.open_month, window.open_day),
        closing: date(window.close_month, window.close_day),
    }
}

/// The answer of the independent implementation as the library gives it.
pub fn first_of(answer: Result<Option<u32>, Number>) -> First {
    match answer {
        Ok(Some(day)) => First { number: 0, found: true, day },
        Ok(None) => First { number: 0, found: false, day: 0 },
        Err(number) => First { number: number.number().into(), found: false, day: 0 },
    }
}

/// The windows of all sizes, on both sides.
#[derive(Clone, Copy, Debug)]
pub struct Seasons {
    pub record: WindowsRecord,
    pub reference: Reference,
}

impl Seasons {
    /// These windows, for the sizes A to H.
    pub fn of(sizes: [Window; 8]) -> Seasons {
        Seasons { record: WindowsRecord { sizes }, reference: Reference(sizes.map(reference_of)) }
    }

    /// One window for all sizes.
    pub fn all(window: Window) -> Seasons {
        Seasons::of([window; 8])
    }

    /// A window for size C, and another for all other sizes.
    pub fn for_c(own: Window, others: Window) -> Seasons {
        let mut sizes = [others; 8];
        sizes[2] = own;
        Seasons::of(sizes)
    }

    /// The window of a size.
    pub fn of_size(&self, size: char) -> Window {
        self.record.sizes[size as usize - 'A' as usize]
    }

    /// The first permitted day for a line: the library's answer is that of the independent implementation, and neither windows nor
    /// line are altered.
    pub fn first_day(&self, line: &[u8]) -> First {
        let (windows, copy) = (self.record, line.to_vec());
        let first = raw::first_day(&self.record, line);
        assert_eq!(first, first_of(self.reference.first_day(line)), "{} {:?}", line.escape_ascii(), self.record);
        self.stay(&windows);
        assert!(black_box(line) == copy, "the line is altered");
        first
    }

    /// The windows are as they were.
    pub fn stay(&self, before: &WindowsRecord) {
        assert!(black_box(&self.record) == before, "the windows are altered");
    }
}

/// Dates that no leap year has; the month times 100 plus the day of the last four is that of a date.
pub const NO_DATES: [(u8, u8); 16] = [
    (0, 0),
    (0, 1),
    (1, 0),
    (13, 1),
    (2, 30),
    (2, 31),
    (4, 31),
    (6, 31),
    (9, 31),
    (11, 31),
    (12, 32),
    (255, 255),
    (1, 129),
    (1, 201),
    (0, 101),
    (11, 131),
];

/// A date of a leap year: often 29 February, or one beside it or at an end of the year.
fn any_date(random: &mut Random) -> u32 {
    match random.below(8) {
        0 | 1 => 229,
        2 => random.pick(&[227, 228, 301, 302]),
        3 => random.pick(&[101, 102, 1230, 1231]),
        _ => any_day(random) % 10_000,
    }
}

/// A day that exists.
pub fn any_day(random: &mut Random) -> u32 {
    random.pick(days::all())
}

/// A window of such dates, often of equal ones.
pub fn any_window(random: &mut Random) -> Window {
    let opening = any_date(random);
    let closing = if random.once_in(8) { opening } else { any_date(random) };
    window(opening, closing)
}

/// The same with an opening or a closing that no leap year has.
pub fn bad_window(random: &mut Random) -> Window {
    let (month, day) = random.pick(&NO_DATES);
    let good = any_window(random);
    match random.once_in(2) {
        true => Window { open_month: month, open_day: day, ..good },
        false => Window { close_month: month, close_day: day, ..good },
    }
}

/// The windows of eight sizes, one in six with a date that no leap year has.
pub fn any_seasons(random: &mut Random) -> Seasons {
    Seasons::of([(); 8].map(|()| if random.once_in(6) { bad_window(random) } else { any_window(random) }))
}

/// The number of a day that mostly does not exist.
pub fn no_day(random: &mut Random) -> u32 {
    let day = any_day(random);
    match random.below(6) {
        0 => day / 10_000 * 10_000 + 229,
        1 => day / 100 * 100 + random.pick(&[0, 30, 31, 32, 99]),
        2 => day / 10_000 * 10_000 + random.pick(&[0, 13, 99]) * 100 + day % 100,
        3 => random.pick(&[0, 18_991_231, 22_000_101, 99_999_999]),
        4 => random.pick(&[1_899, 2_200, 0, 9_999]) * 10_000 + day % 10_000,
        _ => random.below(100_000_000) as u32,
    }
}

/// All numbers of years, months and days around those that exist, and some far away.
pub fn numbers_near_days() -> impl Iterator<Item = u32> {
    let of_month = |month: u32| (0..=32).chain([99]).map(move |day| 100 * month + day);
    let of_year = move |year: u32| (0..=13).chain([99]).flat_map(of_month).map(move |date| 10_000 * year + date);
    (1_899..=2_200).chain([0, 1, 200, 1_800, 2_300, 2_999, 9_999]).flat_map(of_year)
}

/// A day for a window: one of its ends in some year, or at most two days from it; any day; now and then one that does not exist.
pub fn day_for(random: &mut Random, window: Window) -> u32 {
    let years = [1900, 1903, 1904, 1999, 2000, 2023, 2024, 2096, 2100, 2103, 2104, 2196, 2199];
    let [opening, closing] = [(window.open_month, window.open_day), (window.close_month, window.close_day)]
        .map(|(month, day)| random.pick(&years) * 10_000 + u32::from(month) * 100 + u32::from(day));
    match random.below(8) {
        0 => no_day(random),
        1 | 2 => any_day(random),
        3 | 4 => near_day(random, closing),
        _ => near_day(random, opening),
    }
}

/// A day that exists, at most two days from where this one stands or would stand in the calendar.
fn near_day(random: &mut Random, day: u32) -> u32 {
    let all = days::all();
    let place = all.partition_point(|earlier| *earlier < day) + random.below(5);
    all[place.saturating_sub(2).min(all.len() - 1)]
}
