//! Every day of the years 1900 to 2199 through the C library, beside a table that the independent implementation makes.

mod common;

use common::seasons::{Seasons, any_window, first_of, line_on, reference_of, window};
use common::some_cases;
use pevghazo::Window;
use pevghazo::raw::{self, PoolRecord};
use pevghazo_reference::days;

/// A day, whether it is permitted, and the first permitted day from it on.
type Row = (u32, bool, Option<u32>);

/// The table of a window. The first permitted day is found by going back from the last day, and remembering the one seen last.
fn table(own: Window) -> Vec<Row> {
    let seasons = reference_of(own).seasons().expect("a leap year has both dates");
    let mut next = None;
    let rows = days::all().iter().rev().map(|day| {
        let permitted = seasons.permit(*day);
        next = if permitted { Some(*day) } else { next };
        (*day, permitted, next)
    });
    rows.collect()
}

/// Asks for every day, and adds a line on it to an empty pool; gives how many days are permitted.
fn every_day(own: Window) -> usize {
    let windows = Seasons::for_c(own, window(0, 0)).record;
    let rows = table(own);
    assert_eq!(rows.len(), 109_573);
    for (day, permitted, first) in &rows {
        let line = line_on(*day);
        assert_eq!(raw::first_day(&windows, &line), first_of(Ok(*first)), "{own:?} from {day}");
        let mut pool = PoolRecord::empty();
        let number = raw::pool_add_in_season(&mut pool, &windows, &line);
        assert_eq!((number, pool.used), if *permitted { (0, 1) } else { (17, 0) }, "{own:?} on {day}");
    }
    rows.iter().filter(|(_, permitted, _)| *permitted).count()
}

/// Windows with 29 February or a day beside it at either end, with the days that they hold, by hand: there are 300 years, and 73 of
/// them have a 29 February.
#[test]
fn every_day_of_windows_around_29_february() {
    for (opening, closing, holds) in [
        (229, 229, 73),
        (228, 229, 300 + 73),
        (229, 301, 300 + 73),
        (229, 228, 109_573),
        (301, 229, 109_573),
        (301, 228, 109_573 - 73),
        (1231, 229, 300 * 60 + 73),
        (229, 101, 300 * 307 + 73),
        (1231, 101, 600),
        (101, 1231, 109_573),
    ] {
        assert_eq!(every_day(window(opening, closing)), holds, "{opening:04} to {closing:04}");
    }
}

/// The place of a date among the 366 of a leap year, from 0 on.
fn place(month: u8, day: u8) -> usize {
    let lengths = [31, 29, 31, 30, 31, 30, 31, 31, 30, 31, 30, 31];
    lengths[..usize::from(month) - 1].iter().sum::<usize>() + usize::from(day) - 1
}

/// How many days a window holds: the same in each year, going round from the opening to the closing, but for 29 February.
fn days_held(own: Window) -> usize {
    let from = place(own.open_month, own.open_day);
    let steps_to = |place: usize| (place + 366 - from) % 366;
    let length = steps_to(place(own.close_month, own.close_day)) + 1;
    let leap_days = usize::from(steps_to(place(2, 29)) < length);
    300 * (length - leap_days) + 73 * leap_days
}

/// Any windows, with 29 February at either end often.
#[test]
fn every_day_of_any_window() {
    some_cases("every_day_of_any_window", 1_000, |random| {
        let own = any_window(random);
        assert_eq!(every_day(own), days_held(own), "{own:?}");
    });
}
