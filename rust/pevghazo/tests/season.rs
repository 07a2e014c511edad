//! Issue seasons through the C library, by hand and beside the independent implementation.

mod common;

use common::pools::{Memory, Pools};
use common::seasons::{NO_DATES, Seasons, line_on, numbers_near_days, window};
use pevghazo::Window;
use pevghazo::raw::First;
use pevghazo_reference::days;

/// The question's answers.
const NONE: First = First { number: 0, found: false, day: 0 };
const BAD_LINE: First = First { number: 13, ..NONE };
const NO_DAY: First = First { number: 16, ..NONE };

/// The answer with a day.
fn found(day: u32) -> First {
    First { number: 0, found: true, day }
}

/// Days from which the question is asked, and the answers; 0 for none.
type Answers = &'static [(u32, u32)];

/// Windows, and the answers by hand.
const BY_HAND: [(u32, u32, Answers); 12] = [
    // Within a year, both ends included.
    (
        301,
        930,
        &[(20_250_228, 20_250_301), (20_250_301, 20_250_301), (20_250_930, 20_250_930), (20_251_001, 20_260_301)],
    ),
    (301, 930, &[(19_000_101, 19_000_301), (21_990_930, 21_990_930), (21_991_001, 0), (21_991_231, 0)]),
    (101, 105, &[(21_990_201, 0), (21_990_106, 0), (21_990_105, 21_990_105), (21_980_106, 21_990_101)]),
    // Over New Year.
    (
        1231,
        101,
        &[(20_250_102, 20_251_231), (20_251_230, 20_251_231), (20_251_231, 20_251_231), (20_260_101, 20_260_101)],
    ),
    (
        1231,
        101,
        &[(19_000_101, 19_000_101), (19_000_102, 19_001_231), (21_990_102, 21_991_231), (21_991_231, 21_991_231)],
    ),
    (
        301,
        228,
        &[(20_230_228, 20_230_228), (20_240_228, 20_240_228), (20_240_229, 20_240_301), (20_000_229, 20_000_301)],
    ),
    // 29 February and 29 February: empty in common years.
    (
        229,
        229,
        &[
            (20_960_301, 21_040_229),
            (21_960_301, 0),
            (19_000_101, 19_040_229),
            (20_000_229, 20_000_229),
            (21_960_229, 21_960_229),
        ],
    ),
    // An opening on it means 1 March in a common year, after the direction is told.
    (
        229,
        301,
        &[(20_230_101, 20_230_301), (20_230_302, 20_240_229), (19_000_228, 19_000_301), (21_000_101, 21_000_301)],
    ),
    (
        229,
        227,
        &[(20_230_228, 20_230_301), (20_240_228, 20_240_229), (20_230_227, 20_230_227), (20_240_302, 20_240_302)],
    ),
    // A closing on it means 28 February in a common year.
    (
        1101,
        229,
        &[(20_230_228, 20_230_228), (20_230_301, 20_231_101), (20_240_229, 20_240_229), (20_240_301, 20_241_101)],
    ),
    (
        228,
        229,
        &[(20_230_301, 20_240_228), (20_240_229, 20_240_229), (21_000_228, 21_000_228), (21_000_301, 21_010_228)],
    ),
    // One day.
    (704, 704, &[(20_250_703, 20_250_704), (20_250_704, 20_250_704), (20_250_705, 20_260_704), (21_990_705, 0)]),
];

#[test]
fn first_days_by_hand() {
    for (opening, closing, days) in BY_HAND {
        let seasons = Seasons::all(window(opening, closing));
        for (day, first) in days {
            let expected = if *first == 0 { NONE } else { found(*first) };
            assert_eq!(seasons.first_day(&line_on(*day)), expected, "{opening:04} to {closing:04} from {day}");
            let number = if first == day { 0 } else { 17 };
            assert_eq!(
                Pools::new().add_in_season(&seasons, &line_on(*day)),
                number,
                "{opening:04} to {closing:04}, {day}"
            );
        }
    }
}

/// Windows that hold every day of every year.
#[test]
fn windows_that_hold_every_day() {
    for (opening, closing) in [(229, 228), (301, 229), (101, 1231), (102, 101), (1231, 1230), (705, 704)] {
        let seasons = Seasons::all(window(opening, closing));
        for day in
            days::all().iter().filter(|day| [1900, 1999, 2000, 2023, 2024, 2100, 2199].contains(&(*day / 10_000)))
        {
            assert_eq!(seasons.first_day(&line_on(*day)), found(*day), "{opening:04} to {closing:04} from {day}");
        }
    }
}

/// A day gets 16 exactly where it does not exist, whether it would be inside the window or not.
#[test]
fn days_that_do_not_exist_get_16() {
    let whole_year = Seasons::all(window(101, 1231));
    let no_day_but_one = Seasons::all(window(1231, 1231));
    let mut exist = 0;
    for day in numbers_near_days() {
        let line = line_on(day);
        let exists = days::exists(day);
        exist += u32::from(exists);
        assert_eq!(whole_year.first_day(&line), if exists { found(day) } else { NO_DAY }, "{day}");
        assert_eq!(Memory::zeroed().add_in_season(&whole_year, &line), if exists { 0 } else { 16 }, "{day}");
        let outside = if day % 10_000 == 1231 { 0 } else { 17 };
        assert_eq!(Memory::zeroed().add_in_season(&no_day_but_one, &line), if exists { outside } else { 16 }, "{day}");
    }
    assert_eq!(exist, 109_573);
}

/// The leap years at the edges, by hand.
#[test]
fn the_29th_of_february() {
    let seasons = Seasons::all(window(101, 1231));
    for (year, exists) in
        [(1900, false), (1904, true), (1999, false), (2000, true), (2096, true), (2100, false), (2104, true)]
    {
        let day = year * 10_000 + 229;
        assert_eq!(seasons.first_day(&line_on(day)), if exists { found(day) } else { NO_DAY }, "{day}");
        assert_eq!(Pools::new().add_in_season(&seasons, &line_on(day)), if exists { 0 } else { 16 }, "{day}");
    }
    for day in [0, 18_991_231, 22_000_101, 99_999_999] {
        assert_eq!(seasons.first_day(&line_on(day)), NO_DAY, "{day}");
        assert_eq!(Pools::new().add_in_season(&seasons, &line_on(day)), 16, "{day}");
    }
}

/// Whether a leap year has the month and the day.
fn in_leap_year(month: u8, day: u8) -> bool {
    let lengths = [31, 29, 31, 30, 31, 30, 31, 31, 30, 31, 30, 31];
    let length = usize::from(month).checked_sub(1).and_then(|place| lengths.get(place));
    length.is_some_and(|length| (1..=*length).contains(&day))
}

/// Every month and every day of one byte, as opening and as closing: 16 exactly where no leap year has the date.
#[test]
fn every_date_of_two_bytes() {
    let line = line_on(20_250_704);
    let inside = window(704, 704);
    let mut good = 0;
    for (month, day) in (0..=u8::MAX).flat_map(|month| (0..=u8::MAX).map(move |day| (month, day))) {
        let opening = Window { open_month: month, open_day: day, ..inside };
        let closing = Window { close_month: month, close_day: day, ..inside };
        good += u32::from(in_leap_year(month, day));
        for own in [opening, closing] {
            let seasons = Seasons::for_c(own, inside);
            let number = if in_leap_year(month, day) { 0 } else { 16 };
            // The line's day is an end of the window, so that it is inside.
            assert_eq!(
                seasons.first_day(&line),
                First { number, ..if number == 0 { found(20_250_704) } else { NONE } }
            );
            assert_eq!(Memory::zeroed().add_in_season(&seasons, &line), number, "{own:?}");
        }
    }
    assert_eq!(good, 366);
}

/// Every size has its own window, and the others' do not matter.
#[test]
fn only_the_window_of_the_lines_size_is_read() {
    let months: [Window; 8] = std::array::from_fn(|place| window(101 + 100 * place as u32, 128 + 100 * place as u32));
    let line = |size: u8, month: u32| format!("7,{},1,9,2025{month:02}14\n", char::from(b'A' + size)).into_bytes();
    for size in 0..8_u8 {
        for month in 1..=8 {
            let number = if month == u32::from(size) + 1 { 0 } else { 17 };
            assert_eq!(Pools::new().add_in_season(&Seasons::of(months), &line(size, month)), number);
        }
        for (month, day) in NO_DATES {
            let bad = Window { open_month: month, open_day: day, close_month: month, close_day: day };
            let mut sizes = [bad; 8];
            sizes[usize::from(size)] = months[usize::from(size)];
            let seasons = Seasons::of(sizes);
            for other in 0..8 {
                let number = if other == size { 0 } else { 16 };
                assert_eq!(Pools::new().add_in_season(&seasons, &line(other, u32::from(size) + 1)), number);
                assert_eq!(seasons.first_day(&line(other, u32::from(size) + 1)).number, number);
            }
        }
    }
}

/// What is wrong with a line, each alone and with the others: no line feed, no such day, a bad window, a day outside the window,
/// rings that are pooled, and a pool that is full.
#[derive(Clone, Copy, Debug)]
struct Wrong {
    line: bool,
    day: bool,
    window: bool,
    season: bool,
    pooled: bool,
    full: bool,
}

impl Wrong {
    /// All of them.
    fn all() -> impl Iterator<Item = Wrong> {
        (0..64_u32).map(|bits| {
            let [line, day, window, season, pooled, full] = std::array::from_fn(|place| bits >> place & 1 == 1);
            Wrong { line, day, window, season, pooled, full }
        })
    }

    /// The number: that of the first check which is met.
    fn number(self) -> u32 {
        let checks =
            [(self.line, 13), (self.day || self.window, 16), (self.season, 17), (self.pooled, 14), (self.full, 15)];
        checks.into_iter().find(|(met, _)| *met).map_or(0, |(_, number)| number)
    }

    /// A line of size C for a window from March to September.
    fn bytes(self) -> String {
        let day = match (self.day, self.season) {
            (false, false) => 20_250_615,
            (false, true) => 20_251_001,
            (true, false) => 20_250_631,
            (true, true) => 20_251_131,
        };
        let rings = if self.pooled { "100,5000" } else { "7000,7001" };
        format!("7,C,{rings},{day}{}", if self.line { "" } else { "\n" })
    }
}

/// A pool of so many runs, of one ring of size C each, from the number 100 on.
fn pool_of(runs: u32) -> Pools {
    Pools::of((0..runs).map(|place| ('C', 100 + 2 * place, 100 + 2 * place)))
}

/// 13, 16, 17, 14, 15: of all that are met the first in this order is given, and the pool stays.
#[test]
fn the_order_of_the_numbers() {
    let (good, bad) = (window(301, 930), [window(230, 930), window(301, 931), window(0, 0)]);
    let (roomy, full) = (pool_of(255), pool_of(256));
    for wrong in Wrong::all() {
        for bad in bad {
            let own = if wrong.window { bad } else { good };
            let mut pools = if wrong.full { full.clone() } else { roomy.clone() };
            let (seasons, line) = (Seasons::for_c(own, bad), wrong.bytes());
            assert_eq!(pools.add_in_season(&seasons, line.as_bytes()), wrong.number(), "{wrong:?}");
            let first = match wrong.number() {
                13 => BAD_LINE,
                16 => NO_DAY,
                _ => found(if wrong.season { 20_260_301 } else { 20_250_615 }),
            };
            assert_eq!(seasons.first_day(line.as_bytes()), first, "{wrong:?}");
        }
    }
}

/// A full pool takes what touches a run, inside the season only.
#[test]
fn a_full_pool_inside_the_season() {
    let mut pools = pool_of(256);
    let seasons = Seasons::all(window(301, 930));
    assert_eq!(pools.add_in_season(&seasons, b"7,C,101,101,20250228\n"), 17);
    assert_eq!(pools.add_in_season(&seasons, b"7,C,101,101,20250229\n"), 16);
    assert_eq!(pools.add_in_season(&seasons, b"7,C,1,1,20250301\n"), 15);
    assert_eq!(pools.add_in_season(&seasons, b"7,C,101,101,20250301\n"), 0);
    assert_eq!((pools.add_in_season(&seasons, b"7,C,1,1,20250930\n"), pools.memory.record().used), (0, 256));
}

/// The additions without windows look at no day, as before.
#[test]
fn without_windows_any_eight_digits_are_a_day() {
    let mut pools = Pools::new();
    for (place, day) in [0, 18_991_231, 20_250_229, 22_000_101, 99_999_999].into_iter().enumerate() {
        assert_eq!(pools.add(format!("7,C,{0},{0},{day:08}\n", 1 + 2 * place).as_bytes()), 0, "{day}");
    }
}

/// What is no line gets 13, whatever the windows are.
#[test]
fn bytes_that_are_no_line() {
    let long = [line_on(20_250_704), vec![0; 1 << 20]].concat();
    let texts: [&[u8]; 9] = [
        b"",
        b"\n",
        b"7,C,12001,12100,20250704",
        b"7,C,12001,12100,20250704\r\n",
        b"7,I,12001,12100,20250704\n",
        b"32,C,12001,12100,20250704\n",
        b"7,C,12001,12100,2025070\n",
        b"7,C,12001,12100,202507041\n",
        &long,
    ];
    for own in [window(101, 1231), window(704, 704), window(1231, 1231), window(1301, 1301)] {
        for text in texts {
            assert_eq!(Pools::new().add_in_season(&Seasons::all(own), text), 13);
            assert_eq!(Seasons::all(own).first_day(text), BAD_LINE);
        }
    }
}
