//! Random windows, lines and years, beside the independent implementation.

mod common;

use common::Folder;
use pevghazo_reference::days;
use pevghazo_reference::pool::Pool;
use pevghazo_reference::random::Random;
use pevghazo_reference::refusal::Number;
use pevghazo_reference::season::{Date, Window, Windows};

/// A date, of those near 29 February and New Year more often than not, and now and then one that no year has.
fn any_date(random: &mut Random) -> Date {
    let (month, day) = match random.below(12) {
        0 => random.pick(&[(2, 30), (4, 31), (0, 1), (13, 1), (1, 0), (99, 99)]),
        1..=4 => random.pick(&[(2, 28), (2, 29), (2, 29), (3, 1)]),
        5 | 6 => random.pick(&[(1, 1), (12, 31)]),
        _ => (1 + random.below(12) as u8, 1 + random.below(28) as u8),
    };
    Date { month, day }
}

/// Windows, and the text of a file with them in any order.
fn any_windows(random: &mut Random) -> (Windows, String) {
    let windows = [(); 8].map(|()| Window { opening: any_date(random), closing: any_date(random) });
    let four = |date: Date| format!("{:02}{:02}", date.month, date.day);
    let line = |(size, window): (char, Window)| format!("{size},{},{}", four(window.opening), four(window.closing));
    let mut lines: Vec<String> = ('A'..='H').zip(windows).map(line).collect();
    lines.rotate_left(random.below(8));
    let end = random.pick(&["\n", "\r\n"]);
    (Windows(windows), lines.join(end) + random.pick(&["", end]))
}

/// Lines with days that exist and days that do not, some of them damaged.
fn any_lines(random: &mut Random) -> Vec<u8> {
    let mut input = Vec::new();
    for _ in 0..random.below(60) {
        let first = 1 + random.below(80);
        let (size, last) = (random.pick(&["A", "B", "H"]), first + random.below(6));
        let day = match random.below(8) {
            0 => random.pick(&[18_991_231, 22_000_101, 19_000_229, 20_230_229, 20_241_301, 0]),
            1 => 20_240_226 + random.below(8) as u32,
            2 => 21_990_000 + 100 * random.below(14) as u32 + random.below(33) as u32,
            _ => random.pick(days::all()),
        };
        let mut line = format!("{},{size},{first},{last},{day:08}\n", random.below(32)).into_bytes();
        if random.once_in(12) {
            let place = random.below(line.len());
            line[place] = random.pick(b"\n\r,0\0\xff");
        }
        input.extend(line);
    }
    input
}

/// What is printed in the place of a line: an answer, or the start of what is listed of a refusal.
fn printed(place: usize, answer: Result<Option<u32>, Number>) -> String {
    match answer {
        Ok(day) => day.map_or("none".to_string(), |day| day.to_string()),
        Err(number) => format!("line {}: number {}", place + 1, number.number()),
    }
}

/// A line of what is printed, without what is said of a refusal.
fn without_sentences(line: &str) -> String {
    line.split(": ").take(2).collect::<Vec<_>>().join(": ")
}

/// The status of a command whose first refusal is this one.
fn status(first: Option<Number>) -> i32 {
    first.map_or(0, |number| 10 + i32::from(number.number()))
}

/// The first permitted day of every line.
fn first_days(folder: &Folder, windows: &Windows, lines: &[&[u8]]) {
    let run = folder.run("season first-day --windows windows --in lines");
    let answers: Vec<_> = lines.iter().map(|line| windows.first_day(line)).collect();
    let expected: Vec<String> = answers.iter().enumerate().map(|(place, answer)| printed(place, *answer)).collect();
    let shown = String::from_utf8(run.printed).unwrap();
    assert_eq!(shown.lines().map(without_sentences).collect::<Vec<_>>(), expected, "{windows:?}");
    assert_eq!(run.status, status(answers.iter().find_map(|answer| answer.err())));
}

/// The lines added to a pool inside their season. Gives the numbers of the refusals.
fn additions(folder: &Folder, windows: &Windows, lines: &[&[u8]]) -> Vec<Number> {
    folder.done("pool --state pool create");
    let mut pool = Pool::default();
    let answers: Vec<_> = lines.iter().map(|line| pool.add_in_season(windows, line)).collect();
    let run = folder.run("pool --state pool add --windows windows --in lines");
    let refused = answers.iter().enumerate().filter_map(|(place, answer)| Some((place, answer.err()?)));
    let mut expected: Vec<String> = refused.clone().map(|(place, number)| printed(place, Err(number))).collect();
    let added = lines.len() - expected.len();
    expected.push(format!("added {added} of {} lines, {} rings", lines.len(), pool.rings()));
    let shown = String::from_utf8(run.printed).unwrap();
    assert_eq!(shown.lines().map(without_sentences).collect::<Vec<_>>(), expected, "{windows:?}");
    let numbers: Vec<Number> = refused.map(|(_, number)| number).collect();
    assert_eq!(run.status, status(numbers.first().copied()));
    let row = |(size, first, last): (char, u32, u32)| format!("{size},{first},{last},{}\n", last - first + 1);
    let runs = folder.done("pool --state pool show --runs --csv");
    assert_eq!(runs, format!("size,first,last,rings\n{}", pool.runs().map(row).collect::<String>()));
    numbers
}

/// Random inputs with random windows. Every answer occurs.
#[test]
fn any_inputs_beside_the_reference() {
    let mut random = Random::new(808);
    let mut numbers: Vec<Number> = Vec::new();
    for _ in 0..80 {
        let folder = Folder::new();
        let ((windows, text), input) = (any_windows(&mut random), any_lines(&mut random));
        folder.write("windows", text.as_bytes());
        folder.write("lines", &input);
        let lines: Vec<&[u8]> = input.split_inclusive(|byte| *byte == b'\n').collect();
        first_days(&folder, &windows, &lines);
        numbers.extend(additions(&folder, &windows, &lines));
    }
    for number in [13, 14, 16, 17] {
        assert!(numbers.iter().filter(|known| known.number() == number).count() > 20, "{number}");
    }
}

/// The letters of a day, as the independent implementation has them.
fn letters(windows: &Windows, day: u32) -> String {
    let is_open = |window: Window| window.seasons().is_ok_and(|seasons| seasons.permit(day));
    ('A'..='H').zip(windows.0).map(|(size, window)| if is_open(window) { size } else { '-' }).collect()
}

/// The dates of a year, as month and day, with the letters of each.
fn calendar(windows: &Windows, year: u32) -> Vec<(u32, String)> {
    let days = days::all().iter().filter(|day| **day / 10_000 == year);
    days.map(|day| (*day % 10_000, letters(windows, *day))).collect()
}

/// The row of a day for six months, as it is shown.
fn row(calendar: &[(u32, String)], first_month: u32, day: u32) -> String {
    let open = |month| calendar.iter().find(|(date, _)| *date == month * 100 + day).map_or("", |(_, open)| open);
    let cells: String = (first_month..first_month + 6).map(|month| format!("  {:8}", open(month))).collect();
    format!("{day:3}{cells}").trim_end().to_string()
}

/// The calendars of random windows and years: every cell, and how many days each size is open.
#[test]
fn any_calendars_beside_the_reference() {
    let mut random = Random::new(818);
    for _ in 0..40 {
        let folder = Folder::new();
        let ((windows, text), year) = (any_windows(&mut random), 1900 + random.below(300) as u32);
        folder.write("windows", text.as_bytes());
        let run = folder.run(&format!("season show --windows windows --year {year}"));
        let shown = String::from_utf8(run.printed).unwrap();
        let calendar = calendar(&windows, year);
        let expected = [1, 7].into_iter().flat_map(|month| (1..=31).map(move |day| (month, day)));
        let expected: Vec<String> = expected.map(|(month, day)| row(&calendar, month, day)).collect();
        let is_row = |line: &&str| line.get(..3).is_some_and(|day| day.trim().parse::<u32>().is_ok());
        assert_eq!(shown.lines().filter(is_row).collect::<Vec<_>>(), expected, "{year} {text}");
        for size in 'A'..='H' {
            let count = calendar.iter().filter(|(_, open)| open.contains(size)).count();
            let row = shown.lines().find(|line| line.starts_with(&format!("{size}     "))).unwrap();
            assert_eq!(row[15..21].trim(), count.to_string(), "{year} {row}");
        }
    }
}
