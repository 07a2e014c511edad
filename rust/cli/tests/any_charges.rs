//! Random prices and lines, beside the independent implementation, and beside sums that are made here in 128 bits.

mod common;

use common::Folder;
use common::tills::{CHARGE, RECEIPT, file_of};
use pevghazo_reference::charge::Till;
use pevghazo_reference::days;
use pevghazo_reference::random::Random;
use pevghazo_reference::refusal::Number;

/// Prices, of which some sizes have none.
fn any_prices(random: &mut Random) -> [u32; 8] {
    [(); 8].map(|()| match random.below(8) {
        0 | 1 => 0,
        2 => random.pick(&[1, 49, 50, 51, 99, 100, 101, 999_999, 1_000_000]),
        _ => 1 + random.below(2_000) as u32,
    })
}

/// Lines with days that exist and days that do not, some of them damaged.
fn any_lines(random: &mut Random) -> Vec<u8> {
    let mut input = Vec::new();
    for _ in 0..random.below(40) {
        let first = 1 + random.below(99_999_999);
        let rings = if random.once_in(6) { random.below(99_999_999) } else { random.below(200) };
        let (size, last) = (random.pick(&['A', 'B', 'C', 'D', 'E', 'F', 'G', 'H']), (first + rings).min(99_999_999));
        let day = if random.once_in(8) {
            random.pick(&[18_991_231, 22_000_101, 19_000_229, 20_230_229, 20_241_301, 0])
        } else {
            random.pick(days::all())
        };
        let mut line = format!("{},{size},{first},{last},{day:08}\n", random.below(32)).into_bytes();
        if random.once_in(12) {
            let place = random.below(line.len());
            line[place] = random.pick(b"\n\r,0\0\xff");
        }
        input.extend(line);
    }
    if random.once_in(6) {
        input.pop();
    }
    input
}

/// What a sale should give: for each line its charge or its number.
type Answers = Vec<Result<u64, Number>>;

/// The charge in a row of the table, or the number of a refusal.
fn answer(row: &str) -> Result<u64, u8> {
    let fields: Vec<&str> = row.split(',').collect();
    if fields[11].is_empty() { Ok(fields[9].parse().unwrap()) } else { Err(fields[11].parse().unwrap()) }
}

/// The rings and the price of a row, multiplied.
fn exact(row: &str) -> u128 {
    let fields: Vec<&str> = row.split(',').collect();
    fields[6].parse::<u128>().unwrap_or(0) * fields[8].parse::<u128>().unwrap_or(0)
}

/// Compares a table with what it should have, and its totals with sums that are made here. Gives these.
fn compare(table: &str, number: u32, answers: &Answers) -> (u64, u128, u128) {
    let rows: Vec<&str> = table.lines().skip(1).collect();
    let given: Vec<Result<u64, u8>> = rows.iter().map(|row| answer(row)).collect();
    let expected: Vec<Result<u64, u8>> =
        answers.iter().map(|answer| answer.map_err(|number| number.number())).collect();
    assert_eq!(given, expected, "{table}");
    for (place, row) in (1..).zip(&rows) {
        assert!(row.starts_with(&format!("{number},{place},")), "{row}");
    }
    let charges = given.iter().filter_map(|answer| answer.ok());
    (charges.clone().count() as u64, charges.map(u128::from).sum(), rows.iter().map(|row| exact(row)).sum())
}

#[test]
fn charges_beside_the_independent_implementation() {
    let mut random = Random::new(110);
    let (mut charged, mut refused) = (0, 0);
    for _ in 0..40 {
        let folder = Folder::new();
        folder.done("till --state till create");
        let (mut till, mut receipts, mut sums) = (Till::default(), 0, (0, 0, 0));
        for _ in 0..4 {
            let (prices, input) = (any_prices(&mut random), any_lines(&mut random));
            folder.write("prices", file_of(prices).as_bytes());
            folder.write("lines", &input);
            let lines = input.split_inclusive(|byte| *byte == b'\n');
            let answers: Answers = lines.map(|line| till.price(&prices, line)).collect();
            let run = folder.run(&format!("{CHARGE} --format csv"));
            let first = answers.iter().find_map(|answer| answer.err());
            assert_eq!(run.status, first.map_or(0, |number| 10 + i32::from(number.number())), "{}", run.said);
            refused += answers.iter().filter(|answer| answer.is_err()).count();
            if answers.iter().any(Result::is_ok) {
                receipts += 1;
                let table = String::from_utf8(run.printed).unwrap();
                let (lines, charges, exact) = compare(&table, receipts, &answers);
                sums = (sums.0 + lines, sums.1 + charges, sums.2 + exact);
                assert_eq!(folder.done(&format!("{RECEIPT} --format csv")), table);
            }
            let totals = folder.totals();
            assert_eq!(totals, (till.lines, till.charged, till.exact));
            assert_eq!((totals.0, u128::from(totals.1), u128::from(totals.2)), sums);
            assert!((100 * sums.1).abs_diff(sums.2) <= 50 * u128::from(sums.0));
        }
        charged += till.lines;
    }
    assert!(charged > 500 && refused > 200, "{charged} {refused}");
}
