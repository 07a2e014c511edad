//! Charges and tills by document 02: values worked out by hand, the edges of prices and tills, and the bound for any list of lines.

use pevghazo_reference::charge::{LINES, PRICE_MAX, Till};
use pevghazo_reference::issue::Line;
use pevghazo_reference::random::Random;
use pevghazo_reference::refusal::Number;

/// A line of so many rings of a size.
fn line_of(size: char, rings: u32) -> Vec<u8> {
    Line { group: 7, size, first: 1, last: rings, day: 20_250_304 }.bytes()
}

/// What a line of so many rings of size C is charged at a price, from the till at first; and the exact total after it.
fn charge(rings: u32, price: u32) -> (Result<u64, Number>, u64) {
    let mut till = Till::default();
    let charged = till.price(&[0, 0, price, 0, 0, 0, 0, 0], &line_of('C', rings));
    assert_eq!((till.lines, till.charged), charged.map_or((0, 0), |charge| (1, charge)));
    (charged, till.exact)
}

#[test]
fn charges_by_hand() {
    for (rings, price, expected, exact) in [
        (1, 1, 0, 1),
        (1, 49, 0, 49),
        (1, 50, 1, 50),
        (1, 51, 1, 51),
        (7, 7, 0, 49),
        (17, 3, 1, 51),
        (1, 149, 1, 149),
        (3, 50, 2, 150),
        (3, 83, 2, 249),
        (5, 50, 3, 250),
        (251, 1, 3, 251),
        (3, 250, 8, 750),
        (100, 250, 250, 25_000),
        (1, 1_000_000, 10_000, 1_000_000),
        (99_999_949, 1, 999_999, 99_999_949),
        (99_999_950, 1, 1_000_000, 99_999_950),
        (99_999_999, 1, 1_000_000, 99_999_999),
        (99_999_999, 50, 50_000_000, 4_999_999_950),
        (99_999_999, 999_999, 999_998_990_000, 99_999_899_000_001),
        (99_999_999, 1_000_000, 999_999_990_000, 99_999_999_000_000),
    ] {
        assert_eq!(charge(rings, price), (Ok(expected), exact), "{rings} rings at {price}");
    }
}

/// Rings are counted from the first to the last, both included.
#[test]
fn rings_of_a_line() {
    for (line, expected) in [
        (&b"7,C,12001,12100,20250304\n"[..], 100),
        (b"0,C,12100,12100,20250304\n", 1),
        (b"31,C,99999998,99999999,20250304\n", 2),
        (b"31,C,1,99999999,20250304\n", 99_999_999),
    ] {
        let mut till = Till::default();
        assert_eq!(till.price(&[100; 8], line), Ok(expected));
        assert_eq!(till, Till { lines: 1, charged: expected, exact: 100 * expected });
    }
}

#[test]
fn sizes_that_are_not_sold() {
    for price in [0, PRICE_MAX + 1, u32::MAX] {
        assert_eq!(charge(1, price), (Err(Number::NotSold), 0), "{price}");
    }
    // Only the price of the line's own size is looked at.
    for (place, size) in ('A'..='H').enumerate() {
        let mut prices = [0; 8];
        prices[place] = 100;
        for other in 'A'..='H' {
            let expected = if other == size { Ok(9) } else { Err(Number::NotSold) };
            assert_eq!(Till::default().price(&prices, &line_of(other, 9)), expected, "{size} {other}");
        }
    }
}

/// The answer for a line of one ring at 150, which is charged 2, on a till; a refusal leaves it.
fn on(lines: u64, charged: u64, exact: u64) -> Result<u64, Number> {
    let before = Till { lines, charged, exact };
    let mut till = before;
    let answer = till.price(&[150; 8], &line_of('A', 1));
    let after =
        if answer.is_ok() { Till { lines: lines + 1, charged: charged + 2, exact: exact + 150 } } else { before };
    assert_eq!(till, after);
    answer
}

#[test]
fn tills_that_are_full() {
    assert_eq!((on(65_534, 0, 0), on(65_535, 0, 0)), (Ok(2), Ok(2)));
    for lines in [LINES, LINES + 1, u64::MAX] {
        assert_eq!(on(lines, 0, 0), Err(Number::TillFull), "{lines}");
    }
    assert_eq!((on(0, u64::MAX - 2, 0), on(0, u64::MAX - 1, 0)), (Ok(2), Err(Number::TillFull)));
    assert_eq!((on(0, 0, u64::MAX - 150), on(0, 0, u64::MAX - 149)), (Ok(2), Err(Number::TillFull)));
    assert_eq!((on(0, u64::MAX, 0), on(0, 0, u64::MAX)), (Err(Number::TillFull), Err(Number::TillFull)));
}

/// 13, 16, 19, 22.
#[test]
fn the_order_of_the_numbers() {
    let full = Till { lines: LINES, ..Till::default() };
    for (line, price, number) in [
        (&b"7,C,1,1,20250229"[..], 0, Number::Line),
        (b"7,C,1,1,20250229\n", 0, Number::NoDay),
        (b"7,C,1,1,18991231\n", 1, Number::NoDay),
        (b"7,C,1,1,22000101\n", 1, Number::NoDay),
        (b"7,C,1,1,20250228\n", 0, Number::NotSold),
        (b"7,C,1,1,20250228\n", 1, Number::TillFull),
    ] {
        let mut till = full;
        assert_eq!(till.price(&[price; 8], line), Err(number), "{}", line.escape_ascii());
        assert_eq!(till, full);
    }
    assert_eq!([19, 22], [Number::NotSold, Number::TillFull].map(Number::number));
}

/// A number from 1 to a limit that is small, middling or this one.
fn up_to(random: &mut Random, most: usize) -> u32 {
    let limit = random.pick(&[3, 100, most]);
    1 + random.below(limit) as u32
}

/// The total is the sum of the charges, and within half a penny a line of the exact total.
#[test]
fn any_list_is_within_its_bound() {
    let mut random = Random::new(11);
    for _ in 0..200 {
        let (mut till, mut sum) = (Till::default(), 0);
        let prices = [(); 8].map(|()| up_to(&mut random, 1_000_000));
        for lines in 1..=40 {
            let size = random.pick(&['A', 'B', 'C', 'D', 'E', 'F', 'G', 'H']);
            let rings = up_to(&mut random, 99_999_999);
            sum += till.price(&prices, &line_of(size, rings)).expect("it is sold, and there is room");
            assert_eq!((till.lines, till.charged), (lines, sum));
            assert!((100 * till.charged).abs_diff(till.exact) <= 50 * lines, "{till:?}");
        }
    }
}
