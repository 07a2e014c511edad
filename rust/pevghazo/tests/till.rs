//! Charges and tills through the C library, by hand and beside the independent implementation.

mod common;

use common::seasons::{line_on, numbers_near_days};
use common::tills::{Pence, Tills, line_of_rings};
use pevghazo::raw::{Priced, TillRecord};
use pevghazo_reference::days;

/// Rings and a price, with the charge and the exact amount by hand.
const BY_HAND: [(u32, u32, u64, u64); 26] = [
    // One ring.
    (1, 1, 0, 1),
    (1, 49, 0, 49),
    (1, 50, 1, 50),
    (1, 51, 1, 51),
    (1, 99, 1, 99),
    (1, 100, 1, 100),
    (1, 249, 2, 249),
    (1, 250, 3, 250),
    (1, 251, 3, 251),
    (1, 999_950, 10_000, 999_950),
    (1, 1_000_000, 10_000, 1_000_000),
    // The example of the header, and a hundred rings.
    (3, 250, 8, 750),
    (100, 250, 250, 25_000),
    (100, 1_000_000, 1_000_000, 100_000_000),
    // Products that end with 49, 50 and 51.
    (7, 7, 0, 49),
    (5, 30, 2, 150),
    (17, 3, 1, 51),
    (43, 43, 18, 1_849),
    (99_999_999, 999_951, 999_950_990_000, 99_995_099_000_049),
    (99_999_999, 999_950, 999_949_990_001, 99_994_999_000_050),
    (99_999_999, 999_949, 999_948_990_001, 99_994_899_000_051),
    // Very many rings.
    (99_999_949, 1, 999_999, 99_999_949),
    (99_999_950, 1, 1_000_000, 99_999_950),
    (99_999_999, 1, 1_000_000, 99_999_999),
    (99_999_999, 999_999, 999_998_990_000, 99_999_899_000_001),
    (99_999_999, 1_000_000, 999_999_990_000, 99_999_999_000_000),
];

/// The most that one line comes to: its charge and its exact amount.
const MOST: (u64, u64) = (999_999_990_000, 99_999_999_000_000);

#[test]
fn charges_by_hand() {
    let mut all = Tills::new();
    let (mut lines, mut sum, mut exact_sum) = (0, 0, 0);
    for (rings, price, charge, exact) in BY_HAND {
        let expected = Priced { number: 0, charge, till: TillRecord { lines: 1, charged: charge, exact } };
        assert_eq!(Tills::new().price(&[price; 8], &line_of_rings('C', rings)), expected, "{rings} rings at {price}");
        assert_eq!(all.price(&[price; 8], &line_of_rings('C', rings)).charge, charge);
        (lines, sum, exact_sum) = (lines + 1, sum + charge, exact_sum + exact);
        assert_eq!(all.totals(), (lines, sum, exact_sum));
    }
}

/// Every part of a penny is rounded downwards below a half, and upwards from it on, whichever of rings and price makes it.
#[test]
fn every_part_of_a_penny() {
    for whole in [0, 1, 2, 3, 98, 99, 9_998, 9_999] {
        for part in 0..100_u32 {
            let (hundredths, expected) = (100 * whole + part, u64::from(whole) + u64::from(part >= 50));
            if hundredths == 0 {
                continue;
            }
            for (rings, price) in [(hundredths, 1), (1, hundredths)] {
                let priced = Tills::new().price(&[price; 8], &line_of_rings('H', rings));
                assert_eq!((priced.number, priced.charge), (0, expected), "{rings} rings at {price}");
                assert_eq!(priced.till.exact, u64::from(hundredths));
            }
        }
    }
}

/// The rings of a line are those from its first number to its last, wherever they stand and whoever returns them.
#[test]
fn rings_from_first_to_last() {
    for (line, rings) in [
        (&b"0,A,1,1,19000101\n"[..], 1),
        (b"31,H,99999999,99999999,21991231\n", 1),
        (b"31,H,99999998,99999999,20000229\n", 2),
        (b"9,B,9,10,20250304\n", 2),
        (b"10,G,99,1000,20250304\n", 902),
        (b"7,C,12001,12100,20250304\n", 100),
        (b"7,C,2,99999999,20250304\n", 99_999_998),
        (b"7,C,1,99999999,20250304\n", 99_999_999),
    ] {
        let priced = Tills::new().price(&[100; 8], line);
        assert_eq!(
            (priced.number, priced.charge, priced.till.exact),
            (0, rings, 100 * rings),
            "{}",
            line.escape_ascii()
        );
    }
}

/// Prices, and what nine rings are charged; none where they are not sold.
const EDGES: [(u32, Option<u64>); 8] = [
    (0, None),
    (1, Some(0)),
    (2, Some(0)),
    (999_999, Some(90_000)),
    (1_000_000, Some(90_000)),
    (1_000_001, None),
    (1 << 31, None),
    (u32::MAX, None),
];

/// A size gets 19 exactly where its own price is 0 or too high, whatever the others are.
#[test]
fn only_the_price_of_the_lines_size_is_read() {
    for (place, size) in ('A'..='H').enumerate() {
        for (price, charge) in EDGES {
            for (others, _) in EDGES {
                let mut pence = [others; 8];
                pence[place] = price;
                let priced = Tills::of(5, 6, 7).price(&pence, &line_of_rings(size, 9));
                let till = match charge {
                    Some(charge) => TillRecord { lines: 6, charged: 6 + charge, exact: 7 + 9 * u64::from(price) },
                    None => TillRecord { lines: 5, charged: 6, exact: 7 },
                };
                let number = if charge.is_some() { 0 } else { 19 };
                assert_eq!(priced, Priced { number, charge: charge.unwrap_or(0), till }, "{size} {pence:?}");
            }
        }
    }
}

/// Every size has its own price.
#[test]
fn every_size_has_its_price() {
    let pence: Pence = std::array::from_fn(|place| 100 * (place as u32 + 1));
    for (size, charge) in ('A'..='H').zip(1..) {
        assert_eq!(Tills::new().price(&pence, &line_of_rings(size, 1)).charge, charge, "{size}");
    }
}

/// A day gets 16 exactly where it does not exist; no season is asked for.
#[test]
fn days_that_do_not_exist_get_16() {
    let mut exist = 0;
    for day in numbers_near_days() {
        let exists = days::exists(day);
        exist += u32::from(exists);
        let priced = Tills::new().price(&[100; 8], &line_on(day));
        assert_eq!((priced.number, priced.charge), if exists { (0, 100) } else { (16, 0) }, "{day}");
    }
    assert_eq!(exist, 109_573);
}

/// The answer on a till for a line of three rings at 250, which is charged 8 for 750 hundredths: the till afterwards, or 22 and the
/// till as it was.
fn on(lines: u64, charged: u64, exact: u64) -> Option<(u64, u64, u64)> {
    let mut tills = Tills::of(lines, charged, exact);
    let priced = tills.price(&[250; 8], &line_of_rings('C', 3));
    match (priced.number, priced.charge) {
        (0, 8) => Some(tills.totals()),
        (22, 0) => {
            assert_eq!(tills.totals(), (lines, charged, exact));
            None
        }
        other => panic!("{other:?}"),
    }
}

#[test]
fn the_65536th_line_and_the_next() {
    assert_eq!(on(0, 0, 0), Some((1, 8, 750)));
    assert_eq!(on(65_534, 1, 2), Some((65_535, 9, 752)));
    assert_eq!(on(65_535, 1, 2), Some((65_536, 9, 752)));
    for lines in [65_536, 65_537, 1 << 17, 1 << 32, (1 << 32) + 5, 1 << 63, u64::MAX - 1, u64::MAX] {
        assert_eq!(on(lines, 1, 2), None, "{lines}");
    }
}

/// Each total by itself: the last that fits, and the first that does not.
#[test]
fn totals_near_the_end_of_64_bits() {
    const END: u64 = u64::MAX;
    assert_eq!(on(0, END - 8, 0), Some((1, END, 750)));
    assert_eq!(on(0, 0, END - 750), Some((1, 8, END)));
    assert_eq!(on(0, END - 8, END - 750), Some((1, END, END)));
    for (charged, exact) in
        [(END - 7, 0), (END, 0), (0, END - 749), (0, END), (END - 7, END - 750), (END - 8, END - 749), (END, END)]
    {
        for lines in [0, 65_535, 65_536] {
            assert_eq!(on(lines, charged, exact), None, "{charged} {exact}");
        }
    }
    // A sum at half of it, and at the end of 32 bits, is as any other.
    for half in [(1 << 63) - 8, (1 << 63) - 1, 1 << 63, (1 << 32) - 1, 1 << 32] {
        assert_eq!(on(9, half, half), Some((10, half + 8, half + 750)));
    }
}

/// The same with the most that a line comes to, and with a line that is charged nothing.
#[test]
fn the_largest_and_the_smallest_line_near_the_end() {
    let (charge, exact) = MOST;
    let largest = line_of_rings('C', 99_999_999);
    for (from, number) in [
        ((u64::MAX - charge, 0), 0),
        ((u64::MAX - charge + 1, 0), 22),
        ((0, u64::MAX - exact), 0),
        ((0, u64::MAX - exact + 1), 22),
        ((u64::MAX - charge, u64::MAX - exact), 0),
    ] {
        assert_eq!(Tills::of(0, from.0, from.1).price(&[1_000_000; 8], &largest).number, number, "{from:?}");
    }
    // One ring at 1 adds one hundredth and no penny.
    let smallest = line_of_rings('C', 1);
    for ((charged, exact), number) in [((u64::MAX, 0), 0), ((u64::MAX, u64::MAX - 1), 0), ((0, u64::MAX), 22)] {
        let mut tills = Tills::of(0, charged, exact);
        assert_eq!(tills.price(&[1; 8], &smallest).number, number);
        let expected = if number == 0 { (1, charged, exact + 1) } else { (0, charged, exact) };
        assert_eq!(tills.totals(), expected);
    }
}

/// What is wrong with a line, each alone and with the others: no line feed, no such day, a size that is not sold, a full till.
#[derive(Clone, Copy, Debug)]
struct Wrong {
    line: bool,
    day: bool,
    price: bool,
    till: bool,
}

impl Wrong {
    /// All of them.
    fn all() -> impl Iterator<Item = Wrong> {
        (0..16_u32).map(|bits| {
            let [line, day, price, till] = std::array::from_fn(|place| bits >> place & 1 == 1);
            Wrong { line, day, price, till }
        })
    }

    /// The number: that of the first check which is met.
    fn number(self) -> u32 {
        let checks = [(self.line, 13), (self.day, 16), (self.price, 19), (self.till, 22)];
        checks.into_iter().find(|(met, _)| *met).map_or(0, |(_, number)| number)
    }

    /// A line of a hundred rings of size C.
    fn bytes(self) -> String {
        let day = if self.day { 20_250_229 } else { 20_250_228 };
        format!("7,C,12001,12100,{day}{}", if self.line { "" } else { "\n" })
    }
}

/// 13, 16, 19, 22: of all that are met the first in this order is given, without a charge, and the till stays.
#[test]
fn the_order_of_the_numbers() {
    let full = [(65_536, 0, 0), (u64::MAX, 1, 2), (0, u64::MAX, 0), (0, 0, u64::MAX), (u64::MAX, u64::MAX, u64::MAX)];
    for wrong in Wrong::all() {
        for (lines, charged, exact) in full {
            for price in [0, 1_000_001, u32::MAX] {
                let before = if wrong.till { (lines, charged, exact) } else { (65_535, 3, 4) };
                let mut tills = Tills::of(before.0, before.1, before.2);
                let pence = [if wrong.price { price } else { 250 }; 8];
                let priced = tills.price(&pence, wrong.bytes().as_bytes());
                assert_eq!(priced.number, wrong.number(), "{wrong:?}");
                let (charge, after) = if wrong.number() == 0 { (250, (65_536, 253, 25_004)) } else { (0, before) };
                assert_eq!((priced.charge, tills.totals()), (charge, after), "{wrong:?}");
            }
        }
    }
}

/// What is no line gets 13, whatever prices and till are.
#[test]
fn bytes_that_are_no_line() {
    let long = [line_on(20_250_704), vec![0; 1 << 20]].concat();
    let texts: [&[u8]; 11] = [
        b"",
        b"\n",
        b"7,C,12001,12100,20250704",
        b"7,C,12001,12100,20250704\r\n",
        b"7,C,12001,12100,20250704\n\n",
        b"7,I,12001,12100,20250704\n",
        b"32,C,12001,12100,20250704\n",
        b"7,C,12002,12001,20250704\n",
        b"7,C,0,12100,20250704\n",
        b"7,C,12001,100000000,20250704\n",
        &long,
    ];
    for text in texts {
        for pence in [[0; 8], [250; 8], [u32::MAX; 8]] {
            for from in [(0, 0, 0), (65_536, 0, 0), (u64::MAX, u64::MAX, u64::MAX)] {
                let mut tills = Tills::of(from.0, from.1, from.2);
                let priced = tills.price(&pence, text);
                assert_eq!((priced.number, priced.charge, tills.totals()), (13, 0, from), "{}", text.escape_ascii());
            }
        }
    }
}

/// A list of as many equal lines as a till takes, and its totals; the next is refused.
fn whole_list(rings: u32, price: u32) -> (u64, u64) {
    let (mut tills, line) = (Tills::new(), line_of_rings('C', rings));
    for place in 1..=65_536 {
        assert_eq!(tills.price(&[price; 8], &line).number, 0);
        assert_eq!(tills.record.lines, place);
    }
    let full = tills.totals();
    assert_eq!((tills.price(&[price; 8], &line).number, tills.totals()), (22, full));
    (full.1, full.2)
}

/// Half a penny a line reaches the bound: a hundred times what is charged lies 50 for each line from the exact total.
#[test]
fn a_whole_list_that_reaches_the_bound() {
    let (charged, exact) = whole_list(1, 50);
    assert_eq!((charged, exact), (65_536, 3_276_800));
    assert_eq!(100 * charged - exact, 50 * 65_536);
    // Downwards at most 0.49 of a penny is left out.
    let (charged, exact) = whole_list(7, 7);
    assert_eq!((charged, exact), (0, 49 * 65_536));
}

/// The largest lines fill a till by their number only, as the totals stay within 64 bits.
#[test]
fn a_whole_list_of_the_largest_lines() {
    assert_eq!(whole_list(99_999_999, 1_000_000), (65_535_999_344_640_000, 6_553_599_934_464_000_000));
}
