//! The types of prices and tills: what is given, compared, refused and taken up again.

use std::collections::HashSet;

use pevghazo::{BadTotals, Number, PRICE_MAX, Prices, RING_MAX, Refusal, Size, TILL_LINES, Till};

/// The totals of a till.
fn totals(till: &Till) -> (u64, u64, u64) {
    (till.lines(), till.charged(), till.exact())
}

/// A till after these lines, all of which are priced at 250 pence a hundred.
fn till_of(lines: &[&str]) -> Till {
    let mut till = Till::new();
    for line in lines {
        till.price(&Prices::new([250; 8]), line.as_bytes()).unwrap();
    }
    till
}

#[test]
fn the_limits_are_those_of_the_documents() {
    assert_eq!((PRICE_MAX, TILL_LINES), (1_000_000, 65_536));
    for (price, expected) in [(PRICE_MAX, Ok(10_000)), (PRICE_MAX + 1, Err(Number::NotSold))] {
        let priced = Till::new().price(&Prices::new([price; 8]), b"7,C,1,1,20250304\n");
        assert_eq!(priced, expected.map_err(|number| Refusal { number, count: 0 }));
    }
}

#[test]
fn a_new_till_is_all_zero() {
    assert_eq!((totals(&Till::new()), Till::default()), ((0, 0, 0), Till::new()));
    assert_eq!(Till::from_totals(0, 0, 0), Ok(Till::new()));
}

#[test]
fn every_size_has_its_price() {
    let pence = std::array::from_fn(|place| 100 * (place as u32 + 1));
    let prices = Prices::new(pence);
    for (size, price) in Size::ALL.into_iter().zip(pence) {
        assert_eq!(prices.of(size), price, "{size}");
        let line = format!("7,{size},1,100,20250304\n");
        assert_eq!(Till::new().price(&prices, line.as_bytes()), Ok(price.into()), "{size}");
    }
    for any in [0, PRICE_MAX + 1, u32::MAX] {
        assert!(Size::ALL.into_iter().all(|size| Prices::new([any; 8]).of(size) == any));
    }
}

#[test]
fn charges_are_added_up() {
    let till = till_of(&["7,C,12001,12100,20250304\n", "7,D,12101,12103,20250304\n", "0,A,1,1,20250304\n"]);
    // 250, then 7.5, which is charged as 8, then 2.5, which is charged as 3.
    assert_eq!(totals(&till), (3, 261, 26_000));
    let mut copy = till;
    assert_eq!((copy.price(&Prices::new([1; 8]), b"0,A,1,1,20250304\n"), totals(&copy)), (Ok(0), (4, 261, 26_001)));
    assert_eq!(totals(&till), (3, 261, 26_000), "a copy is another till");
}

#[test]
fn refusals_have_their_numbers_and_leave_the_till() {
    let prices = Prices::new([0, PRICE_MAX, 250, PRICE_MAX + 1, 1, 1, 1, u32::MAX]);
    let some = till_of(&["7,C,12001,12100,20250304\n"]);
    let full = Till::from_totals(TILL_LINES, TILL_LINES, 100 * TILL_LINES).unwrap();
    for (before, line, number) in [
        (some, &b"7,C,1,2,20250304"[..], Number::BadLine),
        (full, b"7,C,1,2,20250229", Number::BadLine),
        (some, b"7,C,1,2,20250229\n", Number::NoSuchDay),
        (full, b"7,A,1,2,20250229\n", Number::NoSuchDay),
        (some, b"7,A,1,2,20250304\n", Number::NotSold),
        (some, b"7,D,1,2,20250304\n", Number::NotSold),
        (full, b"7,H,1,2,20250304\n", Number::NotSold),
        (full, b"7,C,1,2,20250304\n", Number::TillFull),
    ] {
        let mut till = before;
        assert_eq!(till.price(&prices, line), Err(Refusal { number, count: 0 }), "{}", line.escape_ascii());
        assert_eq!(till, before);
    }
    assert_eq!([19, 22], [Number::NotSold, Number::TillFull].map(Number::number));
}

/// Prices and tills are compared by all their numbers.
#[test]
fn equal_ones_have_the_same_numbers() {
    let prices = Prices::new([250; 8]);
    let others = (0..8).map(|place| {
        let mut pence = [250; 8];
        pence[place] += 1;
        Prices::new(pence)
    });
    assert_eq!(HashSet::<Prices>::from_iter(others.chain([prices, prices])).len(), 9);
    let tills = [(4, 8, 800), (5, 8, 800), (4, 9, 800), (4, 8, 801), (4, 8, 800)];
    let tills = tills.map(|(lines, charged, exact)| Till::from_totals(lines, charged, exact).unwrap());
    assert_eq!((HashSet::from(tills).len(), tills[0]), (4, tills[4]));
}

/// Totals that are taken, at each edge.
const TAKEN: [(u64, u64, u64); 16] = [
    // Lines, with a penny and with a hundredth each.
    (65_535, 65_535, 6_553_500),
    (65_536, 65_536, 6_553_600),
    (65_536, 0, 65_536),
    // The least and the most that lines come to.
    (1, 0, 1),
    (2, 0, 2),
    (1, 999_999_990_000, 99_999_999_000_000),
    (65_536, 65_535_999_344_640_000, 6_553_599_934_464_000_000),
    // Half a penny a line, upwards and downwards.
    (1, 1, 50),
    (1, 2, 150),
    (1, 1, 150),
    (2, 1, 200),
    (2, 3, 200),
    (65_536, 65_536, 3_276_800),
    (65_536, 65_536, 9_830_400),
    (1, 999_999_990_000, 99_999_998_999_950),
    (0, 0, 0),
];

/// Totals that are refused, just beside those.
const REFUSED: [(u64, u64, u64, BadTotals); 24] = [
    (65_537, 65_537, 6_553_700, BadTotals::Lines),
    (65_537, 0, 0, BadTotals::Lines),
    (u64::MAX, u64::MAX, u64::MAX, BadTotals::Lines),
    (1, 0, 0, BadTotals::Exact),
    (2, 0, 1, BadTotals::Exact),
    (65_536, 0, 65_535, BadTotals::Exact),
    (0, 0, 1, BadTotals::Exact),
    (0, u64::MAX, 1, BadTotals::Exact),
    (1, 999_999_990_000, 99_999_999_000_001, BadTotals::Exact),
    (65_536, 65_535_999_344_640_000, 6_553_599_934_464_000_001, BadTotals::Exact),
    (65_536, 0, u64::MAX, BadTotals::Exact),
    (0, 1, 0, BadTotals::Apart),
    (1, 1, 49, BadTotals::Apart),
    (1, 0, 51, BadTotals::Apart),
    (1, 2, 149, BadTotals::Apart),
    (1, 1, 151, BadTotals::Apart),
    (2, 1, 201, BadTotals::Apart),
    (2, 3, 199, BadTotals::Apart),
    (65_536, 65_536, 3_276_799, BadTotals::Apart),
    (65_536, 65_536, 9_830_401, BadTotals::Apart),
    // A hundred times these passes 64 bits: of the first it would be 0 there, and of the second 100 below it.
    (1, 1 << 62, 1, BadTotals::Apart),
    (65_536, (1 << 62) - 1, 65_536, BadTotals::Apart),
    (1, u64::MAX, 99_999_999_000_000, BadTotals::Apart),
    (65_536, u64::MAX, 65_536, BadTotals::Apart),
];

#[test]
fn totals_within_the_bounds_are_taken() {
    for (lines, charged, exact) in TAKEN {
        let till = Till::from_totals(lines, charged, exact);
        assert_eq!(till.map(|till| totals(&till)), Ok((lines, charged, exact)));
    }
    // The greatest numbers are the limits' own.
    assert_eq!(u128::from(TAKEN[5].2), u128::from(RING_MAX) * u128::from(PRICE_MAX));
    assert_eq!(u128::from(TAKEN[6].2), u128::from(TILL_LINES) * u128::from(TAKEN[5].2));
}

#[test]
fn other_totals_are_refused() {
    for (lines, charged, exact, why) in REFUSED {
        assert_eq!(Till::from_totals(lines, charged, exact), Err(why), "{lines} {charged} {exact}");
    }
    let texts = [BadTotals::Lines, BadTotals::Exact, BadTotals::Apart].map(|why| why.to_string());
    assert!(texts.iter().all(|text| text.ends_with('.') && !text.contains('\n')), "{texts:?}");
    assert_eq!(HashSet::from(texts).len(), 3);
}

/// A till that is taken up again goes on as the one whose totals it has.
#[test]
fn a_till_goes_on() {
    let mut till = till_of(&["7,C,12001,12100,20250304\n", "7,C,12101,12103,20250304\n"]);
    let (lines, charged, exact) = totals(&till);
    let mut back = Till::from_totals(lines, charged, exact).unwrap();
    assert_eq!(back, till);
    for line in [&b"7,C,1,1,20250304\n"[..], b"7,D,1,7,20250304\n", b"7,C,1,1,20250304"] {
        let prices = Prices::new([0, 0, 250, 49, 0, 0, 0, 0]);
        assert_eq!(back.price(&prices, line), till.price(&prices, line));
    }
    // 2.5 pence and 3.43 more.
    assert_eq!((totals(&back), totals(&till)), ((4, 264, 26_343), (4, 264, 26_343)));
}
