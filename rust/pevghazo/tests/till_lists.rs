//! Random lists of lines at random prices through the C library, beside the independent implementation; tills that no list leaves; and
//! the bound that holds after every list.

mod common;

use std::collections::BTreeMap;

use common::tills::{Amount, Pence, Tills, amount, any_line, any_prices, any_till, price_of, sold_prices, whole_line};
use common::{cases, least_times};
use pevghazo::raw::TillRecord;
use pevghazo::{Prices, Till};
use pevghazo_reference::issue;

/// How often what happened, by name.
type Happened = BTreeMap<&'static str, u64>;

/// Each of these has happened, and not seldom.
fn have_happened(happened: &Happened, kinds: &[&str]) {
    for kind in kinds {
        let times = happened.get(kind).copied().unwrap_or(0);
        assert!(times >= least_times(), "{kind}: {happened:?}");
    }
}

/// What is left over of a priced line.
fn rounded(next: Amount) -> &'static str {
    match next.exact % 100 {
        0 => "whole pence",
        1..50 => "downwards",
        50 => "half a penny",
        _ => "upwards",
    }
}

/// Why a till takes no line of this amount.
fn full(till: TillRecord, next: Amount) -> &'static str {
    let past = |total: u64, more: u128| u128::from(total) + more > u128::from(u64::MAX);
    match (till.lines >= 65_536, past(till.charged, next.charge), past(till.exact, next.exact)) {
        (true, false, false) => "the lines",
        (true, _, _) => "the lines and a total",
        (false, true, false) => "the total charged",
        (false, false, true) => "the exact total",
        (false, true, true) => "both totals",
        (false, false, false) => panic!("{till:?} has room for {next:?}"),
    }
}

/// What a line's number means, for a line on a till.
fn kind(number: u32, till: TillRecord, pence: &Pence, line: &[u8]) -> &'static str {
    let own = |line: &[u8]| price_of(pence, issue::read(line).expect("it is a line").size);
    let next = |line: &[u8]| amount(pence, line).expect("it is a line");
    match number {
        0 => rounded(next(line)),
        13 => "no line",
        16 => "no day",
        19 if own(line) == 0 => "the price 0",
        19 => "a price too high",
        22 => full(till, next(line)),
        _ => panic!("the number {number}"),
    }
}

/// The kinds of lines that are priced.
const PRICED: [&str; 4] = ["whole pence", "downwards", "half a penny", "upwards"];
/// The kinds of refusals by the line and its price.
const REFUSED: [&str; 4] = ["no line", "no day", "the price 0", "a price too high"];
/// The kinds of refusals by the till.
const FULL: [&str; 5] = ["the lines", "the lines and a total", "the total charged", "the exact total", "both totals"];

/// Prices a line, notes what happened, and gives the charge of one that is priced. The amount by which the till grows is that which
/// is worked out here.
fn play(tills: &mut Tills, pence: &Pence, line: &[u8], happened: &mut Happened) -> Option<u64> {
    let before = tills.record;
    let priced = tills.price(pence, line);
    *happened.entry(kind(priced.number, before, pence, line)).or_insert(0) += 1;
    if priced.number != 0 {
        return None;
    }
    let (next, after) = (amount(pence, line).expect("only a line is priced"), priced.till);
    let grown = [(after.lines, before.lines), (after.charged, before.charged), (after.exact, before.exact)]
        .map(|(after, before)| u128::from(after) - u128::from(before));
    assert_eq!(grown, [1, next.charge, next.exact], "{} {pence:?}", line.escape_ascii());
    assert_eq!(u128::from(priced.charge), next.charge);
    Some(priced.charge)
}

/// One line, and some after it, on a till of any content.
#[test]
fn any_till_whatever_it_holds() {
    let mut happened = Happened::new();
    cases("any_till_whatever_it_holds", |random| {
        let pence = any_prices(random);
        let mut line = any_line(random);
        let mut tills = any_till(random, &pence, &line);
        for _ in 0..1 + random.below(4) {
            play(&mut tills, &pence, &line, &mut happened);
            line = any_line(random);
        }
    });
    for kinds in [&PRICED[..], &REFUSED, &FULL] {
        have_happened(&happened, kinds);
    }
}

/// The bound of the request: the total charged is within n / 2 pence of the exact total.
fn within_bound(record: TillRecord) -> bool {
    let TillRecord { lines, charged, exact } = record;
    (100 * i128::from(charged) - i128::from(exact)).abs() <= 50 * i128::from(lines)
}

/// Lists from the till at first, with refused lines in between and prices that change on the way: after every line the totals are the
/// sums over the lines that were priced, they lie within the bound, and they are taken for those of a till.
#[test]
fn any_list_beside_the_reference() {
    let mut happened = Happened::new();
    cases("any_list_beside_the_reference", |random| {
        let (mut tills, mut till) = (Tills::new(), Till::new());
        let (mut pence, mut charges) = (any_prices(random), Vec::new());
        for _ in 0..1 + random.below(24) {
            let line = any_line(random);
            let charge = play(&mut tills, &pence, &line, &mut happened);
            charges.extend(charge);
            assert_eq!(till.price(&Prices::new(pence), &line).ok(), charge);
            let (lines, charged, exact) = tills.totals();
            assert_eq!((lines, charged), (charges.len() as u64, charges.iter().sum()));
            assert!(within_bound(tills.record), "{:?}", tills.record);
            assert_eq!((till.lines(), till.charged(), till.exact()), tills.totals());
            assert_eq!(Till::from_totals(lines, charged, exact), Ok(till));
            pence = if random.once_in(6) { any_prices(random) } else { pence };
        }
    });
    for kinds in [&PRICED[..], &REFUSED] {
        have_happened(&happened, kinds);
    }
    assert!(FULL.iter().all(|kind| !happened.contains_key(kind)), "{happened:?}");
}

/// The order of lines does not matter, and neither does a till that is stored and taken up again in between.
#[test]
fn the_order_of_lines_does_not_matter() {
    cases("the_order_of_lines_does_not_matter", |random| {
        let prices = Prices::new(sold_prices(random));
        let mut lines: Vec<Vec<u8>> = (0..1 + random.below(16)).map(|_| whole_line(random)).collect();
        let (mut straight, mut other) = (Till::new(), Till::new());
        for line in &lines {
            straight.price(&prices, line).expect("it is sold, and there is room");
        }
        for place in (1..lines.len()).rev() {
            lines.swap(place, random.below(place + 1));
        }
        for line in &lines {
            other = Till::from_totals(other.lines(), other.charged(), other.exact()).expect("a list left it");
            other.price(&prices, line).expect("it is sold, and there is room");
        }
        assert_eq!(straight, other);
    });
}

/// Whole lists, until the till is full, of lines that come to anything.
#[test]
fn whole_lists_within_the_bound() {
    common::some_cases("whole_lists_within_the_bound", 2_000, |random| {
        let (mut tills, mut sum) = (Tills::new(), 0);
        let pence = sold_prices(random);
        for _ in 0..65_536 {
            sum += tills.price(&pence, &whole_line(random)).charge;
            assert!(tills.record.charged == sum && within_bound(tills.record), "{:?}", tills.record);
        }
        let (lines, charged, exact) = tills.totals();
        assert_eq!(lines, 65_536);
        assert!(Till::from_totals(lines, charged, exact).is_ok());
        assert_eq!(tills.price(&pence, &whole_line(random)).number, 22);
    });
}
