//! Issue lines and the pool of unused rings at their edges, by document 02.

use std::collections::BTreeSet;

use pevghazo_reference::issue::{Line, read};
use pevghazo_reference::pool::{Pool, RUNS};
use pevghazo_reference::random::Random;
use pevghazo_reference::refusal::Number;

/// The runs of a pool.
fn runs(pool: &Pool) -> Vec<(char, u32, u32)> {
    pool.runs().collect()
}

/// Adds a line of a group's rings.
fn add(pool: &mut Pool, size: char, first: u32, last: u32) -> Result<(), Number> {
    pool.add(&Line { group: 7, size, first, last, day: 20_250_304 }.bytes())
}

#[test]
fn the_line_of_the_document() {
    let line = Line { group: 7, size: 'C', first: 12_001, last: 12_100, day: 20_250_304 };
    assert_eq!(line.bytes(), b"7,C,12001,12100,20250304\n");
    assert_eq!(read(b"7,C,12001,12100,20250304\n"), Some(line));
}

#[test]
fn lines_at_their_edges() {
    for good in [
        "0,A,1,1,00000000\n",
        "31,H,99999999,99999999,99999999\n",
        "9,B,1,99999999,20250230\n",
        "10,G,10,11,00000001\n",
        "30,D,5,5,19990101\n",
    ] {
        let line = read(good.as_bytes()).unwrap_or_else(|| panic!("{good:?} is a line"));
        assert_eq!(line.bytes(), good.as_bytes());
    }
}

/// Texts that are nearly lines.
const NO_LINES: [&str; 42] = [
    "",
    "\n",
    "7,C,12001,12100,20250304",
    "7,C,12001,12100,20250304\r\n",
    "7,C,12001,12100,20250304\n\n",
    "7,C,12001,12100,20250304\n7,C,1,2,20250304\n",
    "7,C,12001,12100,20250304\nx",
    "\n7,C,12001,12100,20250304\n",
    " 7,C,12001,12100,20250304\n",
    "7, C,12001,12100,20250304\n",
    "7,C,12001,12100,20250304 \n",
    "32,C,12001,12100,20250304\n",
    "031,C,12001,12100,20250304\n",
    "00,C,12001,12100,20250304\n",
    "07,C,12001,12100,20250304\n",
    ",C,12001,12100,20250304\n",
    "+7,C,12001,12100,20250304\n",
    "-7,C,12001,12100,20250304\n",
    "7,I,12001,12100,20250304\n",
    "7,a,12001,12100,20250304\n",
    "7,@,12001,12100,20250304\n",
    "7,,12001,12100,20250304\n",
    "7,CC,12001,12100,20250304\n",
    "7,C,0,12100,20250304\n",
    "7,C,0,0,20250304\n",
    "7,C,012001,12100,20250304\n",
    "7,C,12001,012100,20250304\n",
    "7,C,,12100,20250304\n",
    "7,C,12001,,20250304\n",
    "7,C,12001,100000000,20250304\n",
    "7,C,100000000,100000000,20250304\n",
    "7,C,12001,4294979396,20250304\n",
    "7,C,12001,18446744073709563716,20250304\n",
    "7,C,12002,12001,20250304\n",
    "7,C,12001,12100,2025030\n",
    "7,C,12001,12100,202503044\n",
    "7,C,12001,12100,2025030x\n",
    "7,C,12001,12100,+2025030\n",
    "7,C,12001,12100,\n",
    "7,C,12001,12100\n",
    "7,C,12001,12100,20250304,\n",
    "7;C;12001;12100;20250304\n",
];

#[test]
fn what_is_no_line() {
    for bad in NO_LINES {
        assert_eq!(read(bad.as_bytes()), None, "{bad:?}");
        assert_eq!(Pool::default().add(bad.as_bytes()), Err(Number::Line), "{bad:?}");
    }
    assert_eq!(read(b"7,C,12001,12100,2025030\xB2\n"), None);
    assert_eq!(read("7,C,12001,12100,2025030\u{664}\n".as_bytes()), None);
}

#[test]
fn runs_that_touch_become_one() {
    let mut pool = Pool::default();
    for (first, last, expected) in [
        (100, 199, vec![('C', 100, 199)]),
        (200, 200, vec![('C', 100, 200)]),
        (90, 99, vec![('C', 90, 200)]),
        (88, 88, vec![('C', 88, 88), ('C', 90, 200)]),
        (202, 300, vec![('C', 88, 88), ('C', 90, 200), ('C', 202, 300)]),
        (201, 201, vec![('C', 88, 88), ('C', 90, 300)]),
        (89, 89, vec![('C', 88, 300)]),
    ] {
        assert_eq!(add(&mut pool, 'C', first, last), Ok(()));
        assert_eq!(runs(&pool), expected);
    }
    assert_eq!((add(&mut pool, 'B', 301, 310), add(&mut pool, 'D', 80, 87)), (Ok(()), Ok(())));
    assert_eq!(runs(&pool), [('B', 301, 310), ('C', 88, 300), ('D', 80, 87)]);
    assert_eq!(pool.rings(), 10 + 213 + 8);
}

#[test]
fn numbers_that_are_pooled() {
    let mut pool = Pool::default();
    add(&mut pool, 'C', 100, 199).unwrap();
    let before = pool.clone();
    for (first, last) in [(100, 199), (150, 150), (100, 100), (199, 199), (1, 100), (199, 300), (1, 300), (120, 130)] {
        assert_eq!(add(&mut pool, 'C', first, last), Err(Number::Pooled), "{first} to {last}");
        assert_eq!(pool, before);
    }
    for (number, held) in [(99, false), (100, true), (150, true), (199, true), (200, false), (0, false)] {
        assert_eq!((pool.holds('C', number), pool.holds('D', number)), (held, false), "{number}");
    }
    assert_eq!(add(&mut pool, 'D', 100, 199), Ok(()));
}

#[test]
fn the_256th_run_and_the_next() {
    let mut pool = Pool::default();
    for place in 0..RUNS as u32 {
        assert_eq!(add(&mut pool, 'A', 1 + 3 * place, 2 + 3 * place), Ok(()));
    }
    let full = pool.clone();
    assert_eq!(add(&mut pool, 'A', 10_000, 10_000), Err(Number::Runs));
    assert_eq!(add(&mut pool, 'B', 1, 1), Err(Number::Runs));
    assert_eq!(add(&mut pool, 'A', 2, 2), Err(Number::Pooled), "14 before 15");
    assert_eq!(pool.add(b"7,B,1,1,20250304"), Err(Number::Line), "13 before 15");
    assert_eq!(pool, full);
    // One that touches a run is taken, and one that joins two makes room.
    assert_eq!(add(&mut pool, 'A', 3 * 256, 9_999), Ok(()));
    assert_eq!((add(&mut pool, 'A', 3, 3), pool.runs().count()), (Ok(()), RUNS - 1));
    assert_eq!((add(&mut pool, 'B', 1, 1), add(&mut pool, 'B', 3, 3)), (Ok(()), Err(Number::Runs)));
}

/// The runs of a set of numbers, each with its size.
fn runs_of(set: &BTreeSet<(char, u32)>) -> Vec<(char, u32, u32)> {
    let mut runs: Vec<(char, u32, u32)> = Vec::new();
    for (size, number) in set {
        match runs.last_mut() {
            Some((last_size, _, last)) if last_size == size && *last + 1 == *number => *last = *number,
            _ => runs.push((*size, *number, *number)),
        }
    }
    runs
}

/// Random lines, beside a plain set of numbers.
#[test]
fn any_lines_beside_a_set() {
    let mut random = Random::new(6);
    for _ in 0..200 {
        let (mut pool, mut set) = (Pool::default(), BTreeSet::new());
        for _ in 0..40 {
            let (size, first) = (random.pick(&['A', 'B', 'H']), 1 + random.below(60) as u32);
            let last = first + random.below(5) as u32;
            let held = (first..=last).any(|number| set.contains(&(size, number)));
            assert_eq!(add(&mut pool, size, first, last), if held { Err(Number::Pooled) } else { Ok(()) });
            if !held {
                set.extend((first..=last).map(|number| (size, number)));
            }
            assert_eq!((runs(&pool), pool.rings()), (runs_of(&set), set.len() as u64));
        }
        assert!((0..70).all(|number| pool.holds('B', number) == set.contains(&('B', number))));
    }
}
