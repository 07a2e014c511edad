//! The pool of unused rings through the C library, beside the independent implementation.

mod common;

use common::pools::{Memory, Pools, line_of, run_record};
use pevghazo::raw;

/// The runs of size C, in their order.
fn runs(pools: &Pools) -> Vec<(u32, u32)> {
    pools.reference.runs().filter(|(size, ..)| *size == 'C').map(|(_, first, last)| (first, last)).collect()
}

/// Adds a line of size C.
fn add(pools: &mut Pools, first: u32, last: u32) -> u32 {
    pools.add(&line_of('C', first, last))
}

#[test]
fn zeroed_memory_is_the_empty_pool() {
    let pools = Pools::new();
    pools.check();
    assert_eq!((raw::pool_rings(pools.memory.record()), pools.memory.runs()), (0, vec![]));
    for size in (0..=255).chain([256 + 65, 256 + 72, u32::MAX]) {
        for number in [0, 1, 12_001, 99_999_999, u32::MAX] {
            assert!(!raw::pool_holds(pools.memory.record(), size, number));
        }
    }
}

#[test]
fn a_line_is_pooled() {
    let mut pools = Pools::new();
    assert_eq!(pools.add(b"7,C,12001,12100,20250304\n"), 0);
    assert_eq!((runs(&pools), raw::pool_rings(pools.memory.record())), (vec![(12_001, 12_100)], 100));
    for (number, held) in [(0, false), (12_000, false), (12_001, true), (12_050, true), (12_100, true), (12_101, false)]
    {
        assert_eq!((pools.holds('C', number), pools.holds('B', number)), (held, false), "{number}");
        // Sizes that have the letter in some of their bytes.
        for size in [0, 0x143, 0x4300, 0x0100_0043, 0x4343_4343] {
            assert!(!raw::pool_holds(pools.memory.record(), size, number), "{size:x}");
        }
    }
}

/// The powers of ten and the numbers before them, where digits become more, as first and as last, and those beside are not pooled.
#[test]
fn numbers_where_digits_become_more() {
    let edges: Vec<u32> = (0..8).flat_map(|power| [10_u32.pow(power) - 1, 10_u32.pow(power)]).skip(1).collect();
    let edges: Vec<u32> = edges.into_iter().chain([99_999_999]).collect();
    for first in &edges {
        for last in edges.iter().filter(|last| *last >= first) {
            let mut pools = Pools::new();
            assert_eq!(pools.add(format!("7,C,{first},{last},20250304\n").as_bytes()), 0, "{first} to {last}");
            assert_eq!(runs(&pools), [(*first, *last)]);
            assert_eq!(pools.memory.runs(), [run_record(('C', *first, *last))]);
            assert_eq!(raw::pool_rings(pools.memory.record()), u64::from(last - first) + 1);
            for number in &edges {
                assert_eq!(pools.holds('C', *number), (first..=last).contains(&number), "{number}");
            }
            assert!(!pools.holds('C', first - 1) && !pools.holds('C', last + 1), "{first} to {last}");
        }
    }
    // In the other order they are no line; nor is a power too high.
    for pair in edges.windows(2) {
        assert_eq!(Pools::new().add(format!("7,C,{},{},20250304\n", pair[1], pair[0]).as_bytes()), 13, "{pair:?}");
    }
    for numbers in ["1,100000000", "100000000,100000000", "0,9", "0,0", "10000000,9999999"] {
        assert_eq!(Pools::new().add(format!("7,C,{numbers},20250304\n").as_bytes()), 13, "{numbers}");
    }
}

#[test]
fn runs_that_touch_are_joined() {
    for (what, before, line, after) in [
        ("left", &[(100, 199)][..], (200, 250), &[(100, 250)][..]),
        ("right", &[(100, 199)], (50, 99), &[(50, 199)]),
        ("both", &[(100, 199), (300, 399)], (200, 299), &[(100, 399)]),
        ("both, by one number", &[(100, 199), (201, 399)], (200, 200), &[(100, 399)]),
        ("a gap of one on the left", &[(100, 199)], (201, 250), &[(100, 199), (201, 250)]),
        ("a gap of one on the right", &[(100, 199)], (50, 98), &[(50, 98), (100, 199)]),
        ("left, with others beside", &[(1, 9), (100, 199), (300, 399)], (200, 298), &[(1, 9), (100, 298), (300, 399)]),
        ("at the lowest number", &[(2, 5)], (1, 1), &[(1, 5)]),
        ("at the highest number", &[(5, 99_999_998)], (99_999_999, 99_999_999), &[(5, 99_999_999)]),
        ("all numbers", &[(1, 50_000_000)], (50_000_001, 99_999_999), &[(1, 99_999_999)]),
    ] {
        let mut pools = Pools::of(before.iter().map(|(first, last)| ('C', *first, *last)));
        assert_eq!((add(&mut pools, line.0, line.1), runs(&pools)), (0, after.to_vec()), "{what}");
    }
}

#[test]
fn runs_of_other_sizes_are_not_joined() {
    let mut pools = Pools::of([('C', 100, 199), ('D', 300, 399)]);
    assert_eq!(pools.add(&line_of('B', 200, 299)), 0);
    assert_eq!(pools.add(&line_of('D', 100, 199)), 0);
    assert_eq!(add(&mut pools, 200, 298), 0);
    let all: Vec<_> = pools.reference.runs().collect();
    assert_eq!(all, [('B', 200, 299), ('C', 100, 298), ('D', 100, 199), ('D', 300, 399)]);
}

#[test]
fn a_number_is_pooled_once() {
    let mut pools = Pools::of([('C', 100, 199), ('C', 300, 300)]);
    for (first, last) in [
        (100, 199), // the same
        (150, 160), // in the middle
        (150, 150),
        (100, 100), // an end
        (199, 199),
        (1, 100), // over an end
        (199, 250),
        (1, 500), // around
        (99, 200),
        (200, 300), // touches one run and meets the next
        (300, 300),
        (200, 99_999_999),
    ] {
        assert_eq!(add(&mut pools, first, last), 14, "{first} to {last}");
    }
    assert_eq!(runs(&pools), [(100, 199), (300, 300)]);
    assert_eq!(add(&mut pools, 200, 299), 0);
    assert_eq!(runs(&pools), [(100, 300)]);
}

/// 256 runs of size A, with one number between each two of them.
fn full() -> Pools {
    Pools::of((0..256).map(|place| ('A', 10 + 3 * place, 11 + 3 * place)))
}

#[test]
fn a_pool_of_256_runs_is_full() {
    let mut pools = full();
    assert_eq!(pools.memory.record().used, 256);
    for (size, first, last) in [('A', 1, 8), ('A', 779, 800), ('B', 1, 1), ('H', 12, 12), ('A', 99_999_999, 99_999_999)]
    {
        assert_eq!(pools.add(&line_of(size, first, last)), 15, "{size} {first} to {last}");
    }
    // 13 comes before 14, and 14 before 15.
    assert_eq!(pools.add(&line_of('A', 10, 10)), 14);
    assert_eq!(pools.add(&line_of('A', 1, 800)), 14);
    assert_eq!(pools.add(b"7,B,1,1,20250304"), 13);
    assert_eq!(pools.add(b"7,A,10,10,20250304\r\n"), 13);
    assert_eq!(pools.memory.runs(), full().memory.runs());
}

#[test]
fn a_full_pool_takes_what_touches() {
    let mut pools = full();
    // Extends the first run, the last, and one in between; then joins two, which leaves room for one.
    for (first, last) in [(9, 9), (777, 900), (1, 8)] {
        assert_eq!((pools.add(&line_of('A', first, last)), pools.memory.record().used), (0, 256));
    }
    assert_eq!((pools.add(&line_of('A', 12, 12)), pools.memory.record().used), (0, 255));
    assert_eq!((pools.add(&line_of('B', 12, 12)), pools.memory.record().used), (0, 256));
    assert_eq!(pools.add(&line_of('C', 12, 12)), 15);
    assert_eq!((pools.add(&line_of('A', 774, 774)), pools.memory.record().used), (0, 256 - 1));
    for place in 2..255 {
        assert_eq!(pools.add(&line_of('A', 9 + 3 * place, 9 + 3 * place)), 0);
    }
    assert_eq!(pools.reference.runs().collect::<Vec<_>>(), [('A', 1, 900), ('B', 12, 12)]);
}

/// Texts that are lines, and others that nearly are, with the number that each gets in an empty pool.
const TEXTS: [(&str, u32); 55] = [
    ("0,A,1,1,00000000\n", 0),
    ("31,H,99999999,99999999,99999999\n", 0),
    ("10,B,1,99999999,20250304\n", 0),
    ("30,G,9,10,20251399\n", 0),
    ("32,C,12001,12100,20250304\n", 13),
    ("99,C,12001,12100,20250304\n", 13),
    ("100,C,12001,12100,20250304\n", 13),
    ("031,C,12001,12100,20250304\n", 13),
    ("00,C,12001,12100,20250304\n", 13),
    ("01,C,12001,12100,20250304\n", 13),
    ("4294967296,C,12001,12100,20250304\n", 13),
    (",C,12001,12100,20250304\n", 13),
    ("7,I,12001,12100,20250304\n", 13),
    ("7,a,12001,12100,20250304\n", 13),
    ("7,@,12001,12100,20250304\n", 13),
    ("7,h,12001,12100,20250304\n", 13),
    ("7,AA,12001,12100,20250304\n", 13),
    ("7,,12001,12100,20250304\n", 13),
    ("7,C,0,12100,20250304\n", 13),
    ("7,C,0,0,20250304\n", 13),
    ("7,C,1,0,20250304\n", 13),
    ("7,C,01,12100,20250304\n", 13),
    ("7,C,12001,012100,20250304\n", 13),
    ("7,C,12001,100000000,20250304\n", 13),
    ("7,C,100000000,100000000,20250304\n", 13),
    ("7,C,1,4294967297,20250304\n", 13),
    ("7,C,4294967297,4294967298,20250304\n", 13),
    ("7,C,1,18446744073709551617,20250304\n", 13),
    ("7,C,12101,12100,20250304\n", 13),
    ("7,C,12100,12100,20250304\n", 0),
    ("7,C,99999999,1,20250304\n", 13),
    ("7,C,12001,12100,2025030\n", 13),
    ("7,C,12001,12100,202503040\n", 13),
    ("7,C,12001,12100,2025030a\n", 13),
    ("7,C,12001,12100,2025-3-4\n", 13),
    ("7,C,12001,12100,\n", 13),
    ("7,C,12001,12100\n", 13),
    ("7,C,12001,12100,20250304,\n", 13),
    ("7,C,12001,12100,20250304\r\n", 13),
    ("7,C,12001,12100,20250304", 13),
    ("7,C,12001,12100,20250304\r", 13),
    ("7,C,12001,12100,20250304\n\n", 13),
    ("7,C,12001,12100,20250304\n ", 13),
    ("7,C,12001,12100,20250304\n\0", 13),
    ("7,C,12001,12100,20250304\n7,C,1,1,20250304\n", 13),
    ("\n7,C,12001,12100,20250304\n", 13),
    (" 7,C,12001,12100,20250304\n", 13),
    ("7,C, 12001,12100,20250304\n", 13),
    ("+7,C,12001,12100,20250304\n", 13),
    ("-7,C,12001,12100,20250304\n", 13),
    ("7;C;12001;12100;20250304\n", 13),
    ("", 13),
    ("\n", 13),
    ("\0", 13),
    (",,,,\n", 13),
];

#[test]
fn lines_at_their_edges() {
    for (text, number) in TEXTS {
        assert_eq!(Pools::new().add(text.as_bytes()), number, "{text:?}");
    }
}

/// Long texts, the start of which is a line.
#[test]
fn long_texts_are_no_lines() {
    let line = line_of('C', 12_001, 12_100);
    for length in [line.len() + 1, 33, 100, 4_096, 1 << 20] {
        for byte in [0, b'0', b',', b'\n', 0xFF] {
            let mut text = line.clone();
            text.resize(length, byte);
            assert_eq!(Memory::zeroed().add(&text), 13, "{length} bytes");
            text.fill(byte);
            assert_eq!(Memory::zeroed().add(&text), 13, "{length} bytes");
        }
    }
}

/// The pools that damaged lines are handed to: an empty one; one that has the line's numbers, one that has some beside them, and a
/// full one.
fn some_pools(first: u32, last: u32) -> [Pools; 4] {
    let beside = [('C', first.saturating_sub(500).max(1), first - 1), ('C', last + 2, last + 50), ('D', first, last)];
    [Pools::new(), Pools::of([('C', first, last)]), Pools::of(beside), full()]
}

/// Every byte of a line as every other byte, every byte left out, and every byte put in everywhere. All four answers occur.
#[test]
fn every_byte_of_a_line_damaged() {
    let mut answers = [0_u32; 16];
    for line in [&b"7,C,12001,12100,20250304\n"[..], b"31,C,98765432,98765433,20991231\n", b"0,C,2,9,00000000\n"] {
        let said = pevghazo_reference::issue::read(line).unwrap();
        for pools in some_pools(said.first, said.last) {
            let mut tried = |line: &[u8]| answers[pools.clone().add(line) as usize] += 1;
            tried(line);
            for place in 0..line.len() {
                tried(&[&line[..place], &line[place + 1..]].concat());
                tried(&line[..place]);
                tried(&line[place..]);
                for byte in 0..=255 {
                    tried(&[&line[..place], &[byte], &line[place + 1..]].concat());
                    tried(&[&line[..place], &[byte], &line[place..]].concat());
                }
            }
            for byte in 0..=255 {
                tried(&[line, &[byte]].concat());
            }
        }
    }
    assert!([0, 13, 14, 15].iter().all(|number| answers[*number] >= 100), "{answers:?}");
}
