//! The type of a pool: what is shown, compared and stored of it.

use pevghazo::{BadRuns, LINE_MAX, Number, POOL_RUNS, Pool, RING_MAX, Refusal, Run, Size};

/// A run of size C.
fn run(first: u32, last: u32) -> Run {
    Run { size: Size::C, first, last }
}

/// The pool after these lines, all of which are accepted.
fn pool_of(lines: &[&str]) -> Pool {
    let mut pool = Pool::new();
    lines.iter().for_each(|line| pool.add(line.as_bytes()).unwrap());
    pool
}

#[test]
fn the_limits_are_those_of_the_documents() {
    assert_eq!((POOL_RUNS, RING_MAX), (256, 99_999_999));
    assert_eq!("31,H,99999999,99999999,20250304\n".len(), LINE_MAX);
}

#[test]
fn refusals_have_their_numbers_and_leave_the_pool() {
    let mut pool = pool_of(&["7,C,12001,12100,20250304\n"]);
    let before = pool.clone();
    for (line, number) in
        [(&b"7,C,12001,12100,20250304"[..], Number::BadLine), (b"7,C,1,12001,20250304\n", Number::Pooled)]
    {
        assert_eq!(pool.add(line), Err(Refusal { number, count: 0 }));
        assert_eq!(pool, before);
    }
    let mut pool =
        Pool::from_runs(&(0..256).map(|place| run(1 + 2 * place, 1 + 2 * place)).collect::<Vec<_>>()).unwrap();
    assert_eq!(pool.add(b"7,D,1,1,20250304\n"), Err(Refusal { number: Number::PoolFull, count: 0 }));
    assert_eq!((pool.add(b"7,C,2,2,20250304\n"), pool.runs().len()), (Ok(()), 255));
    assert_eq!([13, 14, 15], [Number::BadLine, Number::Pooled, Number::PoolFull].map(Number::number));
}

#[test]
fn runs_are_by_size_and_first_number() {
    let pool = pool_of(&["1,H,5,6,20250304\n", "1,A,70,79,20250304\n", "1,A,9,10,20250304\n", "1,C,1,1,20250304\n"]);
    let shown: Vec<String> = pool.runs().iter().map(Run::to_string).collect();
    assert_eq!(shown, ["A 9 to 10", "A 70 to 79", "C 1 to 1", "H 5 to 6"]);
    assert_eq!(pool.rings(), pool.runs().into_iter().map(Run::rings).sum());
    assert_eq!((pool.rings(), Pool::new().rings(), Pool::default().runs().len()), (15, 0, 0));
    assert_eq!(format!("{:?}", Pool::new()), "Pool([])");
    assert_eq!(format!("{:?}", pool_of(&["1,C,1,2,20250304\n"])), "Pool([Run { size: C, first: 1, last: 2 }])");
}

#[test]
fn a_number_is_found_exactly_where_it_is_held() {
    let pool = pool_of(&[
        "1,C,5,9,20250304\n",
        "1,C,11,11,20250304\n",
        "1,D,7,8,20250304\n",
        "2,H,99999999,99999999,20250304\n",
    ]);
    for size in Size::ALL {
        for number in (0..14).chain([RING_MAX - 1, RING_MAX, RING_MAX + 1, u32::MAX]) {
            let found = pool.find(size, number);
            assert_eq!(found.is_some(), pool.holds(size, number), "{size} {number}");
            assert!(found.is_none_or(|run| run.size == size && run.has(number) && pool.runs().contains(&run)));
        }
    }
    assert_eq!((pool.find(Size::C, 9), pool.find(Size::C, 10)), (Some(run(5, 9)), None));
}

/// So it is in a full pool, in each of its runs and between them.
#[test]
fn a_number_is_found_in_a_full_pool() {
    let size = |place: u32| Size::ALL[place as usize % 8];
    let runs: Vec<Run> =
        (0..256).map(|place| Run { size: size(place), ..run(10 + 4 * place, 12 + 4 * place) }).collect();
    let pool = Pool::from_runs(&runs).unwrap();
    assert_eq!(pool.runs().len(), 256);
    for run in runs {
        for number in run.first - 1..=run.last + 1 {
            let expected = run.has(number).then_some(run);
            assert_eq!((pool.find(run.size, number), pool.holds(run.size, number)), (expected, expected.is_some()));
        }
    }
}

#[test]
fn equal_pools_have_the_same_runs() {
    let one = pool_of(&["1,C,5,9,20250304\n", "1,D,1,1,20250304\n"]);
    let other = pool_of(&["2,D,1,1,20250304\n", "3,C,8,9,20250304\n", "4,C,5,7,20250304\n"]);
    assert_eq!(one, other);
    assert_ne!(one, pool_of(&["1,C,5,8,20250304\n", "1,D,1,1,20250304\n"]));
    assert_ne!(one, Pool::new());
    let mut copy = one.clone();
    copy.add(b"1,E,1,1,20250304\n").unwrap();
    assert_ne!(one, copy);
}

#[test]
fn runs_that_a_list_leaves_are_taken() {
    for pool in [Pool::new(), pool_of(&["1,C,5,9,20250304\n", "1,A,1,99999999,20250304\n", "1,C,11,12,20250304\n"])] {
        let mut runs = pool.runs();
        runs.reverse();
        let mut back = Pool::from_runs(&runs).unwrap();
        assert_eq!((&back, back.rings()), (&pool, pool.rings()));
        // It goes on as the other.
        let mut on = pool.clone();
        for line in [&b"1,C,10,10,20250304\n"[..], b"1,A,5,5,20250304\n", b"1,C,3,3,20250304\n"] {
            assert_eq!(back.add(line), on.add(line));
        }
        assert_eq!(back, on);
    }
}

/// So many runs, with one number between each two of them.
fn many(count: u32) -> Vec<Run> {
    (0..count).map(|place| run(1 + 2 * place, 1 + 2 * place)).collect()
}

/// A bad run, or a bad pair, is found in each place among 256, whether they are sorted or not.
#[test]
fn bad_runs_are_found_in_each_place() {
    for place in 0..256 {
        let mut runs = many(256);
        runs[place].last = runs[place].first - 1;
        assert_eq!(Pool::from_runs(&runs), Err(BadRuns::Numbers(runs[place])), "place {place}");
        runs.reverse();
        assert_eq!(Pool::from_runs(&runs), Err(BadRuns::Numbers(runs[255 - place])), "place {place}");
    }
    for place in 0..255 {
        let mut runs = many(256);
        runs[place].last += 1;
        assert_eq!(Pool::from_runs(&runs), Err(BadRuns::Meet(runs[place], runs[place + 1])), "place {place}");
        runs.reverse();
        let pair = (runs[255 - place], runs[254 - place]);
        assert_eq!(Pool::from_runs(&runs), Err(BadRuns::Meet(pair.0, pair.1)), "place {place}");
    }
}

#[test]
fn other_runs_are_refused() {
    assert_eq!(Pool::from_runs(&many(256)).unwrap().rings(), 256);
    assert_eq!(Pool::from_runs(&many(257)), Err(BadRuns::TooMany(257)));
    for bad in
        [run(0, 5), run(0, 0), run(6, 5), run(1, RING_MAX + 1), run(RING_MAX + 1, RING_MAX + 1), run(1, u32::MAX)]
    {
        for runs in [vec![bad], vec![bad, run(50, 60)], vec![run(50, 60), bad]] {
            assert_eq!(Pool::from_runs(&runs), Err(BadRuns::Numbers(bad)), "{runs:?}");
        }
    }
    for (one, other) in [(run(1, 5), run(6, 9)), (run(1, 5), run(5, 9)), (run(1, 9), run(3, 4)), (run(1, 5), run(1, 5))]
    {
        for runs in [vec![one, other], vec![other, one], vec![run(90, 99), other, run(20, 30), one]] {
            assert_eq!(Pool::from_runs(&runs), Err(BadRuns::Meet(one, other)), "{runs:?}");
        }
    }
    let beside = Run { size: Size::D, ..run(6, 9) };
    assert!(Pool::from_runs(&[run(1, 5), beside, run(7, 9)]).is_ok());
    assert_eq!(BadRuns::TooMany(257).to_string(), "There are 257 runs, and a pool holds at most 256.");
    assert_eq!(BadRuns::Numbers(run(6, 5)).to_string(), "The run C 6 to 5 does not go upwards within 1 to 99999999.");
    assert_eq!(BadRuns::Meet(run(1, 5), run(6, 9)).to_string(), "The runs C 1 to 5 and C 6 to 9 meet or touch.");
}

#[test]
fn rings_of_any_run() {
    for (run, rings) in
        [(run(5, 5), 1), (run(1, RING_MAX), 99_999_999), (run(6, 5), 0), (run(9, 1), 0), (run(0, u32::MAX), 1 << 32)]
    {
        assert_eq!(run.rings(), rings, "{run}");
    }
}

#[test]
fn sizes_are_eight_letters() {
    let letters: String = Size::ALL.iter().map(Size::to_string).collect();
    assert_eq!(letters, "ABCDEFGH");
    for byte in 0..=u8::MAX {
        let is_size = (b'A'..=b'H').contains(&byte);
        assert_eq!(Size::try_from(byte).is_ok_and(|size| size.byte() == byte), is_size, "{byte}");
        let text = char::from(byte).to_string();
        assert_eq!(text.parse::<Size>().is_ok_and(|size| size.to_string() == text), is_size, "{text}");
    }
    for text in ["", "AB", "a", "I", " A", "A ", "\u{391}"] {
        assert!(text.parse::<Size>().is_err(), "{text:?}");
    }
}
