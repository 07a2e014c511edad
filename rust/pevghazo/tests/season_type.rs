//! The types of windows: what is given, compared and refused.

use std::collections::HashSet;

use pevghazo::{DAY_MAX, DAY_MIN, Number, Pool, Refusal, Size, Window, Windows};

/// The window from one month and day to another.
fn window((open_month, open_day): (u8, u8), (close_month, close_day): (u8, u8)) -> Window {
    Window { open_month, open_day, close_month, close_day }
}

/// A window of another month for each size.
fn months() -> [Window; 8] {
    std::array::from_fn(|place| window((1 + place as u8, 1), (1 + place as u8, 28)))
}

#[test]
fn the_limits_are_those_of_the_documents() {
    assert_eq!((DAY_MIN, DAY_MAX), (19_000_101, 21_991_231));
    let whole_year = Windows::new([window((1, 1), (12, 31)); 8]);
    for (day, first) in [(DAY_MIN, Ok(Some(DAY_MIN))), (DAY_MAX, Ok(Some(DAY_MAX)))] {
        assert_eq!(whole_year.first_day(format!("0,A,1,1,{day}\n").as_bytes()), first);
    }
    for outside in [DAY_MIN - 1, DAY_MAX + 1] {
        let refused = whole_year.first_day(format!("0,A,1,1,{outside}\n").as_bytes());
        assert_eq!(refused, Err(Refusal { number: Number::NoSuchDay, count: 0 }), "{outside}");
    }
}

#[test]
fn every_size_has_its_window() {
    let windows = Windows::new(months());
    for (size, month) in Size::ALL.into_iter().zip(1..) {
        assert_eq!(windows.of(size), window((month, 1), (month, 28)), "{size}");
        let line = format!("7,{size},1,1,20250101\n");
        assert_eq!(windows.first_day(line.as_bytes()), Ok(Some(20_250_001 + 100 * u32::from(month))), "{size}");
    }
}

#[test]
fn windows_are_compared_by_all_their_dates() {
    let windows = Windows::new(months());
    let copy = windows;
    assert_eq!(windows, copy);
    let mut all = HashSet::from([windows]);
    let changes: [fn(&mut Window); 4] =
        [|own| own.open_month += 1, |own| own.open_day += 1, |own| own.close_month += 1, |own| own.close_day += 1];
    for size in 0..8 {
        for change in changes {
            let mut sizes = months();
            change(&mut sizes[size]);
            assert!(all.insert(Windows::new(sizes)), "{size}");
        }
    }
    assert_eq!(all.len(), 33);
    let shown = format!("{:?}", window((2, 29), (3, 1)));
    assert_eq!(shown, "Window { open_month: 2, open_day: 29, close_month: 3, close_day: 1 }");
}

#[test]
fn refusals_have_their_numbers_and_leave_the_pool() {
    let mut sizes = [window((3, 1), (9, 30)); 8];
    sizes[7] = window((2, 30), (9, 30));
    let windows = Windows::new(sizes);
    let mut pool = Pool::new();
    pool.add_in_season(&windows, b"7,C,12001,12100,20250304\n").unwrap();
    let before = pool.clone();
    for (line, number, first) in [
        (&b"7,C,1,2,20250304"[..], Number::BadLine, Err(Number::BadLine)),
        (b"7,C,1,2,20250231\n", Number::NoSuchDay, Err(Number::NoSuchDay)),
        (b"7,H,1,2,20250304\n", Number::NoSuchDay, Err(Number::NoSuchDay)),
        (b"7,C,12001,12001,20250228\n", Number::OutOfSeason, Ok(Some(20_250_301))),
        (b"7,C,12001,12001,21991001\n", Number::OutOfSeason, Ok(None)),
        (b"7,C,12001,12001,20250930\n", Number::Pooled, Ok(Some(20_250_930))),
    ] {
        assert_eq!(pool.add_in_season(&windows, line), Err(Refusal { number, count: 0 }));
        assert_eq!(pool, before);
        let first = first.map_err(|number| Refusal { number, count: 0 });
        assert_eq!(windows.first_day(line), first, "{}", line.escape_ascii());
    }
    assert_eq!([16, 17], [Number::NoSuchDay, Number::OutOfSeason].map(Number::number));
}

#[test]
fn a_full_pool_is_refused_last() {
    let windows = Windows::new([window((3, 1), (9, 30)); 8]);
    let mut pool = Pool::new();
    (0..256).for_each(|place| pool.add(format!("7,C,{0},{0},20250304\n", 1 + 2 * place).as_bytes()).unwrap());
    let number = |pool: &mut Pool, line: &[u8]| pool.add_in_season(&windows, line).map_err(|refusal| refusal.number);
    assert_eq!(number(&mut pool, b"7,D,1,1,20250304\n"), Err(Number::PoolFull));
    assert_eq!(number(&mut pool, b"7,D,1,1,20250228\n"), Err(Number::OutOfSeason));
    assert_eq!((number(&mut pool, b"7,C,2,2,20250304\n"), pool.runs().len()), (Ok(()), 255));
}
