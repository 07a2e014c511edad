//! Pools that are held twice: by the C library, in memory whose every byte is looked at, and by the independent implementation.

use std::hint::black_box;

use pevghazo::raw::{self, PoolRecord, RunRecord};
use pevghazo_reference::issue::{self, Line};
use pevghazo_reference::pool::Pool as Reference;
use pevghazo_reference::random::Random;
use pevghazo_reference::refusal::Number;

use super::seasons::Seasons;

/// The words of a pool's record.
const WORDS: usize = size_of::<PoolRecord>() / 8;
/// The words on either side of it.
const BESIDE: usize = 16;
/// What stands there.
const PAINT: u64 = 0xA5A5_A5A5_A5A5_A5A5;

/// A pool's record with known bytes on either side, so that each byte of it and beside it can be compared.
#[derive(Clone, PartialEq, Eq)]
pub struct Memory(Box<[u64; WORDS + 2 * BESIDE]>);

impl Memory {
    /// Zeroed memory: the empty pool.
    pub fn zeroed() -> Memory {
        let mut words = [PAINT; WORDS + 2 * BESIDE];
        words[BESIDE..BESIDE + WORDS].fill(0);
        Memory(Box::new(words))
    }

    /// The words of the record.
    pub fn words_mut(&mut self) -> &mut [u64] {
        &mut self.0[BESIDE..BESIDE + WORDS]
    }

    /// The record.
    pub fn record(&self) -> &PoolRecord {
        // SAFETY: the words are as many and as aligned as the record, and any bytes are one.
        unsafe { &*self.0[BESIDE..].as_ptr().cast() }
    }

    /// The record, to be lent.
    pub fn record_mut(&mut self) -> &mut PoolRecord {
        // SAFETY: as above.
        unsafe { &mut *self.0[BESIDE..].as_mut_ptr().cast() }
    }

    /// Adds a line.
    pub fn add(&mut self, line: &[u8]) -> u32 {
        self.add_by(line, |record| raw::pool_add(record, line))
    }

    /// Adds a line inside the season; the windows stay as they were.
    pub fn add_in_season(&mut self, seasons: &Seasons, line: &[u8]) -> u32 {
        let windows = seasons.record;
        let number = self.add_by(line, |record| raw::pool_add_in_season(record, &seasons.record, line));
        seasons.stay(&windows);
        number
    }

    /// Adds a line in some way. A refusal leaves every byte; nothing beside the record is altered; the line stays as it was.
    fn add_by(&mut self, line: &[u8], add: impl FnOnce(&mut PoolRecord) -> u32) -> u32 {
        let (before, copy) = (self.clone(), line.to_vec());
        let number = add(self.record_mut());
        assert!(number == 0 || *self == before, "a refusal by {number} alters the record or what is beside it");
        let beside = |memory: &Memory| [&memory.0[..BESIDE], &memory.0[BESIDE + WORDS..]].concat();
        assert!(beside(self) == beside(&before), "what is beside the record is altered");
        assert!(black_box(line) == copy, "the line is altered");
        number
    }

    /// The runs that are used, in the record's order.
    pub fn runs(&self) -> Vec<RunRecord> {
        self.record().runs[..self.record().used].to_vec()
    }
}

/// A run of the reference as a record.
pub fn run_record((size, first, last): (char, u32, u32)) -> RunRecord {
    RunRecord { size: size.into(), first, last }
}

/// A line of these rings.
pub fn line_of(size: char, first: u32, last: u32) -> Vec<u8> {
    Line { group: 7, size, first, last, day: 20_250_304 }.bytes()
}

/// A pool on both sides.
#[derive(Clone)]
pub struct Pools {
    pub memory: Memory,
    pub reference: Reference,
}

impl Pools {
    /// The empty pool.
    pub fn new() -> Pools {
        Pools { memory: Memory::zeroed(), reference: Reference::default() }
    }

    /// The pool after lines of these runs, all of which are accepted.
    pub fn of(runs: impl IntoIterator<Item = (char, u32, u32)>) -> Pools {
        let mut pools = Pools::new();
        for (size, first, last) in runs {
            assert_eq!(pools.add(&line_of(size, first, last)), 0, "{size} {first} to {last}");
        }
        pools
    }

    /// Adds a line on both sides: the same number, the same runs, each in its place, and zeros behind them.
    pub fn add(&mut self, line: &[u8]) -> u32 {
        let before = self.memory.runs();
        let number = self.memory.add(line);
        let expected = self.reference.add(line);
        self.added(before, line, number, expected)
    }

    /// The same inside the season.
    pub fn add_in_season(&mut self, seasons: &Seasons, line: &[u8]) -> u32 {
        let before = self.memory.runs();
        let number = self.memory.add_in_season(seasons, line);
        let expected = self.reference.add_in_season(&seasons.reference, line);
        self.added(before, line, number, expected)
    }

    /// A line was added to these runs on both sides, with these answers.
    fn added(&self, before: Vec<RunRecord>, line: &[u8], number: u32, expected: Result<(), Number>) -> u32 {
        let expected = expected.map_or_else(|number| u32::from(number.number()), |()| 0);
        assert_eq!(number, expected, "{}", line.escape_ascii());
        if number == 0 {
            self.check_order(before, line);
        }
        self.check();
        number
    }

    /// The runs that the line does not touch keep their order, and the joined one stands last.
    fn check_order(&self, before: Vec<RunRecord>, line: &[u8]) {
        let line = issue::read(line).expect("only a line is accepted");
        let now: Vec<RunRecord> = self.reference.runs().map(run_record).collect();
        let has =
            |run: &&RunRecord| run.size == u32::from(line.size) && run.first <= line.first && line.last <= run.last;
        let joined = now.iter().find(has).expect("the line's numbers are in a run");
        let others = before.into_iter().filter(|run| now.contains(run));
        assert_eq!(self.memory.runs(), others.chain([*joined]).collect::<Vec<_>>());
    }

    /// Both sides hold the same.
    pub fn check(&self) {
        let record = self.memory.record();
        let mut runs = self.memory.runs();
        runs.sort_unstable_by_key(|run| (run.size, run.first));
        assert_eq!(runs, self.reference.runs().map(run_record).collect::<Vec<_>>());
        assert!(record.runs[record.used..].iter().all(|run| *run == RunRecord::default()), "zeros behind the runs");
        assert_eq!(raw::pool_rings(record), self.reference.rings());
    }

    /// Whether a number is held, on both sides.
    pub fn holds(&self, size: char, number: u32) -> bool {
        let held = raw::pool_holds(self.memory.record(), size.into(), number);
        assert_eq!(held, self.reference.holds(size, number), "{size} {number}");
        held
    }
}

/// A letter of a size.
pub fn any_size(random: &mut Random) -> char {
    random.pick(&['A', 'B', 'C', 'D', 'E', 'F', 'G', 'H'])
}
