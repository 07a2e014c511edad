//! The pool of unused rings.

use std::fmt;

use crate::raw::{self, PoolRecord, RunRecord};
use crate::refusal::{Refusal, answer};
use crate::{POOL_RUNS, RING_MAX, Size, Windows};

/// A pool of unused rings, which groups return as *issue lines*.
///
/// An issue line is `group,size,first,last,day` and a line feed: group 0 to 31, size one letter A to H, first and last 1 to
/// 99,999,999, first not above last, all in decimal without leading zeros, and day eight digits. The pool holds up to 256 runs;
/// runs of one size that touch become one.
///
/// ```
/// use pevghazo::{Number, Pool, Run, Size};
///
/// # fn main() -> Result<(), pevghazo::Refusal> {
/// let mut pool = Pool::new();
/// pool.add(b"7,C,12001,12050,20250304\n")?;
/// pool.add(b"11,C,12051,12100,20250305\n")?;
/// assert_eq!(pool.runs(), [Run { size: Size::C, first: 12_001, last: 12_100 }]);
/// assert_eq!(pool.rings(), 100);
/// assert!(pool.holds(Size::C, 12_050) && !pool.holds(Size::D, 12_050));
///
/// // Refused lines leave the pool as it was.
/// assert_eq!(pool.add(b"4,C,12100,12200,20250306\n").unwrap_err().number, Number::Pooled);
/// assert_eq!(pool.add(b"4,C,12101,12200,20250306").unwrap_err().number, Number::BadLine);
/// assert_eq!(pool.rings(), 100);
/// # Ok(())
/// # }
/// ```
///
/// Two pools are equal if they have the same runs, whatever lines brought them, and in whichever order.
#[derive(Clone)]
pub struct Pool(PoolRecord);

/// A run of rings of one size, from a first number to a last one.
#[derive(Clone, Copy, Debug, PartialEq, Eq, PartialOrd, Ord, Hash)]
pub struct Run {
    /// The size.
    pub size: Size,
    /// The first number, 1 to 99,999,999.
    pub first: u32,
    /// The last number, not below the first.
    pub last: u32,
}

impl Run {
    /// How many rings it has: none where the first number is above the last, which no run of a pool has.
    ///
    /// ```
    /// use pevghazo::{Run, Size};
    ///
    /// assert_eq!(Run { size: Size::C, first: 12_001, last: 12_100 }.rings(), 100);
    /// ```
    #[must_use]
    pub fn rings(self) -> u64 {
        (u64::from(self.last) + 1).saturating_sub(u64::from(self.first))
    }

    /// Whether it has this number.
    #[must_use]
    pub fn has(self, number: u32) -> bool {
        self.first <= number && number <= self.last
    }

    /// Its record.
    fn record(self) -> RunRecord {
        RunRecord { size: u32::from(self.size.byte()), first: self.first, last: self.last }
    }

    /// The run of a record that the library or [`Pool::from_runs`] has made.
    fn of(record: &RunRecord) -> Run {
        let size = Size::ALL.into_iter().find(|size| u32::from(size.byte()) == record.size);
        let size = size.unwrap_or_else(|| unreachable!("the library has no size {}", record.size));
        Run { size, first: record.first, last: record.last }
    }
}

impl fmt::Display for Run {
    /// As `C 12001 to 12100`.
    fn fmt(&self, f: &mut fmt::Formatter<'_>) -> fmt::Result {
        write!(f, "{} {} to {}", self.size, self.first, self.last)
    }
}

impl Default for Pool {
    fn default() -> Pool {
        Pool::new()
    }
}

impl Pool {
    /// The empty pool.
    #[must_use]
    pub const fn new() -> Pool {
        Pool(PoolRecord::empty())
    }

    /// Adds an issue line, its line feed included. Checks 13, 14 and 15, in this order; a refusal leaves the pool as it was.
    pub fn add(&mut self, line: &[u8]) -> Result<(), Refusal> {
        answer(raw::pool_add(&mut self.0, line), 0).map(drop)
    }

    /// Adds an issue line inside the season: its day must be one that the window of its size permits. Checks 13, 16, 17, 14 and 15,
    /// in this order; a refusal leaves the pool as it was.
    ///
    /// ```
    /// use pevghazo::{Number, Pool, Window, Windows};
    ///
    /// # fn main() -> Result<(), pevghazo::Refusal> {
    /// let spring = Window { open_month: 3, open_day: 1, close_month: 6, close_day: 30 };
    /// let windows = Windows::new([spring; 8]);
    /// let mut pool = Pool::new();
    /// pool.add_in_season(&windows, b"7,C,12001,12100,20250630\n")?;
    ///
    /// let late = b"7,C,12101,12200,20250701\n";
    /// assert_eq!(pool.add_in_season(&windows, late).unwrap_err().number, Number::OutOfSeason);
    /// assert_eq!(pool.rings(), 100);
    /// # Ok(())
    /// # }
    /// ```
    pub fn add_in_season(&mut self, windows: &Windows, line: &[u8]) -> Result<(), Refusal> {
        answer(raw::pool_add_in_season(&mut self.0, windows.record(), line), 0).map(drop)
    }

    /// Whether a number of a size is pooled.
    #[must_use]
    pub fn holds(&self, size: Size, number: u32) -> bool {
        raw::pool_holds(&self.0, size.byte().into(), number)
    }

    /// How many rings are pooled, of all sizes together.
    #[must_use]
    pub fn rings(&self) -> u64 {
        raw::pool_rings(&self.0)
    }

    /// The runs, by size and first number. No two of one size meet or touch.
    #[must_use]
    pub fn runs(&self) -> Vec<Run> {
        let mut runs: Vec<Run> = self.0.runs[..self.0.used].iter().map(Run::of).collect();
        runs.sort_unstable();
        runs
    }

    /// The run that a number of a size is pooled in; none exactly where the pool does not hold it. It is looked up here, and not
    /// by the proved library.
    ///
    /// ```
    /// use pevghazo::{Pool, Run, Size};
    ///
    /// # fn main() -> Result<(), pevghazo::Refusal> {
    /// let mut pool = Pool::new();
    /// pool.add(b"7,C,12001,12100,20250304\n")?;
    /// assert_eq!(pool.find(Size::C, 12_050), Some(Run { size: Size::C, first: 12_001, last: 12_100 }));
    /// assert_eq!(pool.find(Size::C, 12_101), None);
    /// # Ok(())
    /// # }
    /// ```
    #[must_use]
    pub fn find(&self, size: Size, number: u32) -> Option<Run> {
        self.runs().into_iter().find(|run| run.size == size && run.has(number))
    }

    /// The pool with these runs, in any order, as [`Pool::runs`] gave them. They are refused unless some list of lines leaves
    /// them: at most 256, each with numbers from 1 to 99,999,999 and its first not above its last, and no two of one size that
    /// meet or touch.
    ///
    /// ```
    /// use pevghazo::{BadRuns, Pool, Run, Size};
    ///
    /// # fn main() -> Result<(), pevghazo::Refusal> {
    /// let mut pool = Pool::new();
    /// pool.add(b"7,C,12001,12100,20250304\n")?;
    /// assert_eq!(Pool::from_runs(&pool.runs()), Ok(pool));
    ///
    /// let touching = [(1, 5), (6, 9)].map(|(first, last)| Run { size: Size::C, first, last });
    /// assert_eq!(Pool::from_runs(&touching), Err(BadRuns::Meet(touching[0], touching[1])));
    /// # Ok(())
    /// # }
    /// ```
    pub fn from_runs(runs: &[Run]) -> Result<Pool, BadRuns> {
        if runs.len() > POOL_RUNS {
            return Err(BadRuns::TooMany(runs.len()));
        }
        let mut sorted = runs.to_vec();
        sorted.sort_unstable();
        if let Some(run) = sorted.iter().find(|run| run.first < 1 || run.first > run.last || run.last > RING_MAX) {
            return Err(BadRuns::Numbers(*run));
        }
        // Where any two meet or touch, two neighbours do; and no last number is near the end of 32 bits.
        let meet = |pair: &&[Run]| pair[0].size == pair[1].size && pair[0].last + 1 >= pair[1].first;
        if let Some(pair) = sorted.windows(2).find(meet) {
            return Err(BadRuns::Meet(pair[0], pair[1]));
        }
        let mut record = PoolRecord::empty();
        record.used = sorted.len();
        record.runs.iter_mut().zip(&sorted).for_each(|(place, run)| *place = run.record());
        Ok(Pool(record))
    }
}

impl PartialEq for Pool {
    /// Whether they have the same runs.
    fn eq(&self, other: &Pool) -> bool {
        self.runs() == other.runs()
    }
}

impl Eq for Pool {}

impl fmt::Debug for Pool {
    /// The runs.
    fn fmt(&self, f: &mut fmt::Formatter<'_>) -> fmt::Result {
        f.debug_tuple("Pool").field(&self.runs()).finish()
    }
}

/// Why runs were not taken for those of a pool.
#[derive(Clone, Copy, Debug, PartialEq, Eq, Hash)]
#[non_exhaustive]
pub enum BadRuns {
    /// They are so many, and more than 256.
    TooMany(usize),
    /// The first number of this run is above its last, or one of them is not 1 to 99,999,999.
    Numbers(Run),
    /// These two, of one size, meet or touch.
    Meet(Run, Run),
}

impl fmt::Display for BadRuns {
    fn fmt(&self, f: &mut fmt::Formatter<'_>) -> fmt::Result {
        match self {
            BadRuns::TooMany(count) => write!(f, "There are {count} runs, and a pool holds at most {POOL_RUNS}."),
            BadRuns::Numbers(run) => write!(f, "The run {run} does not go upwards within 1 to {RING_MAX}."),
            BadRuns::Meet(one, other) => write!(f, "The runs {one} and {other} meet or touch."),
        }
    }
}

impl std::error::Error for BadRuns {}
