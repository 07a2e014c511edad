//! Charging for rings: a price list, and the till that adds up what was charged.

use std::fmt;

use crate::raw::{self, PricesRecord, TillRecord};
use crate::refusal::{Refusal, answer};
use crate::{PRICE_MAX, RING_MAX, Size, TILL_LINES};

/// A price list: for each size the price of a hundred rings, 1 to 1,000,000 pence, or 0 where the size is not sold.
///
/// The prices may be any numbers: one above 1,000,000 is found when a line of its size is priced, which is then refused by
/// [`Number::NotSold`](crate::Number::NotSold), as with 0.
#[derive(Clone, Copy, Debug, PartialEq, Eq, Hash)]
pub struct Prices(PricesRecord);

impl Prices {
    /// These prices in pence, for the sizes A to H in this order.
    #[must_use]
    pub const fn new(pence: [u32; 8]) -> Prices {
        Prices(PricesRecord { sizes: pence })
    }

    /// The price of a hundred rings of a size, in pence.
    #[must_use]
    pub const fn of(&self, size: Size) -> u32 {
        self.0.sizes[(size.byte() - Size::A.byte()) as usize]
    }
}

/// A till: how many issue lines were priced, what was charged for them, and what they come to exactly.
///
/// The charge of a line is its rings times the price of a hundred of them, divided by 100, in whole pence, halves upwards. Each priced
/// line adds its charge to the total charged, and rings times price, which are hundredths of a penny, to the exact total. After any
/// list of lines from the empty till, the two lie at most half a penny apart for each line that was priced.
///
/// ```
/// use pevghazo::{Number, Prices, Till};
///
/// # fn main() -> Result<(), pevghazo::Refusal> {
/// // A hundred rings of size C cost 2.50 pounds; no others are sold.
/// let prices = Prices::new([0, 0, 250, 0, 0, 0, 0, 0]);
/// let mut till = Till::new();
/// assert_eq!(till.price(&prices, b"7,C,12001,12100,20250304\n")?, 250);
///
/// // Three rings are 7.5 pence, and 8 are charged.
/// assert_eq!(till.price(&prices, b"7,C,12101,12103,20250304\n")?, 8);
/// assert_eq!((till.lines(), till.charged(), till.exact()), (2, 258, 25_750));
///
/// // A refused line leaves the till as it was.
/// assert_eq!(till.price(&prices, b"7,D,1,100,20250304\n").unwrap_err().number, Number::NotSold);
/// assert_eq!((till.lines(), till.charged(), till.exact()), (2, 258, 25_750));
/// # Ok(())
/// # }
/// ```
#[derive(Clone, Copy, Debug, PartialEq, Eq, Hash)]
pub struct Till(TillRecord);

impl Default for Till {
    fn default() -> Till {
        Till::new()
    }
}

impl Till {
    /// The till in which nothing is booked yet: all 0.
    #[must_use]
    pub const fn new() -> Till {
        Till(TillRecord { lines: 0, charged: 0, exact: 0 })
    }

    /// Prices an issue line, its line feed included, and gives its charge in pence. Checks 13, 16, 19 and 22, in this order; a refusal
    /// leaves the till as it was.
    pub fn price(&mut self, prices: &Prices, line: &[u8]) -> Result<u64, Refusal> {
        let priced = raw::price(self.0, prices.0, line);
        self.0 = priced.till;
        answer(priced.number, 0)?;
        Ok(priced.charge)
    }

    /// How many lines were priced, at most 65,536.
    #[must_use]
    pub const fn lines(&self) -> u64 {
        self.0.lines
    }

    /// The total charged, in pence.
    #[must_use]
    pub const fn charged(&self) -> u64 {
        self.0.charged
    }

    /// The exact total, rings times price, in hundredths of a penny.
    #[must_use]
    pub const fn exact(&self) -> u64 {
        self.0.exact
    }

    /// The till with these totals, as [`Till::lines`], [`Till::charged`] and [`Till::exact`] gave them. They are refused where they pass a
    /// bound that holds after every list of lines: there are at most 65,536 lines, each of which comes to at least 1 and at most
    /// 99,999,999,000,000 hundredths of a penny, and the two totals lie at most half a penny apart for each line. Others are taken, also
    /// where no list of lines leaves them. This is looked at here, and not by the proved library.
    ///
    /// ```
    /// use pevghazo::{BadTotals, Till};
    ///
    /// let till = Till::from_totals(2, 258, 25_750).unwrap();
    /// assert_eq!((till.lines(), till.charged(), till.exact()), (2, 258, 25_750));
    /// assert_eq!(Till::from_totals(0, 0, 0), Ok(Till::new()));
    /// assert_eq!(Till::from_totals(2, 260, 25_750), Err(BadTotals::Apart));
    /// ```
    pub fn from_totals(lines: u64, charged: u64, exact: u64) -> Result<Till, BadTotals> {
        if lines > TILL_LINES {
            return Err(BadTotals::Lines);
        }
        if exact < lines || exact > lines * u64::from(RING_MAX) * u64::from(PRICE_MAX) {
            return Err(BadTotals::Exact);
        }
        // A hundred times the total charged may pass 64 bits.
        if (100 * u128::from(charged)).abs_diff(exact.into()) > 50 * u128::from(lines) {
            return Err(BadTotals::Apart);
        }
        Ok(Till(TillRecord { lines, charged, exact }))
    }
}

/// Why totals were not taken for those of a till.
#[derive(Clone, Copy, Debug, PartialEq, Eq, Hash)]
#[non_exhaustive]
pub enum BadTotals {
    /// There are more than 65,536 lines.
    Lines,
    /// So many lines do not come to this exact total: one comes to 1 to 99,999,999,000,000 hundredths of a penny.
    Exact,
    /// The total charged and the exact total lie further apart than half a penny for each line.
    Apart,
}

impl fmt::Display for BadTotals {
    fn fmt(&self, f: &mut fmt::Formatter<'_>) -> fmt::Result {
        f.write_str(match self {
            BadTotals::Lines => "A till has at most 65,536 lines.",
            BadTotals::Exact => "So many lines do not come to this exact total.",
            BadTotals::Apart => "The total charged and the exact total lie further apart than half a penny a line.",
        })
    }
}

impl std::error::Error for BadTotals {}
