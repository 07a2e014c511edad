//! The prices of a hundred rings of each size, as a file has them: a line for each of the sizes A to H, in any order, as `C,250`.

use pevghazo::{PRICE_MAX, Prices, Size};

use crate::arguments::{Arguments, digits};
use crate::by_size::{self, Kind, quoted};
use crate::failure::Failure;

/// What is said of price files.
const KIND: Kind = Kind {
    option: "prices",
    what: "price",
    fields: "two",
    a_line: "A line is size,price, the price of a hundred rings in whole pence, at most 1000000, as C,250, or 0 where none are sold.",
    a_file: "A price file has one line for each size, A to H, as C,250.",
};

/// A price list: the price of a hundred rings of each of the sizes A to H, in pence, at most 1,000,000; or 0 for a size that is not sold.
#[derive(Clone, Copy, Debug, PartialEq, Eq)]
pub struct PriceList([u32; 8]);

impl PriceList {
    /// A list with these prices, if none is too high.
    pub fn new(pence: [u32; 8]) -> Option<PriceList> {
        pence.iter().all(|price| *price <= PRICE_MAX).then_some(PriceList(pence))
    }

    /// Reads the file of the option `--prices`.
    pub fn open(arguments: &Arguments) -> Result<PriceList, Failure> {
        let (_, rows) = by_size::open(arguments, &KIND, read)?;
        Ok(PriceList(rows.map(|row| row.value)))
    }

    /// The prices of the sizes A to H, in pence.
    pub fn pence(&self) -> [u32; 8] {
        self.0
    }

    /// Each size with its price, in their order.
    pub fn sizes(&self) -> impl Iterator<Item = (Size, u32)> {
        Size::ALL.into_iter().zip(self.0)
    }

    /// The same for the proved library.
    pub fn prices(&self) -> Prices {
        Prices::new(self.0)
    }
}

/// The price of a line: digits without leading zeros, of a number that is not too high.
fn read([field]: [&str; 1]) -> Result<u32, String> {
    let price = quoted(field);
    let is_number = !field.is_empty() && field.bytes().all(|byte| byte.is_ascii_digit());
    if !is_number {
        return Err(format!("the price is {price}, and not a number in digits"));
    }
    if field.len() > 1 && field.starts_with('0') {
        return Err(format!("the price is {price}, and starts with a zero"));
    }
    let known = digits(field).filter(|pence| *pence <= PRICE_MAX);
    known.ok_or_else(|| format!("the price is {price}, and prices are in pence and at most {PRICE_MAX}"))
}
