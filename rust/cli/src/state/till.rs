//! The state of a till, with what its last receipt is worked out from.
//!
//! | bytes | content |
//! |---|---|
//! | 8 | `till---1` |
//! | 24 | the till: how many lines were charged, the total charged and the exact total, 64 bits each |
//! | 4 | how many receipts there are; if there are none, nothing follows |
//! | 1 | 0 if the last receipt waits to be handed out, 1 if it was handed out |
//! | 24 | the till before the last receipt |
//! | 32 | the prices of its sizes A to H |
//! | 4 | how many lines its input had, at most 65,536 |
//! | 1 and as many bytes, for each of them | how many bytes the line has, 1 to 33, and these: as `lines` gives them |
//!
//! Numbers have their lowest byte first. The till is the one that pricing these lines leaves.

use pevghazo::{LINE_MAX, Till};
use pevghazo_store::Secret;

use super::format::{self, Bad, Reader, put_count};
use super::{Held, State};
use crate::prices::PriceList;
use crate::receipt::{Receipt, Sale};

/// What is said of an older copy.
const OLDER: &str = "\
What was charged since is not in it, nor are its receipts, whose numbers are given again. `--restore` takes it all the same: then charge \
those lines again.";

/// A till with its receipts.
#[derive(Debug, PartialEq, Eq)]
pub struct TillBook {
    /// The till.
    pub till: Till,
    /// How many receipts there are.
    pub receipts: u32,
    /// What the last of them is worked out from, if there is one, and whether it was handed out.
    pub last: Option<Held<Sale>>,
}

impl TillBook {
    /// A till in which nothing is booked.
    pub fn new() -> TillBook {
        TillBook { till: Till::new(), receipts: 0, last: None }
    }

    /// The last receipt, if there is one.
    pub fn receipt(&self) -> Option<Receipt<'_>> {
        self.last.as_ref().map(|last| Receipt::new(self.receipts, &last.content))
    }

    /// Books a sale, which leaves this till, as the next receipt, which waits to be handed out.
    pub fn book(&mut self, sale: Sale, after: Till) {
        *self = TillBook { till: after, receipts: self.receipts + 1, last: Some(Held::waiting(sale)) };
    }

    /// Notes that the last receipt was handed out.
    pub fn handed_out(&mut self) {
        if let Some(last) = &mut self.last {
            last.handed_out = true;
        }
    }

    /// Whether sales leave it. Each receipt has a charged line at least.
    fn is_left_by_sales(&self) -> bool {
        match (&self.last, self.receipt()) {
            (Some(last), Some(receipt)) => {
                let (earlier, before) = (u64::from(self.receipts - 1), last.content.before.lines());
                receipt.after == self.till && receipt.count() > 0 && earlier <= before && (earlier > 0 || before == 0)
            }
            _ => self.till == Till::new(),
        }
    }
}

impl State for TillBook {
    const OLDER: &'static str = OLDER;

    fn encode(&self) -> Secret {
        let mut bytes = format::started(&format::TILL);
        put_till(&mut bytes, self.till);
        bytes.add(&self.receipts.to_le_bytes());
        if let Some(Held { content: Sale { before, list, lines }, handed_out }) = &self.last {
            bytes.add(&[u8::from(*handed_out)]);
            put_till(&mut bytes, *before);
            list.pence().iter().for_each(|price| bytes.add(&price.to_le_bytes()));
            put_count(&mut bytes, lines.len());
            for line in lines {
                bytes.add(&[line.len() as u8]);
                bytes.add(line);
            }
        }
        bytes
    }

    fn decode(bytes: &[u8]) -> Result<TillBook, Bad> {
        let (_, mut reader) = Reader::after(bytes, &format::TILL)?;
        let (till, receipts) = (read_till(&mut reader)?, reader.number()?);
        let last = if receipts > 0 { Some(read_last(&mut reader)?) } else { None };
        let book = TillBook { till, receipts, last };
        if book.is_left_by_sales() { reader.end(book) } else { Err(Bad::Format) }
    }
}

/// Adds the totals of a till.
fn put_till(bytes: &mut Secret, till: Till) {
    [till.lines(), till.charged(), till.exact()].iter().for_each(|total| bytes.add(&total.to_le_bytes()));
}

/// A till with totals that some list of lines may leave.
fn read_till(reader: &mut Reader) -> Result<Till, Bad> {
    let mut total = || reader.array().map(u64::from_le_bytes);
    Till::from_totals(total()?, total()?, total()?).map_err(|_| Bad::Format)
}

/// What the last receipt is worked out from, after whether it was handed out.
fn read_last(reader: &mut Reader) -> Result<Held<Sale>, Bad> {
    let handed_out = match reader.array()? {
        [0] => false,
        [1] => true,
        _ => return Err(Bad::Format),
    };
    Ok(Held { content: read_sale(reader)?, handed_out })
}

/// What a receipt is worked out from.
fn read_sale(reader: &mut Reader) -> Result<Sale, Bad> {
    let before = read_till(reader)?;
    let mut pence = [0; 8];
    for price in &mut pence {
        *price = reader.number()?;
    }
    let list = PriceList::new(pence).ok_or(Bad::Format)?;
    let lines = reader.list(Sale::MOST, read_line)?;
    if are_lines(&lines) { Ok(Sale { before, list, lines }) } else { Err(Bad::Format) }
}

/// The most bytes of a line, which is cut to one more than an issue line may have.
const LINE: usize = LINE_MAX + 1;

/// A line of any bytes.
fn read_line(reader: &mut Reader) -> Result<Vec<u8>, Bad> {
    let [length] = reader.array()?;
    if (1..=LINE).contains(&length.into()) { reader.take(length.into()).map(<[u8]>::to_vec) } else { Err(Bad::Format) }
}

/// Whether these are the lines of an input: a line feed is at the end of one alone, and missing only where a line is cut, or at the end of
/// the last.
fn are_lines(lines: &[Vec<u8>]) -> bool {
    let ends = |line: &[u8]| line.iter().position(|byte| *byte == b'\n').map(|place| place + 1);
    lines.iter().enumerate().all(|(place, line)| match ends(line) {
        Some(end) => end == line.len(),
        None => line.len() == LINE || place + 1 == lines.len(),
    })
}
