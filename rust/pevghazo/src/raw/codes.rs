//! Codes for packets: `pevghazo/codes.h`.

use super::Record;
use super::bind::bind;

bind! {
    (session: &Record, packet: u32; session => *const Record, packet => u32);
    /// A packet's code, at the start of `out`. Checks 5, 12 and 8, in this order.
    code = pevghazo_code [] -> [out];
}
