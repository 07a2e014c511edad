//! The demo's charges for rings.

use std::io::Write;

use super::{Folder, indented};
use crate::failure::Failure;
use crate::output::print;

/// The treasurer charges for rings by a price list, and a line of a size that is not sold is refused.
pub fn charge(folder: &Folder, out: &mut dyn Write) -> Result<(), Failure> {
    const STATE: &str = "till.state";
    const PRICES: &str = "A,120\nB,150\nC,250\nD,0\nE,333\nF,0\nG,0\nH,900\n";
    const LINES: &str = "4,C,20001,20087,20250304\n27,E,701,703,20250304\n11,C,20151,20153,20250305\n";
    print(out, "\nThe treasurer charges for rings. A hundred of each size cost:\n")?;
    folder.write("prices", PRICES.as_bytes())?;
    print(out, &indented(&folder.play_alone(&["till", "prices", "--prices", "prices"])?))?;
    print(out, "Three lines come, and their receipt goes out:\n")?;
    print(out, &indented(LINES))?;
    folder.play(&["till", "create"], STATE)?;
    folder.write("lines", LINES.as_bytes())?;
    let charge = ["till", "charge", "--prices", "prices", "--in", "lines"];
    print(out, &indented(&folder.play(&charge, STATE)?))?;
    print(out, "  a line of a size that is not sold:\n")?;
    folder.write("lines", b"4,D,1,50,20250305\n")?;
    folder.refused(out, &charge, STATE)
}
