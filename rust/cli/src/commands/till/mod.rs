//! The commands of a till, which charges for rings.

mod charge;
mod receipt;
mod show;

use std::fmt::Write as _;
use std::io::Write;

use crate::arguments::Arguments;
use crate::failure::Failure;
use crate::money::pounds;
use crate::output::{print, tell};
use crate::prices::PriceList;
use crate::state::TillBook;
use crate::state_file::{Used, create as create_file};
pub use charge::charge;
pub use receipt::receipt;
pub use show::show;

/// The word that the commands of a till start with.
const NAME: &str = "till";

/// Creates the state file of a till in which nothing is booked.
pub fn create(arguments: &Arguments) -> Result<(), Failure> {
    create_file(arguments, &TillBook::new())?;
    tell("Created: a till in which nothing is booked.");
    Ok(())
}

/// Shows a price list, so that it can be checked before it is used.
pub fn prices(arguments: &Arguments, out: &mut dyn Write) -> Result<(), Failure> {
    let mut text = String::from("size    pence  pounds for 100 rings\n");
    for (size, pence) in PriceList::open(arguments)?.sizes() {
        let sold = if pence == 0 { "not sold".to_string() } else { pounds(pence.into()) };
        let _ = writeln!(text, "{size:5} {pence:7}  {sold:>8}");
    }
    print(out, &text)
}

/// Notes that the last receipt was handed out, unless that was noted before.
fn note_handed_out(used: &mut Used<TillBook>) -> Result<(), Failure> {
    used.state.handed_out();
    used.commit_if_altered().map_err(Failure::NotNoted)
}
