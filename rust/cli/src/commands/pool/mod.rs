//! The commands of a pool of unused rings.

mod add;
mod show;

use std::io::Write;

use pevghazo::{BadSize, Pool, RING_MAX, Size};

use crate::arguments::{Arguments, digits};
use crate::failure::Failure;
use crate::output::{print, tell};
use crate::state_file::{Used, create as create_file};
pub use add::add;
pub use show::show;

/// Creates the state file of an empty pool.
pub fn create(arguments: &Arguments) -> Result<(), Failure> {
    create_file(arguments, &Pool::new())?;
    tell("Created: a pool without rings.");
    Ok(())
}

/// Says whether a ring is in the pool, and in which run.
pub fn find(arguments: &Arguments, out: &mut dyn Write) -> Result<(), Failure> {
    let size = read_size(arguments)?;
    let number = read_number(arguments.operand("NUMBER")?)?;
    let pool = Used::<Pool>::open(arguments)?.state;
    if !pool.holds(size, number) {
        print(out, "not pooled\n")?;
        return Err(Failure::NotPooled { size, number });
    }
    let run = pool.find(size, number).map(|run| format!(" in {run}")).unwrap_or_default();
    print(out, &format!("pooled{run}\n"))
}

/// The size in a word that was typed. Where it is none and no further word follows, the number may be in it.
fn read_size(arguments: &Arguments) -> Result<Size, Failure> {
    let text = arguments.operand("SIZE")?;
    let apart = if arguments.operand("NUMBER").is_err() { APART } else { "" };
    text.parse().map_err(|bad: BadSize| Failure::Usage(format!("SIZE is {text:?}. {bad}{apart}")))
}

/// How size and number are typed.
const APART: &str = " The number follows as a word of its own, as in `pevghazo pool find C 12001`.";

/// The number of a ring in a word that was typed.
fn read_number(text: &str) -> Result<u32, Failure> {
    let number = digits(text).filter(|number| (1..=RING_MAX).contains(number));
    number.ok_or_else(|| {
        Failure::Usage(format!("NUMBER is {text:?}. The number of a ring is 1 to {RING_MAX}, in digits."))
    })
}
