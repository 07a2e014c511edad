//! The commands of issue seasons. They have no state file.

mod first_day;
mod show;

pub use first_day::first_day;
pub use show::show;
