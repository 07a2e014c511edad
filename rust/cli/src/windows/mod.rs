//! The windows in which the rings of each size may be issued, as a file has them.

mod date;
mod format;
mod off_season;

use std::io::{Write, stderr};

use pevghazo::{Size, Window, Windows};

use crate::arguments::Arguments;
use crate::by_size::{self, Row};
use crate::failure::Failure;
pub use date::{Date, wrong_dates};
pub use off_season::{NO_DAY, OffSeason};

/// A file with windows that was read.
pub struct WindowsFile {
    /// Its name, as it is shown.
    pub name: String,
    /// The windows.
    pub windows: Windows,
    /// Each size's line.
    rows: [Row<Window>; 8],
}

impl WindowsFile {
    /// Reads the file of the option `--windows`. Of each date that no year has, a warning goes to the standard error.
    pub fn open(arguments: &Arguments) -> Result<WindowsFile, Failure> {
        let (name, rows) = by_size::open(arguments, &format::KIND, format::read)?;
        let file = WindowsFile { name, windows: Windows::new(rows.map(|row| row.value)), rows };
        // Where a warning cannot be written, the lines still get their number.
        let _ = stderr().write_all(file.warnings().as_bytes());
        Ok(file)
    }

    /// A warning for each date that no year has, by lines.
    fn warnings(&self) -> String {
        let mut rows = self.rows;
        rows.sort_by_key(|row| row.line);
        let warning = |row: &Row<Window>, wrong: String| {
            let Row { size, line, .. } = row;
            format!(
                "pevghazo: {}, line {line}: size {size} {wrong}, which no year has: its lines get number 16.\n",
                self.name
            )
        };
        rows.iter().flat_map(|row| wrong_dates(row.value).into_iter().map(|wrong| warning(row, wrong))).collect()
    }
}

/// An issue line of one ring, of a size and a day.
pub fn line_of(size: Size, day: u32) -> Vec<u8> {
    format!("0,{size},1,1,{day:08}\n").into_bytes()
}

/// Whether the day of an issue line exists, as the library has it: with windows that hold every day, a line of any other day is refused.
pub fn has_day(line: &[u8]) -> bool {
    const EVERY_DAY: Window = Window { open_month: 1, open_day: 1, close_month: 12, close_day: 31 };
    Windows::new([EVERY_DAY; 8]).first_day(line).is_ok()
}

/// The size of an issue line that the library has taken for one.
pub fn size_in(line: &[u8]) -> Option<Size> {
    match line.split(|byte| *byte == b',').nth(1)? {
        [letter] => Size::try_from(*letter).ok(),
        _ => None,
    }
}
