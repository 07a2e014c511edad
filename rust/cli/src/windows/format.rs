//! The format of a windows file: a line for each of the sizes A to H, in any order, as `C,0301,0930`.

use pevghazo::Window;

use super::Date;
use crate::by_size::{Kind, quoted};

/// What is said of windows files.
pub const KIND: Kind = Kind {
    option: "windows",
    what: "window",
    fields: "three",
    a_line: "A line is size,opening,closing, with four digits for a month and a day, as C,0301,0930.",
    a_file: "A windows file has one line for each size, A to H, as C,0301,0930.",
};

/// The window of a line.
pub fn read([opening, closing]: [&str; 2]) -> Result<Window, String> {
    let (open, close) = (read_date("opening", opening)?, read_date("closing", closing)?);
    let (open_month, open_day, close_month, close_day) = (open.month, open.day, close.month, close.day);
    Ok(Window { open_month, open_day, close_month, close_day })
}

/// The date of a field: any four digits.
fn read_date(name: &str, field: &str) -> Result<Date, String> {
    match *field.as_bytes() {
        [a, b, c, d] if field.bytes().all(|byte| byte.is_ascii_digit()) => {
            let two = |tens: u8, ones: u8| 10 * (tens - b'0') + (ones - b'0');
            Ok(Date { month: two(a, b), day: two(c, d) })
        }
        _ => Err(format!("the {name} is {}, and not four digits", quoted(field))),
    }
}
