//! Small text files with one line for each of the sizes A to H, in any order: as `C,0301,0930` in a windows file, or `C,250` in a price
//! file. What is wrong with one is told with its line.

use std::path::Path;

use pevghazo::Size;
use pevghazo_store::shown;

use crate::arguments::Arguments;
use crate::failure::Failure;
use crate::input;

/// The most bytes that are read of a file: far more than eight lines have.
const MOST: usize = 1_024;

/// A line of the file.
#[derive(Clone, Copy, Debug, PartialEq, Eq)]
pub struct Row<T> {
    /// The size.
    pub size: Size,
    /// What the size has.
    pub value: T,
    /// The number of the line.
    pub line: usize,
}

/// What is said of a kind of such files.
pub struct Kind {
    /// The option that names the file.
    pub option: &'static str,
    /// What each size has in it.
    pub what: &'static str,
    /// How many fields a line has, in words.
    pub fields: &'static str,
    /// What a line must be.
    pub a_line: &'static str,
    /// What a file must have.
    pub a_file: &'static str,
}

/// Reads what the fields after the size say; or says what is wrong with them.
pub type Read<T, const N: usize> = fn([&str; N]) -> Result<T, String>;

/// Reads the file of the kind's option: gives its name, as it is shown, and the rows of the sizes in their order.
pub fn open<T, const N: usize>(
    arguments: &Arguments,
    kind: &Kind,
    value: Read<T, N>,
) -> Result<(String, [Row<T>; 8]), Failure> {
    input::check_names(arguments)?;
    let name = Path::new(arguments.required(kind.option)?);
    let bytes = input::small(name, MOST + 1)?;
    let name = if input::is_standard(name) { "standard input".to_string() } else { shown(name) };
    let rows = read(&bytes, kind, value).map_err(|wrong| Failure::BySize(format!("{name}{wrong}")))?;
    Ok((name, rows))
}

/// Reads the bytes of a file, and gives the rows of the sizes in their order; or what is wrong, to be said after the file's name.
fn read<T, const N: usize>(bytes: &[u8], kind: &Kind, value: Read<T, N>) -> Result<[Row<T>; 8], String> {
    if bytes.len() > MOST {
        return Err(format!(" is too long: it has more than {MOST} bytes. {}", kind.a_file));
    }
    let mut rows: Vec<Row<T>> = Vec::new();
    for (bytes, line) in lines(bytes).zip(1..) {
        let row = read_line(bytes, line, &rows, kind, value).map_err(|wrong| format!(", line {line}: {wrong}"))?;
        rows.push(row);
    }
    in_order(rows, kind)
}

/// The lines, without their line feeds and a carriage return before each. The last one may have no line feed.
fn lines(bytes: &[u8]) -> impl Iterator<Item = &[u8]> {
    bytes.split_inclusive(|byte| *byte == b'\n').map(|line| match line.strip_suffix(b"\n") {
        Some(line) => line.strip_suffix(b"\r").unwrap_or(line),
        None => line,
    })
}

/// Reads a line, which comes after these rows.
fn read_line<T, const N: usize>(
    bytes: &[u8],
    line: usize,
    before: &[Row<T>],
    kind: &Kind,
    value: Read<T, N>,
) -> Result<Row<T>, String> {
    let Kind { what, a_line, a_file, .. } = kind;
    if before.len() == Size::ALL.len() {
        return Err(format!("there are more than eight lines. {a_file}"));
    }
    let (size, value) = read_fields(bytes, kind, value).map_err(|wrong| format!("{wrong}. {a_line}"))?;
    match before.iter().find(|row| row.size == size) {
        Some(Row { line, .. }) => Err(format!("size {size} has its {what} in line {line} already. {a_file}")),
        None => Ok(Row { size, value, line }),
    }
}

/// The size of a line, and what it has.
fn read_fields<T, const N: usize>(bytes: &[u8], kind: &Kind, value: Read<T, N>) -> Result<(Size, T), String> {
    if let Some(byte) = bytes.iter().find(|byte| !(b' '..=b'~').contains(byte)) {
        return Err(format!("it has the byte 0x{byte:02x}, which is no plain text"));
    }
    let text = String::from_utf8_lossy(bytes);
    let fields: Vec<&str> = text.split(',').collect();
    let (size, rest) = fields.split_first().unwrap_or((&"", &[]));
    let Ok(rest) = <[&str; N]>::try_from(rest) else {
        return Err(match fields.len() {
            1 if text.is_empty() => "it is empty".to_string(),
            1 => format!("it has one field and not {}", kind.fields),
            count => format!("it has {count} fields and not {}", kind.fields),
        });
    };
    let size = size.parse().map_err(|_| format!("the size is {}, and sizes are A to H", quoted(size)))?;
    Ok((size, value(rest)?))
}

/// A field in quotes, or the first part of a long one.
pub fn quoted(field: &str) -> String {
    const SHOWN: usize = 20;
    let (shown, more) = field.split_at_checked(SHOWN).map_or((field, ""), |(first, _)| (first, " .."));
    format!("{shown:?}{more}")
}

/// The rows by their sizes, if none is missing.
fn in_order<T>(mut rows: Vec<Row<T>>, kind: &Kind) -> Result<[Row<T>; 8], String> {
    let missing = Size::ALL.into_iter().filter(|size| !rows.iter().any(|row| row.size == *size));
    let missing: Vec<String> = missing.map(|size| size.to_string()).collect();
    let count = rows.len();
    rows.sort_by_key(|row| row.size);
    rows.try_into().map_err(|_| {
        let end = if count == 0 { " is empty".to_string() } else { format!(" ends after line {count}") };
        format!("{end} and has no line for {}. {}", missing.join(", "), kind.a_file)
    })
}
