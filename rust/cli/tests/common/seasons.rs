//! What the tests of issue seasons share: a windows file, and which days its windows hold, worked out by hand.

use pevghazo_reference::days::is_leap;

use super::Folder;

/// The windows of the sizes A to H. In a common year, 0229 as a closing is 0228 and as an opening 0301.
pub const WINDOWS: [&str; 8] =
    ["0229,0229", "0101,0105", "1231,0101", "0301,0228", "0229,0228", "0301,0930", "1001,0229", "0101,1231"];

/// The text of a windows file.
pub fn file_of(windows: [&str; 8]) -> String {
    ('A'..='H').zip(windows).map(|(size, window)| format!("{size},{window}\n")).collect()
}

/// A folder with the windows in `windows`, an empty pool and a line for it.
pub fn folder() -> Folder {
    let folder = Folder::new();
    folder.write("windows", file_of(WINDOWS).as_bytes());
    folder.write("lines", b"7,C,12001,12100,20250101\n");
    folder.done("pool --state pool create");
    folder
}

/// The letters of the sizes that are open on a day, with a dash for each of the others.
pub fn open_on(year: u32, month: u32, day: u32) -> String {
    let date = month * 100 + day;
    let open = [
        is_leap(year) && date == 229,
        date <= 105,
        date == 1231 || date == 101,
        date != 229,
        true,
        (301..=930).contains(&date),
        date >= 1001 || date <= 229,
        true,
    ];
    ('A'..='H').zip(open).map(|(size, is_open)| if is_open { size } else { '-' }).collect()
}
