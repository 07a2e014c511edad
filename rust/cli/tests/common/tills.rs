//! What the tests of tills share: a price list, an empty till, and charging.

use super::Folder;

/// The prices of the sizes A to H, in pence. Size D is not sold.
pub const PRICES: [u32; 8] = [149, 150, 250, 0, 151, 99, 1, 1_000_000];

/// Charges for the lines of the file `lines`.
pub const CHARGE: &str = "till --state till charge --prices prices --in lines";

/// Gives the last receipt again.
pub const RECEIPT: &str = "till --state till receipt";

/// Shows the till.
pub const SHOW: &str = "till --state till show";

/// The text of a price file.
pub fn file_of(prices: [u32; 8]) -> String {
    ('A'..='H').zip(prices).map(|(size, price)| format!("{size},{price}\n")).collect()
}

/// A folder with the prices in `prices`, a line in `lines` and an empty till.
pub fn folder() -> Folder {
    let folder = Folder::new();
    folder.write("prices", file_of(PRICES).as_bytes());
    folder.write("lines", b"7,C,12001,12100,20250304\n");
    folder.done("till --state till create");
    folder
}

/// So many lines of one ring of a size, each with another number.
pub fn many_lines(size: char, count: usize) -> String {
    (1..=count).map(|number| format!("7,{size},{number},{number},20250304\n")).collect()
}

impl Folder {
    /// Charges for these lines, all of which are accepted. Gives the receipt.
    pub fn charges(&self, lines: &str) -> String {
        self.write("lines", lines.as_bytes());
        self.done(CHARGE)
    }

    /// Charges for these lines, with this status. Gives what was printed, and what was said.
    pub fn charges_with(&self, status: i32, lines: &[u8], options: &str) -> (String, String) {
        self.write("lines", lines);
        let run = self.run(&format!("{CHARGE} {options}"));
        assert_eq!(run.status, status, "{}", run.said);
        (String::from_utf8(run.printed).unwrap(), run.said)
    }

    /// The till's lines, total charged and exact total.
    pub fn totals(&self) -> (u64, u64, u64) {
        let shown = self.done(&format!("{SHOW} --json"));
        let number = |key: &str| {
            let (_, after) = shown.split_once(&format!("\"{key}\":")).unwrap();
            after[..after.find([',', '}']).unwrap()].parse().unwrap()
        };
        (number("lines"), number("charged"), number("exact"))
    }
}
