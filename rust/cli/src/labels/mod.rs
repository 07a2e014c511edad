//! The codes of packets, as text in three formats: lines, a table for spreadsheets and scripts, and a page of labels to print.

mod page;

use std::fmt;

use pevghazo::Code;

/// The codes of some packets of a group, one after the other.
pub struct Labels {
    /// The group.
    pub group: u32,
    /// The index of its session, which the codes belong to.
    pub index: u32,
    /// The packets with their codes.
    pub codes: Vec<(u32, Code)>,
}

impl Labels {
    /// The text in a format of the table of commands.
    pub fn text(&self, format: &str) -> String {
        match format {
            "csv" => self.csv(),
            "html" => page::html(self),
            _ => self.lines(),
        }
    }

    /// A line for each packet: its number, to the right of four columns, and its code.
    fn lines(&self) -> String {
        self.codes.iter().map(|(packet, code)| format!("{packet:4} {code}\n")).collect()
    }

    /// A table with commas. No field needs quotes, and lines end with a line feed alone, so that no script finds a carriage return
    /// behind the last field; spreadsheets take either.
    fn csv(&self) -> String {
        let (group, index) = (self.group, self.index);
        let rows = self.codes.iter().map(|(packet, code)| format!("{group},{index},{packet},{code}\n"));
        String::from("group,index,packet,code\n") + &rows.collect::<String>()
    }
}

impl fmt::Display for Labels {
    /// What they are of, in words.
    fn fmt(&self, f: &mut fmt::Formatter<'_>) -> fmt::Result {
        match self.codes[..] {
            [(packet, _)] => write!(f, "packet {packet}")?,
            [(first, _), .., (last, _)] => write!(f, "packets {first} to {last}")?,
            [] => f.write_str("no packet")?,
        }
        write!(f, " of group {} at index {}", self.group, self.index)
    }
}

#[cfg(test)]
mod tests {
    use super::*;

    /// Labels of so many packets from a first one on. The last byte of a code is the last of its packet's number.
    pub fn labels(first: u32, count: u32) -> Labels {
        let code = |packet: u32| (packet, Code::from([0, 0x1A, 0x2B, 0x3C, 0x4D, 0x5E, 0x6F, packet.to_le_bytes()[0]]));
        Labels { group: 7, index: 12, codes: (first..first + count).map(code).collect() }
    }

    #[test]
    fn lines_have_columns() {
        assert_eq!(labels(9, 2).text("text"), "   9 001a 2b3c 4d5e 6f09\n  10 001a 2b3c 4d5e 6f0a\n");
        assert_eq!(labels(2047, 1).text("text"), "2047 001a 2b3c 4d5e 6fff\n");
    }

    #[test]
    fn tables_have_a_head() {
        assert_eq!(
            labels(9, 2).text("csv"),
            "group,index,packet,code\n7,12,9,001a 2b3c 4d5e 6f09\n7,12,10,001a 2b3c 4d5e 6f0a\n"
        );
        assert_eq!(labels(2047, 1).text("csv"), "group,index,packet,code\n7,12,2047,001a 2b3c 4d5e 6fff\n");
    }

    #[test]
    fn every_format_of_the_table_is_there() {
        let texts = crate::table::FORMATS.map(|format| labels(0, 1).text(format));
        assert!(texts[0].starts_with("   0 "));
        assert!(texts[1].starts_with("group,"));
        assert!(texts[2].starts_with("<!DOCTYPE html>"));
    }

    #[test]
    fn they_say_what_they_are_of() {
        assert_eq!(labels(3, 1).to_string(), "packet 3 of group 7 at index 12");
        assert_eq!(labels(0, 24).to_string(), "packets 0 to 23 of group 7 at index 12");
    }
}
