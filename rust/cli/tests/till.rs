//! Charging for rings: charges and receipts against values that were worked out by hand, refusals, and lines that come again.

mod common;

use common::Folder;
use common::tills::{CHARGE, PRICES, RECEIPT, SHOW, file_of, folder};

const BAD_LINE: &str =
    "This is not an issue line: it must be group,size,first,last,day, as 7,C,12001,12100,20250304, and a line feed.";
const NO_DAY: &str = "The day does not exist: days are those of the years 1900 to 2199.";
const NOT_SOLD: &str = "Rings of size D are not sold: the price list has 0 for them.";

/// Lines whose charges end in 49, 50 and 51 hundredths, and what is refused between them. 3 rings at 250 are 7.50 pence; 1 at 149 is
/// 1.49, at 150 1.50 and at 151 1.51; and 49, 50 and 51 at 1 are 0.49, 0.50 and 0.51.
const LINES: &str = "7,C,12001,12100,20250304\n\
                     7,C,12101,12103,20250304\n\
                     7,D,1,100,20250304\n\
                     0,A,5,5,19000101\n\
                     31,B,99999999,99999999,21991231\n\
                     4,E,7,7,20240229\n\
                     4,E,7,7,20230229\n\
                     4,G,1,49,20250304\n\
                     <b>&\n\
                     4,G,50,99,20250304\n\
                     4,G,100,150,20250304\n\
                     4,H,1,99999999,20250304\n";

/// Its receipt. The charges are 250, 8, 1, 2, 2, 0, 1, 1 and 999999990000; the exact amounts 25000, 750, 149, 150, 151, 49, 50, 51 and
/// 99999999000000.
const TEXT: &str = "Receipt 1, with prices and charges in pounds

 line group size    first     last    rings      day  per 100        charge
    1     7    C    12001    12100      100 20250304     2.50          2.50
    2     7    C    12101    12103        3 20250304     2.50          0.08
    4     0    A        5        5        1 19000101     1.49          0.01
    5    31    B 99999999 99999999        1 21991231     1.50          0.02
    6     4    E        7        7        1 20240229     1.51          0.02
    8     4    G        1       49       49 20250304     0.01          0.00
   10     4    G       50       99       50 20250304     0.01          0.01
   11     4    G      100      150       51 20250304     0.01          0.01
   12     4    H        1 99999999 99999999 20250304 10000.00 9999999900.00

lines charged  9 of 12
rings          100000255
total charged  9999999902.65 pounds
exact total    9999999902.6350 pounds
difference     +0.0150 pounds, at most 0.0450 for 9 lines

The till after this receipt:
lines charged  9 of 65536
total charged  9999999902.65 pounds
exact total    9999999902.6350 pounds
difference     +0.0150 pounds, at most 0.0450 for 9 lines

Refused lines, which are not charged:
line 3: number 19: Rings of size D are not sold: the price list has 0 for them.
line 7: number 16: The day does not exist: days are those of the years 1900 to 2199.
line 9: number 13: This is not an issue line: it must be group,size,first,last,day, as 7,C,12001,12100,20250304, and a line feed.
";

/// The same as a table.
const CSV: &str = "receipt,line,group,size,first,last,rings,day,price_pence,charge_pence,charge_pounds,refused
1,1,7,C,12001,12100,100,20250304,250,250,2.50,
1,2,7,C,12101,12103,3,20250304,250,8,0.08,
1,3,,,,,,,,,,19
1,4,0,A,5,5,1,19000101,149,1,0.01,
1,5,31,B,99999999,99999999,1,21991231,150,2,0.02,
1,6,4,E,7,7,1,20240229,151,2,0.02,
1,7,,,,,,,,,,16
1,8,4,G,1,49,49,20250304,1,0,0.00,
1,9,,,,,,,,,,13
1,10,4,G,50,99,50,20250304,1,1,0.01,
1,11,4,G,100,150,51,20250304,1,1,0.01,
1,12,4,H,1,99999999,99999999,20250304,1000000,999999990000,9999999900.00,
";

/// What is said of it.
const SAID: &str = "pevghazo: Refused, number 19, at line 3: Rings of size D are not sold: the price list has 0 for them. Lines refused: 3. Lines charged: 9.\n";

#[test]
fn a_receipt_for_people() {
    let folder = folder();
    let (printed, said) = folder.charges_with(29, LINES.as_bytes(), "");
    assert_eq!((printed.as_str(), said.as_str()), (TEXT, SAID));
    assert_eq!(folder.totals(), (9, 999_999_990_265, 99_999_999_026_350));
    let table = TEXT.split("\nRefused").next().unwrap();
    assert!(table.is_ascii() && table.lines().all(|line| line.len() <= 80));
}

#[test]
fn a_receipt_as_a_table() {
    let folder = folder();
    let (printed, said) = folder.charges_with(29, LINES.as_bytes(), "--format csv");
    assert_eq!((printed.as_str(), said.as_str()), (CSV, SAID));
    let rows = CSV.lines().map(|row| row.split(',').collect::<Vec<_>>());
    assert!(rows.clone().all(|row| row.len() == 12) && !CSV.contains(['"', '\r', ' ']));
    // A sum over a column is that of the charged lines.
    let sum: u64 = rows.skip(1).filter_map(|row| row[9].parse::<u64>().ok()).sum();
    assert_eq!(sum, folder.totals().1);
}

/// The body of a page, which stands alone.
fn body(page: &str) -> &str {
    for part in [
        "src=",
        "href",
        "url(",
        "@import",
        "<script",
        "<link",
        "<img",
        "//",
        "onload",
        "<b>",
        "<th scope=\"col\"></th>",
    ] {
        assert!(!page.contains(part), "{part}: {page}");
    }
    assert!(page.is_ascii() && page.starts_with("<!DOCTYPE html>\n<html lang=\"en\">\n"));
    assert!(page.contains("@page { size: A4; "));
    page.split_once("<body>\n").unwrap().1
}

#[test]
fn a_receipt_as_a_page() {
    let folder = folder();
    folder.charges("4,A,1,1,20250304\n");
    let lines = b"7,C,12101,12103,20250304\n7,D,1,100,20250304\n4,A,7,7,20250305\n";
    let (page, _) = folder.charges_with(29, lines, "--format html");
    assert!(page.contains("\n<title>Receipt 2</title>\n"));
    assert_eq!(
        body(&page),
        "<main>\n<h1>Receipt 2</h1>\n\
         <table class=\"lines\">\n<caption>Charged lines: 2 of 3, with 4 rings</caption>\n<thead>\n\
         <tr><th scope=\"col\">Line</th><th scope=\"col\">Group</th><th scope=\"col\">Size</th><th scope=\"col\">First</th>\
         <th scope=\"col\">Last</th><th scope=\"col\">Rings</th><th scope=\"col\">Day</th><th scope=\"col\">&pound; per 100</th>\
         <th scope=\"col\">Charge in &pound;</th></tr>\n</thead>\n<tbody>\n\
         <tr><th scope=\"row\">1</th><td>7</td><td>C</td><td>12101</td><td>12103</td><td>3</td><td>20250304</td><td>2.50</td>\
         <td>0.08</td></tr>\n\
         <tr><th scope=\"row\">3</th><td>4</td><td>A</td><td>7</td><td>7</td><td>1</td><td>20250305</td><td>1.49</td>\
         <td>0.01</td></tr>\n\
         </tbody>\n</table>\n\
         <table class=\"totals\">\n<caption>Totals</caption>\n<thead>\n\
         <tr><th scope=\"col\">Item</th><th scope=\"col\">This receipt</th><th scope=\"col\">The till after it</th></tr>\n\
         </thead>\n<tbody>\n\
         <tr><th scope=\"row\">Lines charged</th><td>2</td><td>3 of 65536</td></tr>\n\
         <tr><th scope=\"row\">Total charged</th><td>&pound;0.09</td><td>&pound;0.10</td></tr>\n\
         <tr><th scope=\"row\">Exact total</th><td>&pound;0.0899</td><td>&pound;0.1048</td></tr>\n\
         <tr><th scope=\"row\">Difference</th><td>+&pound;0.0001</td><td>&minus;&pound;0.0048</td></tr>\n\
         <tr><th scope=\"row\">Difference at most</th><td>&pound;0.0100</td><td>&pound;0.0150</td></tr>\n\
         </tbody>\n</table>\n\
         <table class=\"refused\">\n<caption>Refused lines, which are not charged</caption>\n<thead>\n\
         <tr><th scope=\"col\">Line</th><th scope=\"col\">Number</th><th scope=\"col\">Reason</th></tr>\n</thead>\n<tbody>\n\
         <tr><th scope=\"row\">2</th><td>19</td><td>Rings of size D are not sold: the price list has 0 for them.</td></tr>\n\
         </tbody>\n</table>\n</main>\n</body>\n</html>\n"
    );
    // Without refused lines there is no table of them, and of any bytes nothing is shown.
    folder.write("lines", b"4,A,8,8,20250305\n");
    assert!(!folder.done(&format!("{CHARGE} --format html")).contains("efused lines"));
    let (page, _) = folder.charges_with(23, b"</td><script>alert(1)</script>\n4,A,9,9,20250305\n", "--format html");
    body(&page);
}

/// A second receipt has its own totals, and those of the till.
#[test]
fn receipts_follow_each_other() {
    let folder = folder();
    folder.charges("7,C,12001,12100,20250304\n7,C,12101,12103,20250304\n");
    let receipt = folder.charges("11,A,1,1,20250305\n");
    assert_eq!(
        receipt,
        "Receipt 2, with prices and charges in pounds

 line group size    first     last    rings      day  per 100        charge
    1    11    A        1        1        1 20250305     1.49          0.01

lines charged  1 of 1
rings          1
total charged  0.01 pounds
exact total    0.0149 pounds
difference     -0.0049 pounds, at most 0.0050 for 1 line

The till after this receipt:
lines charged  3 of 65536
total charged  2.59 pounds
exact total    2.5899 pounds
difference     +0.0001 pounds, at most 0.0150 for 3 lines
"
    );
    assert_eq!(
        folder.done(SHOW),
        "receipts       2\nlast receipt   handed out\nlines charged  3 of 65536\ntotal charged  2.59 pounds\nexact total    2.5899 pounds\n\
         difference     +0.0001 pounds, at most 0.0150 for 3 lines\n"
    );
    let json = "{\"commit\":5,\"receipts\":2,\"receipt\":\"handed-out\",\"lines\":3,\"charged\":259,\"exact\":25899,\"difference\":1}\n";
    assert_eq!(folder.done(&format!("{SHOW} --json")), json);
    // What is charged at other prices adds to the same totals.
    folder.write("prices", file_of([1_000; 8]).as_bytes());
    assert!(folder.charges("7,D,1,7,20250304\n").starts_with("Receipt 3, "));
    assert_eq!(folder.totals(), (4, 259 + 70, 25_899 + 7_000));
}

#[test]
fn an_empty_till() {
    let folder = folder();
    assert_eq!(
        folder.done(SHOW),
        "receipts       0\nlast receipt   none\nlines charged  0 of 65536\ntotal charged  0.00 pounds\nexact total    0.0000 pounds\n\
         difference     0.0000 pounds, at most 0.0000 for 0 lines\n"
    );
    let said = folder.fails(5, RECEIPT);
    assert_eq!(said, "pevghazo: There is no receipt: nothing was charged with this till yet.\n");
    assert_eq!(folder.fails(5, &format!("{RECEIPT} --format html --out page")), said);
    assert_eq!(folder.read("page"), None);
}

/// The checks are made in the order 13, 16, 19.
#[test]
fn the_first_check_counts() {
    let folder = folder();
    for (line, number, reason) in [
        ("7,D,1,100,20230229\n", 16, NO_DAY),
        ("7,C,1,100,18991231\n", 16, NO_DAY),
        ("7,C,1,100,22000101\n", 16, NO_DAY),
        ("7,C,1,100,00000000\n", 16, NO_DAY),
        ("7,D,1,100,20250304\n", 19, NOT_SOLD),
        ("7,D,0,100,20230229\n", 13, BAD_LINE),
        ("7,C,0,100,20250304\n", 13, BAD_LINE),
        ("7,C,1,100000000,20250304\n", 13, BAD_LINE),
        ("7,C,2,1,20250304\n", 13, BAD_LINE),
        ("32,C,1,100,20250304\n", 13, BAD_LINE),
        ("07,C,1,100,20250304\n", 13, BAD_LINE),
        ("7,I,1,100,20250304\n", 13, BAD_LINE),
        ("7,C,1,100,2025034\n", 13, BAD_LINE),
        ("\n", 13, BAD_LINE),
        ("7,C,1,100,20250304", 13, BAD_LINE),
        ("7,C,1,100,20250304 \n", 13, BAD_LINE),
        ("31,C,10000001,10000001,20250304,and much more than a line has\n", 13, BAD_LINE),
    ] {
        let before = folder.read("till");
        let (printed, said) = folder.charges_with(10 + number, line.as_bytes(), "--out receipt");
        assert_eq!(printed, format!("line 1: number {number}: {reason}\ncharged 0 of 1 lines\n"));
        let expected = format!("Refused, number {number}, at line 1: {reason} Lines refused: 1. Lines charged: 0.\n");
        assert_eq!(said, format!("pevghazo: {expected}"));
        assert!(folder.read("till") == before && folder.read("receipt").is_none(), "{line}");
    }
}

/// Files as some systems write them are refused line by line, and it is said why.
#[test]
fn carriage_returns_are_told() {
    let folder = folder();
    let (printed, _) = folder.charges_with(23, b"7,C,1,1,20250304\r\n7,C,2,2,20250304\n", "");
    let tail = "line 1: number 13: This is not an issue line: it must be group,size,first,last,day, as 7,C,12001,12100,20250304, and a line feed. \
                It ends with carriage return and line feed: take the carriage return away.\n";
    assert!(printed.ends_with(tail), "{printed}");
}

/// Where one line is refused none is charged: no number is used, no file is made, and the state file stays as it is.
#[test]
fn all_or_none() {
    let folder = folder();
    let before = folder.read("till");
    let names = folder.names();
    let listed = format!("line 3: number 19: {NOT_SOLD}\nline 7: number 16: {NO_DAY}\nline 9: number 13: {BAD_LINE}\n");
    for format in ["text", "csv", "html"] {
        let options = format!("--all-or-none --out receipt --format {format}");
        let (printed, said) = folder.charges_with(29, LINES.as_bytes(), &options);
        assert_eq!(printed, format!("{listed}charged 0 of 12 lines\n"));
        assert_eq!(said, SAID.replace("charged: 9", "charged: 0"));
    }
    assert!(folder.read("till") == before && folder.names() == names);
    assert_eq!(
        folder.charges_with(29, LINES.as_bytes(), "--all-or-none").0,
        format!("{listed}charged 0 of 12 lines\n")
    );
    let (printed, said) = folder.charges_with(0, b"7,C,12101,12103,20250304\n", "--all-or-none");
    assert!(printed.starts_with("Receipt 1, ") && said.is_empty(), "{printed}");
    assert_eq!(folder.totals(), (1, 8, 750));
}

#[test]
fn an_empty_input_charges_nothing() {
    let folder = folder();
    let before = folder.read("till");
    for options in ["", "--all-or-none", "--out receipt", "--format csv"] {
        let (printed, said) = folder.charges_with(0, b"", options);
        assert_eq!((printed.as_str(), said.as_str()), ("charged 0 of 0 lines\n", ""));
    }
    assert!(folder.read("till") == before && folder.read("receipt").is_none());
}

/// The receipt is the same again in every format, whatever the first one was, and after other commands.
#[test]
fn a_receipt_is_the_same_again() {
    for first in ["text", "csv", "html"] {
        let folder = folder();
        let (printed, _) = folder.charges_with(29, LINES.as_bytes(), &format!("--format {first}"));
        let state = folder.read("till");
        folder.write("prices", file_of([7; 8]).as_bytes());
        folder.write("lines", b"7,A,1,2,20250304\n");
        folder.fails(4, &format!("{CHARGE}x"));
        assert_eq!(folder.done(&format!("{RECEIPT} --format {first}")), printed);
        for (format, expected) in [("text", TEXT), ("csv", CSV)] {
            assert_eq!(folder.done(&format!("{RECEIPT} --format {format}")), expected);
        }
        assert_eq!(folder.done(RECEIPT), TEXT);
        folder.done(&format!("{RECEIPT} --format {first} --out receipt"));
        assert!(folder.read("receipt").unwrap() == printed.as_bytes());
        // The same bytes may be there already, and no others.
        folder.done(&format!("{RECEIPT} --format {first} --out receipt"));
        let other = if first == "csv" { "text" } else { "csv" };
        let said = folder.fails(4, &format!("{RECEIPT} --format {other} --out receipt"));
        assert!(said.ends_with("/receipt already: remove it or choose another output.\n"), "{said}");
        assert!(folder.read("till") == state);
    }
}

/// What the last receipt has is not charged once more, unless that is asked for.
#[test]
fn lines_are_not_charged_twice() {
    let folder = folder();
    folder.charges_with(29, LINES.as_bytes(), "");
    let (state, names) = (folder.read("till"), folder.names());
    let again = "pevghazo till receipt --state till";
    let same = format!(
        "pevghazo: This input was charged at these prices already, as receipt 1: 9 of its 12 lines, and the others were refused. `{again}` gives \
         that receipt again, and `--again` charges the input once more.\n"
    );
    for options in ["", "--format html", "--out receipt", "--all-or-none"] {
        assert_eq!(folder.fails(5, &format!("{CHARGE} {options}")), same);
    }
    // A refused line was mended, or the prices are others, or the line is among others.
    let known = |places: &[u64], known: &str, them: &str| {
        let said = format!(
            "pevghazo: {known}. Take {them} out, or charge {them} once more with `--again`; `{again}` gives that receipt again. \
             Nothing was charged now.\n"
        );
        let list = places.iter().map(|place| format!("line {place}: charged already, in receipt 1\n"));
        (list.collect::<String>(), said)
    };
    let nine = known(
        &[1, 2, 4, 5, 6, 8, 10, 11, 12],
        "9 lines of this input were charged already, in receipt 1; the first of them is line 1",
        "them",
    );
    let mended = LINES.replace("7,D,1,100,", "7,C,1,100,");
    assert_eq!(folder.charges_with(5, mended.as_bytes(), ""), nine);
    let one = known(&[2], "1 line of this input was charged already, in receipt 1: line 2", "it");
    let other = b"7,B,1,1,20250304\n4,G,1,49,20250304\n";
    assert_eq!(folder.charges_with(5, other, "--out receipt"), one);
    // Where the list cannot be printed, nothing is charged either.
    let run = common::Run::of(folder.command_after("exec >/dev/full", CHARGE));
    assert!(run.status == 4 && !run.said.contains("charged"), "{}", run.said);
    folder.write("prices", file_of([7; 8]).as_bytes());
    assert_eq!(folder.charges_with(5, LINES.as_bytes(), ""), nine);
    assert!(folder.read("till") == state && folder.names() == names);
    // The refused lines alone are new ones.
    folder.write("prices", file_of(PRICES).as_bytes());
    folder.charges_with(29, b"7,D,1,100,20250304\n7,C,1,100,20250304\n", "");
    assert_eq!(folder.totals().0, 10);
    // A line of an earlier receipt is not known.
    assert!(folder.charges("7,C,12001,12100,20250304\n").starts_with("Receipt 3, "));
    let said = folder.fails(5, CHARGE);
    let whole =
        format!("as receipt 3: `{again}` gives that receipt again, and `--again` charges the input once more.\n");
    assert_eq!(said, format!("pevghazo: This input was charged at these prices already, {whole}"));
    let (printed, _) = folder.charges_with(0, b"7,C,12001,12100,20250304\n", "--again");
    assert!(printed.starts_with("Receipt 4, "), "{printed}");
    assert_eq!(folder.totals().0, 12);
    // Lines that stand twice in one input are charged twice.
    folder.charges("7,B,1,1,20250304\n7,B,1,1,20250304\n");
    assert_eq!(folder.totals().0, 14);
}

/// The example of the manual.
#[test]
fn the_manual_has_it_right() {
    let manual = include_str!("../../../docs/COMMANDS.md");
    let section = manual.split("\n## Charging for rings\n").nth(1).unwrap().split("\n## ").next().unwrap();
    let blocks: Vec<String> = section
        .split("\n\n")
        .filter(|block| block.starts_with("    "))
        .map(|block| block.lines().map(|line| format!("{}\n", &line[4..])).collect())
        .collect();
    let folder = Folder::new();
    folder.write("prices.txt", blocks[0].as_bytes());
    folder.write("issued.txt", blocks[2].as_bytes());
    assert_eq!(folder.done("till prices --prices prices.txt"), blocks[1]);
    let commands: Vec<&str> = blocks[3].lines().map(|line| line.strip_prefix("pevghazo ").unwrap()).collect();
    folder.done(commands[0]);
    let run = folder.run(commands[1]);
    assert_eq!(run.status, 29, "{}", run.said);
    let receipt = String::from_utf8(run.printed).unwrap();
    assert_eq!(receipt, blocks[4..9].join("\n"));
    folder.done(blocks[9].trim().strip_prefix("pevghazo ").unwrap());
    assert!(folder.read("receipt-1.html").unwrap().starts_with(b"<!DOCTYPE html>"));
    folder.fails(5, commands[1]);
    for (title, line) in [("till charge", "receipt --format csv"), ("till show", "show")] {
        let section = manual.split(&format!("\n### `{title}`\n")).nth(1).unwrap().split("\n##").next().unwrap();
        let shown = folder.done(&format!("till --state till.state {line}"));
        let indented: String = shown.lines().map(|line| format!("    {line}\n")).collect();
        assert!(section.contains(&indented), "{section}{indented}");
    }
}
