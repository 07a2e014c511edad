//! A till that takes all its lines in one run, and then no more; and inputs that are too long for any till.

mod common;

use common::tills::{CHARGE, RECEIPT, SHOW, folder, many_lines};

const TILL_FULL: &str = "The till is full: it has 65,536 lines, or a total would pass 64 bits. Start a new one.";

/// 65,536 lines of one ring, each of which comes to 1.49 pence and is charged with 1.
#[test]
fn a_till_takes_65536_lines() {
    let folder = folder();
    let receipt = folder.charges(&many_lines('A', 65_536));
    assert_eq!(folder.totals(), (65_536, 65_536, 65_536 * 149));
    assert_eq!(receipt.lines().count(), 3 + 65_536 + 12);
    assert!(receipt.contains("\n65536     7    A    65536    65536        1 20250304     1.49          0.01\n"));
    let shown = folder.done(SHOW);
    assert!(receipt.ends_with(&shown["receipts       1\nlast receipt   handed out\n".len()..]), "{shown}");
    assert!(shown.ends_with(
        "lines charged  65536 of 65536\ntotal charged  655.36 pounds\nexact total    976.4864 pounds\n\
         difference     -321.1264 pounds, at most 327.6800 for 65536 lines\n"
    ));
    for format in ["csv", "html"] {
        let again = folder.done(&format!("{RECEIPT} --format {format}"));
        assert_eq!(again.matches("20250304").count(), 65_536, "{format}");
    }
    assert_eq!(folder.done(RECEIPT), receipt);
    // Then any line is refused, and what the other checks say comes first.
    let state = folder.read("till");
    let (printed, said) = folder.charges_with(32, b"7,C,1,1,20250304\n", "--out receipt");
    assert_eq!(printed, format!("line 1: number 22: {TILL_FULL}\ncharged 0 of 1 lines\n"));
    let refused = format!("Refused, number 22, at line 1: {TILL_FULL} Lines refused: 1. Lines charged: 0.\n");
    assert_eq!(said, format!("pevghazo: {refused}"));
    folder.charges_with(29, b"7,D,1,1,20250304\n7,C,1,1,20250304\n", "");
    folder.charges_with(26, b"7,C,1,1,20250229\n", "");
    folder.charges_with(23, b"nothing\n", "");
    folder.charges_with(32, b"7,C,1,1,20250304\n", "--again");
    assert!(folder.read("till") == state && folder.read("receipt").is_none());
}

/// The last place goes to the first line that is accepted, and those after it are refused.
#[test]
fn the_last_line_that_fits() {
    let folder = folder();
    folder.charges(&many_lines('A', 65_535));
    let (printed, said) = folder.charges_with(32, b"7,C,1,1,20250304\n7,C,2,2,20250304\n7,D,3,3,20250304\n", "");
    assert!(printed.starts_with("Receipt 2, ") && printed.contains("\nlines charged  1 of 3\n"), "{printed}");
    assert!(printed.contains(&format!("\nline 2: number 22: {TILL_FULL}\nline 3: number 19: ")), "{printed}");
    assert!(said.ends_with(" Lines refused: 2. Lines charged: 1.\n"), "{said}");
    assert_eq!(folder.totals(), (65_536, 65_535 + 3, 65_535 * 149 + 250));
}

/// Refused lines take no place in the till, but the input has no more lines than a till.
#[test]
fn an_input_of_more_than_65536_lines() {
    let folder = folder();
    let state = folder.read("till");
    for lines in [many_lines('A', 65_537), "\n".repeat(65_537), many_lines('A', 65_536) + "7", many_lines('D', 200_000)]
    {
        folder.write("lines", lines.as_bytes());
        for options in ["", " --all-or-none", " --again", " --out receipt"] {
            let said = folder.fails(4, &format!("{CHARGE}{options}"));
            let expected =
                "lines has more than 65536 lines, and a till takes no more: divide it. Nothing was charged.\n";
            assert_eq!(said, format!("pevghazo: {expected}"));
        }
    }
    assert!(folder.read("till") == state && folder.read("receipt").is_none());
    // So many that are no lines are listed, and nothing is booked.
    let (printed, said) = folder.charges_with(23, "\n".repeat(65_536).as_bytes(), "");
    assert!(printed.ends_with("charged 0 of 65536 lines\n") && printed.lines().count() == 65_537);
    assert!(said.ends_with(" Lines refused: 65536. Lines charged: 0.\n"), "{said}");
    // An endless input is not read to its end.
    let script = "exec < /dev/zero; tr '\\0' '\\n' | \"$0\" till --state till charge --prices prices --in -";
    let mut command = std::process::Command::new("sh");
    command.args(["-c", script, common::PROGRAM]).current_dir(&folder.0);
    let run = common::Run::of(command);
    assert!(run.status == 4 && run.said.contains("standard input has more than 65536 lines"), "{}", run.said);
    assert!(folder.read("till") == state);
}
