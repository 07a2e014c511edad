//! A year's calendar of the sizes that are open, as text and as a page, beside days that were worked out by hand.

mod common;

use common::seasons::{WINDOWS, file_of, folder, open_on};
use common::{Folder, Run};
use pevghazo_reference::days::length_of;

const MONTHS: [&str; 12] = [
    "January",
    "February",
    "March",
    "April",
    "May",
    "June",
    "July",
    "August",
    "September",
    "October",
    "November",
    "December",
];

/// The calendar of a year, as text.
fn text_of(folder: &Folder, year: u32) -> String {
    folder.done(&format!("season show --windows windows --year {year}"))
}

/// The page of a year.
fn page_of(folder: &Folder, year: u32) -> String {
    folder.done(&format!("season show --windows windows --year {year} --format html"))
}

/// The letters of a day in a calendar as text: a line for each number, and ten columns for each month.
fn in_text(text: &str, month: usize, day: usize) -> String {
    let half = text.split("\nday  ").nth(if month <= 6 { 1 } else { 2 }).unwrap();
    let line = half.lines().nth(day).unwrap();
    assert!(line.starts_with(&format!("{day:3}  ")) || line.trim() == day.to_string(), "{line}");
    let start = 5 + 10 * ((month - 1) % 6);
    line.chars().skip(start).take(10).collect::<String>().trim_end().to_string()
}

/// A common and a leap year, word for word.
#[test]
fn windows_and_what_they_mean() {
    let folder = folder();
    let common = "\
Issue seasons of 2023, by windows

size  window     days  open in 2023
A     0229-0229     0  no day *
B     0101-0105     5  1 Jan to 5 Jan
C     1231-0101     2  1 Jan and 31 Dec, over New Year
D     0301-0228   365  every day
E     0229-0228   365  every day *
F     0301-0930   214  1 Mar to 30 Sep
G     1001-0229   151  1 Jan to 28 Feb and 1 Oct to 31 Dec, over New Year *
H     0101-1231   365  every day
* 2023 has no 29 February: an opening on it is 1 March, a closing 28 February.

The letters of the sizes that are open on each day:

day  January   February  March     April     May       June
  1  -BCDE-GH  ---DE-GH  ---DEF-H  ---DEF-H  ---DEF-H  ---DEF-H
  2  -B-DE-GH  ---DE-GH  ---DEF-H  ---DEF-H  ---DEF-H  ---DEF-H
";
    assert!(text_of(&folder, 2023).starts_with(common), "{}", text_of(&folder, 2023));
    let leap = "\
size  window     days  open in 2024
A     0229-0229     1  29 Feb
B     0101-0105     5  1 Jan to 5 Jan
C     1231-0101     2  1 Jan and 31 Dec, over New Year
D     0301-0228   365  1 Jan to 28 Feb and 1 Mar to 31 Dec, over New Year
E     0229-0228   366  every day
F     0301-0930   214  1 Mar to 30 Sep
G     1001-0229   152  1 Jan to 29 Feb and 1 Oct to 31 Dec, over New Year
H     0101-1231   366  every day

The letters ";
    assert!(text_of(&folder, 2024).contains(leap), "{}", text_of(&folder, 2024));
}

/// Windows of two and three days: with 29 February, some of them hold a day less in a common year.
const SHORT: [&str; 8] =
    ["0228,0229", "0229,0301", "0228,0301", "0704,0705", "0704,0706", "1230,1231", "0101,0102", "1231,0102"];

#[test]
fn short_windows() {
    let folder = folder();
    folder.write("windows", file_of(SHORT).as_bytes());
    let others = "\
D     0704-0705     2  4 Jul to 5 Jul
E     0704-0706     3  4 Jul to 6 Jul
F     1230-1231     2  30 Dec to 31 Dec
G     0101-0102     2  1 Jan to 2 Jan
H     1231-0102     3  1 Jan to 2 Jan and 31 Dec, over New Year
";
    let common = "\
A     0228-0229     1  28 Feb *
B     0229-0301     1  1 Mar *
C     0228-0301     2  28 Feb to 1 Mar
";
    let leap = "\
A     0228-0229     2  28 Feb to 29 Feb
B     0229-0301     2  29 Feb to 1 Mar
C     0228-0301     3  28 Feb to 1 Mar
";
    for (year, first) in [(2023, common), (2100, common), (2000, leap), (2024, leap)] {
        let text = text_of(&folder, year);
        assert!(text.contains(&format!("open in {year}\n{first}{others}")), "{text}");
    }
}

/// What is said of 29 February stands only where a window of a common year has it and is marked, not beside a date that no year has.
#[test]
fn no_note_without_a_mark() {
    let folder = folder();
    for window in ["0228,0301", "0229,0230", "0431,0229"] {
        folder.write("windows", file_of([window; 8]).as_bytes());
        for format in ["text", "html"] {
            let run = folder.run(&format!("season show --windows windows --year 2023 --format {format}"));
            let shown = String::from_utf8(run.printed).unwrap();
            assert!(shown.contains("0301") || shown.contains("which no year has"), "{shown}");
            assert!(!shown.contains("29 February") && !shown.contains(" *\n") && !shown.contains(" *<"), "{shown}");
        }
    }
}

/// The example of the manual: its windows file, and what is shown of it.
#[test]
fn the_calendar_of_the_manual() {
    let folder = folder();
    let manual = include_str!("../../../docs/COMMANDS.md");
    let blocks = manual.split("\n\n").filter(|block| block.starts_with("    "));
    let blocks: Vec<String> =
        blocks.map(|block| block.lines().map(|line| format!("{}\n", &line[4..])).collect()).collect();
    let block = |start: &str| blocks.iter().find(|block| block.starts_with(start)).unwrap();
    folder.write("windows", block("A,0101,1231\n").as_bytes());
    let text = text_of(&folder, 2025);
    for start in ["size  window", "day  January"] {
        assert!(text.contains(block(start).as_str()), "{}{text}", block(start));
    }
}

/// The ends of February and of the year, by their rows.
#[test]
fn the_days_of_february() {
    let folder = folder();
    let (common, leap) = (text_of(&folder, 2023), text_of(&folder, 2024));
    for row in [
        " 27  ---DE-GH  ---DE-GH  ---DEF-H  ---DEF-H  ---DEF-H  ---DEF-H\n",
        " 28  ---DE-GH  ---DE-GH  ---DEF-H  ---DEF-H  ---DEF-H  ---DEF-H\n",
        " 29  ---DE-GH            ---DEF-H  ---DEF-H  ---DEF-H  ---DEF-H\n",
        " 30  ---DE-GH            ---DEF-H  ---DEF-H  ---DEF-H  ---DEF-H\n",
        " 31  ---DE-GH            ---DEF-H            ---DEF-H\n",
    ] {
        assert_eq!(common.matches(row).count(), 1, "{row}{common}");
        let row = if row.starts_with(" 29") { row.replace("            ", "  A---E-GH  ") } else { row.to_string() };
        assert_eq!(leap.matches(&row).count(), 1, "{row}{leap}");
    }
    let last = " 31  ---DEF-H  ---DEF-H            ---DE-GH            --CDE-GH\n";
    assert!(common.ends_with(last) && leap.ends_with(last), "{common}{leap}");
}

/// A day, or one that the year does not have, is as worked out by hand in both formats.
fn is_right(text: &str, cells: &[Vec<Cell>], (year, month, day): (u32, u32, u32)) {
    let is_there = day <= length_of(year, month);
    let open = if is_there { open_on(year, month, day) } else { String::new() };
    let (month, day) = (month as usize, day as usize);
    assert_eq!(in_text(text, month, day), open, "{year}-{month}-{day}");
    let cell = &cells[day - 1][month - 1];
    assert_eq!((cell.letters.as_str(), cell.is_none), (open.as_str(), !is_there), "{year}-{month}-{day}");
}

/// Every day of years of all kinds, in both formats.
#[test]
fn every_day_of_some_years() {
    let folder = folder();
    for year in [1900, 1999, 2000, 2023, 2024, 2100, 2199] {
        let (text, cells) = (text_of(&folder, year), cells(&page_of(&folder, year)));
        let days = (1..=12).flat_map(|month| (1..=31).map(move |day| (year, month, day)));
        days.for_each(|day| is_right(&text, &cells, day));
    }
}

/// No line is longer than 80 columns or ends with a space, with whichever windows.
#[test]
fn the_text_fits_a_terminal() {
    let folder = folder();
    let long = ["1230,0229", "0230,0431", "0229,1130", "1010,0911", "9999,9999", "0229,0115", "0115,0229", "1231,1231"];
    for windows in [WINDOWS, long] {
        folder.write("windows", file_of(windows).as_bytes());
        for year in [2023, 2024] {
            let run = folder.run(&format!("season show --windows windows --year {year}"));
            let text = String::from_utf8(run.printed).unwrap();
            assert_eq!(text.lines().map(|line| line.chars().count()).filter(|width| *width > 80).count(), 0, "{text}");
            assert!(text.is_ascii() && !text.contains(" \n") && !text.contains('\t'), "{text}");
        }
    }
}

/// A date that no year has: the size is open on no day, in both formats.
#[test]
fn a_window_with_a_date_that_no_year_has() {
    let folder = folder();
    let mut windows = WINDOWS;
    (windows[2], windows[7]) = ("0230,0930", "0001,1231");
    folder.write("windows", file_of(windows).as_bytes());
    let run = folder.run("season show --windows windows --year 2024");
    let text = String::from_utf8(run.printed).unwrap();
    assert!(run.status == 0 && run.said.lines().count() == 2, "{}", run.said);
    assert!(text.contains("\nC     0230-0930     0  no day: opens on 0230, which no year has\n"), "{text}");
    assert!(text.contains("\nH     0001-1231     0  no day: opens on 0001, which no year has\n"), "{text}");
    assert_eq!(in_text(&text, 1, 1), "-B-DE-G-");
    assert_eq!(in_text(&text, 7, 1), "---DEF--");
    let page =
        String::from_utf8(folder.run("season show --windows windows --year 2024 --format html").printed).unwrap();
    assert!(
        page.contains("<td>0230</td><td>0930</td><td>0</td><td>no day: opens on 0230, which no year has</td>"),
        "{page}"
    );
    assert_eq!(cells(&page)[0][0].letters, "-B-DE-G-");
}

/// A cell of the page's calendar.
struct Cell {
    /// What is in it, without tags.
    letters: String,
    /// Whether the year has no such day.
    is_none: bool,
}

/// The text of some HTML, without its tags.
fn without_tags(html: &str) -> String {
    html.split('<').map(|part| part.split_once('>').map_or(part, |(_, text)| text)).collect()
}

/// The cells of the page's calendar: a row for each number, a column for each month.
fn cells(page: &str) -> Vec<Vec<Cell>> {
    let table = page.split("<table class=\"days\">").nth(1).unwrap();
    let body = table.split("<tbody>").nth(1).unwrap().split("</tbody>").next().unwrap();
    let rows: Vec<&str> = body.split("<tr>").skip(1).collect();
    let cell = |cell: &str| Cell {
        letters: without_tags(&format!("<td{cell}")).trim_end().to_string(),
        is_none: cell.starts_with(" class=\"none\""),
    };
    rows.iter().map(|row| row.split("<td").skip(1).map(cell).collect()).collect()
}

/// Every tag is closed in its order, but for those that have no end.
fn is_well_formed(page: &str) {
    let body = page.strip_prefix("<!DOCTYPE html>\n").unwrap();
    let (head, rest) = body.split_once("<style>").unwrap();
    let (_, rest) = rest.split_once("</style>").unwrap();
    let tags = [head, rest].into_iter().flat_map(|html| html.split('<').skip(1));
    let mut open: Vec<&str> = Vec::new();
    for part in tags.map(|part| part.split_once('>').expect("a tag ends").0) {
        match part.strip_prefix('/') {
            Some(name) => assert_eq!(open.pop(), Some(name), "{part}"),
            None if part.starts_with("meta ") => {}
            None => open.push(part.split(' ').next().unwrap()),
        }
    }
    assert_eq!(open, [""; 0]);
}

/// A page is a whole document that loads nothing and runs nothing.
fn stands_alone(page: &str) {
    assert!(page.starts_with("<!DOCTYPE html>\n<html lang=\"en\">\n<head>\n<meta charset=\"utf-8\">\n"), "{page}");
    assert!(page.ends_with("</main>\n</body>\n</html>\n") && page.is_ascii(), "{page}");
    is_well_formed(page);
    for part in ["src=", "href", "url(", "@import", "<script", "<link", "<img", "//", "onload", "style="] {
        assert_eq!(page.matches(part).count(), 0, "{part}");
    }
}

#[test]
fn the_page_is_whole_and_stands_alone() {
    let folder = folder();
    for year in [2023, 2024] {
        let page = page_of(&folder, year);
        stands_alone(&page);
        let count = |part: &str| page.matches(part).count();
        for part in [format!("<title>Issue seasons of {year}</title>"), format!("<h1>Issue seasons of {year}</h1>")] {
            assert_eq!(count(&part), 1, "{part}");
        }
        assert_eq!((count("size: A4;"), count("<caption>")), (1, 2));
        assert_eq!((count("<th scope=\"row\">"), count("<th scope=\"col\">")), (8 + 31, 5 + 13));
        assert_eq!(count("<p>* 2023 has no 29 February: "), usize::from(year == 2023));
        let month = |month: &&str| count(&format!("<abbr title=\"{month}\">{}</abbr>", &month[..3]));
        assert!(MONTHS.iter().map(month).eq([1; 12]), "{page}");
        // The letters of 1 January, -BCDE-GH: dashes are not read out.
        let dash = "<span aria-hidden=\"true\">-</span>";
        assert!(page.contains(&format!("<th scope=\"row\">1</th><td>{dash}BCDE{dash}GH</td>")), "{page}");
        let cells = cells(&page);
        assert!(cells.len() == 31 && cells.iter().all(|row| row.len() == 12));
    }
}

/// The windows of the page are those of the text.
#[test]
fn the_windows_of_the_page() {
    let page = page_of(&folder(), 2023);
    for (size, cells) in [
        ("A", "<td>0229</td><td>0229</td><td>0</td><td>no day *</td>"),
        ("C", "<td>1231</td><td>0101</td><td>2</td><td>1 Jan and 31 Dec, over New Year</td>"),
        ("E", "<td>0229</td><td>0228</td><td>365</td><td>every day *</td>"),
        ("G", "<td>1001</td><td>0229</td><td>151</td><td>1 Jan to 28 Feb and 1 Oct to 31 Dec, over New Year *</td>"),
    ] {
        assert!(page.contains(&format!("<tr><th scope=\"row\">{size}</th>{cells}</tr>\n")), "{size}: {page}");
    }
}

/// Names with a meaning in HTML, and names with control characters.
#[test]
fn the_name_of_the_file_is_escaped() {
    let folder = folder();
    let odd = "<b>&\"'\u{7}.txt";
    folder.write(odd, file_of(WINDOWS).as_bytes());
    let page = folder.done(&format!("season show --windows {odd} --year 2023 --format html"));
    assert!(page.contains("<p>By the windows of &lt;b&gt;&amp;&quot;&#39;\\u{7}.txt. "), "{page}");
    is_well_formed(&page);
    let text = folder.done(&format!("season show --windows {odd} --year 2023"));
    assert!(text.starts_with("Issue seasons of 2023, by <b>&\"'\\u{7}.txt\n"), "{text}");
}

/// A calendar goes to a new file, and never takes the place of one.
#[test]
fn a_calendar_in_a_file() {
    let folder = folder();
    for (format, name) in [("", "calendar"), (" --format text", "calendar.txt"), (" --format html", "calendar.html")] {
        let line = format!("season show --windows windows --year 2024{format}");
        let printed = folder.done(&line);
        assert_eq!(folder.done(&format!("{line} --out {name}")), "");
        assert!(folder.read(name).unwrap() == printed.as_bytes());
        let before = folder.names();
        for taken in [name, "windows"] {
            let said = folder.fails(4, &format!("{line} --out {taken}"));
            assert!(said.ends_with(" already: remove it or choose another output.\n"), "{said}");
        }
        assert_eq!(folder.done(&format!("{line} --out -")), printed);
        assert!(folder.names() == before && folder.read("windows").unwrap() == file_of(WINDOWS).as_bytes());
    }
    let run = Run::of(folder.command_after("exec >&-", "season show --windows windows --year 2024"));
    assert_eq!((run.status, run.said.as_str()), (4, "pevghazo: Could not write to standard output: it is closed.\n"));
}

#[test]
fn wrong_command_lines() {
    let folder = folder();
    for year in ["1899", "2200", "0", "24", "x", "-2024", "2024.5", "20240", ""] {
        let said = folder.fails(2, &format!("season show --windows windows --year={year}"));
        assert_eq!(said, "pevghazo: The option --year needs a year from 1900 to 2199, in digits.\n", "{year}");
    }
    for (line, said) in [
        ("show --windows windows", "The option --year is missing."),
        ("show --year 2024", "The option --windows is missing."),
        (
            "show --windows windows --year 2024 --format csv",
            "The option --format needs one of these words: text, html.",
        ),
        (
            "show 2024 --windows windows --year 2024",
            "The word \"2024\" is one too many: see `pevghazo season show --help`.",
        ),
    ] {
        assert_eq!(folder.fails(2, &format!("season {line}")), format!("pevghazo: {said}\n"), "{line}");
    }
}
