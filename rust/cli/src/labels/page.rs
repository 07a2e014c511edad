//! Codes as a page of labels to print: HTML for A4, that loads nothing and runs nothing. All that goes into it is numbers and
//! hexadecimal digits, so nothing has to be escaped.

use pevghazo::Code;

use super::Labels;
use crate::page::document;

/// The labels of a sheet: 3 by 8.
const SHEET: usize = 24;

/// How the page looks.
const STYLE: &str = include_str!("page.css");

/// The page.
pub fn html(labels: &Labels) -> String {
    let sheets: String = labels.codes.chunks(SHEET).map(|codes| sheet(labels, codes)).collect();
    let title = format!("Codes of {labels}");
    let body = format!("<header>\n<h1>{title}</h1>\n<p>{HINT}</p>\n</header>\n<main>\n{sheets}</main>\n");
    document(&title, STYLE, &body)
}

/// What is said in a window, and not printed.
const HINT: &str = "To print: A4, at 100 %, without headers and footers. The labels are 70 by 37 mm, 24 to a sheet.";

/// A sheet of at most 24 of the labels.
fn sheet(all: &Labels, codes: &[(u32, Code)]) -> String {
    let labels: String = codes.iter().map(|(packet, code)| label(all, *packet, code)).collect();
    format!("<div class=\"sheet\">\n{labels}</div>\n")
}

/// The label of a packet. Its code is that of the index: whoever checks it has to know.
fn label(Labels { group, index, .. }: &Labels, packet: u32, code: &Code) -> String {
    format!(
        "<div class=\"label\"><p>Group <b>{group}</b></p> <p class=\"packet\">Packet <b>{packet}</b></p> \
         <p class=\"code\">{code}</p> <p class=\"index\">at index {index}</p></div>\n"
    )
}

#[cfg(test)]
mod tests {
    use super::super::tests::labels;
    use super::*;

    /// How many times a text holds another.
    fn count(page: &str, part: &str) -> usize {
        page.matches(part).count()
    }

    #[test]
    fn a_page_is_written_out() {
        let page = html(&labels(9, 1));
        let (head, body) = page.split_once(STYLE).unwrap();
        assert_eq!(
            head,
            "<!DOCTYPE html>\n<html lang=\"en\">\n<head>\n<meta charset=\"utf-8\">\n\
             <meta http-equiv=\"Content-Security-Policy\" content=\"default-src 'none'; style-src 'unsafe-inline'\">\n\
             <meta name=\"viewport\" content=\"width=840\">\n\
             <title>Codes of packet 9 of group 7 at index 12</title>\n<style>\n"
        );
        assert_eq!(
            body,
            "</style>\n</head>\n<body>\n<header>\n<h1>Codes of packet 9 of group 7 at index 12</h1>\n\
             <p>To print: A4, at 100 %, without headers and footers. The labels are 70 by 37 mm, 24 to a sheet.</p>\n\
             </header>\n<main>\n<div class=\"sheet\">\n\
             <div class=\"label\"><p>Group <b>7</b></p> <p class=\"packet\">Packet <b>9</b></p> \
             <p class=\"code\">001a 2b3c 4d5e 6f09</p> <p class=\"index\">at index 12</p></div>\n\
             </div>\n</main>\n</body>\n</html>\n"
        );
    }

    #[test]
    fn sheets_have_at_most_24_labels() {
        for (packets, sheets) in [(1, 1), (23, 1), (24, 1), (25, 2), (48, 2), (49, 3), (2048, 86)] {
            let page = html(&labels(0, packets));
            assert_eq!(count(&page, "<div class=\"sheet\">"), sheets, "{packets}");
            assert_eq!(count(&page, "<div class=\"label\">"), packets as usize);
            let first = page.split("<div class=\"sheet\">").nth(1).unwrap();
            assert_eq!(count(first, "<div class=\"label\">"), 24.min(packets as usize));
        }
    }

    /// How the page looks is seen in a browser only; but the sizes are those of the manual, and only the hint is not printed.
    #[test]
    fn the_style_has_the_sizes_of_the_manual() {
        let sheet = "width: 210mm; height: 296mm; break-after: page;";
        for part in ["size: A4;", sheet, "width: 70mm; height: 37mm;", "display: none"] {
            assert_eq!(count(STYLE, part), 1, "{part}");
        }
    }

    /// Nothing is loaded, run or linked to, and every letter is plain ASCII.
    #[test]
    fn a_page_stands_alone() {
        let page = html(&labels(0, 25));
        for part in ["src=", "href", "url(", "@import", "<script", "<link", "<img", "//", "onload", "&"] {
            assert_eq!(count(&page, part), 0, "{part}");
        }
        assert!(page.is_ascii());
    }
}
