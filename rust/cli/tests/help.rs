//! The help texts, and that the manual has all that they have.

mod common;

use common::Folder;

/// The words of a text that start with two dashes.
fn options(text: &str) -> Vec<&str> {
    let words = text.split(|c: char| !(c.is_ascii_alphanumeric() || c == '-'));
    words.filter(|word| word.strip_prefix("--").is_some_and(|name| name.starts_with(char::is_alphabetic))).collect()
}

#[test]
fn every_command_has_a_help_text_and_a_place_in_the_manual() {
    let folder = Folder::new();
    let manual = include_str!("../../../docs/COMMANDS.md");
    let list = folder.done("--help");
    let lines = list.lines().filter_map(|line| line.strip_prefix("  pevghazo "));
    let titles: Vec<&str> = lines.filter_map(|line| Some(line.split_once("  ")?.0.trim())).collect();
    assert_eq!(titles.len(), 46, "{list}");
    for title in titles {
        let help = folder.done(&format!("{title} --help"));
        assert!(help.starts_with(&format!("pevghazo {title}: ")), "{help}");
        assert_eq!(folder.done(&format!("--help {title}")), help);
        assert_eq!(folder.done(&format!("{title} -h")), help);
        assert_eq!(folder.done(&format!("help {title}")), help);
        let section = manual.split("\n### ").find(|section| section.starts_with(&format!("`{title}`\n")));
        let section = section.unwrap_or_else(|| panic!("the manual has no section on {title}"));
        let section = section.split("\n## ").next().unwrap();
        for option in options(&help) {
            let common = ["--state", "--wait", "--restore"].contains(&option);
            assert!(section.contains(option) || common, "{option} of {title} is not in the manual");
        }
        for option in options(section) {
            assert!(help.contains(option), "{title} has no option {option}");
        }
    }
    assert!(manual.contains("`--state FILE`") && manual.contains("`--wait SECONDS`"));
    for end in ["office", "group", "sane", "sae"] {
        let list = folder.done(&format!("{end} --help"));
        assert!(list.contains(&format!("pevghazo {end} seal ")), "{list}");
    }
    assert!(folder.done("pool --help").contains("  pevghazo pool find "));
    assert!(folder.done("season --help").contains("  pevghazo season first-day "));
    assert!(folder.done("till --help").contains("  pevghazo till charge "));
    assert!(folder.done("--version").starts_with("pevghazo 0."));
    assert_eq!(folder.done("-V"), folder.done("--version"));
    assert_eq!(folder.done("help"), list);
    assert_eq!(folder.done("help office"), folder.done("office --help"));
}

#[test]
fn the_manual_has_every_status() {
    let manual = include_str!("../../../docs/COMMANDS.md");
    for status in (0..=9).filter(|status| *status != 1).chain(11..=16).chain(19..=29).chain([32]) {
        assert!(manual.contains(&format!("\n| {status} | ")), "{status}");
    }
}

#[test]
fn a_wrong_command_line_says_where_help_is() {
    let folder = Folder::new();
    for line in ["", "office", "group", "sane", "sae", "pool", "season", "till"] {
        assert!(folder.fails(2, line).contains("Which command?"), "{line}");
    }
    for line in ["nothing", "office nothing", "office show --nothing", "office show --mark 3 --state f"] {
        assert!(folder.fails(2, line).contains("--help"), "{line}");
    }
    let said = folder.fails(2, "nothing show --state f");
    assert_eq!(said, "pevghazo: There is no command \"nothing\" here: `pevghazo --help` lists them.\n");
    let said = folder.fails(2, "office resend --state f --out o --group -1");
    assert_eq!(said, "pevghazo: The option --group needs a number from 0 to 31, in digits.\n");
    assert_eq!(folder.fails(2, "office show"), "pevghazo: The option --state is missing.\n");
    assert_eq!(folder.names(), [""; 0]);
}
