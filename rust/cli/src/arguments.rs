//! The words and options of a command line, checked against the table of commands.
//!
//! A command line is some words, as `office seal` or `pool find C 12001`, and options, as `--group 4` or `--group=4`, in any order.

use std::ffi::{OsStr, OsString};
use std::ops::RangeInclusive;
use std::os::unix::ffi::{OsStrExt, OsStringExt};
use std::str::FromStr;

use crate::completions;
use crate::failure::Failure;
use crate::help;
use crate::table::{self, AREAS, COMMON, Command, Id, Opt, Value, YEARS};

/// What a command line asks for.
#[derive(Debug)]
pub enum Request {
    /// A help text, the version, or the completions of a shell.
    Print(String),
    /// A command with its options.
    Run(&'static Command, Arguments),
}

/// The options of a command line, each at most once, and the words after those of the command: with their names, or files.
#[derive(Debug, Default)]
pub struct Arguments {
    given: Given,
    operands: Vec<(&'static str, String)>,
    files: Vec<OsString>,
}

/// Options as they were given.
type Given = Vec<(&'static Opt, OsString)>;

impl Arguments {
    /// An option's value, if it was given.
    pub fn value(&self, name: &str) -> Option<&OsStr> {
        self.given.iter().find(|(known, _)| known.name == name).map(|(_, value)| value.as_os_str())
    }

    /// The word with this name after those of the command.
    pub fn operand(&self, name: &str) -> Result<&str, Failure> {
        let found = self.operands.iter().find(|(known, _)| *known == name);
        found
            .map(|(_, word)| word.as_str())
            .ok_or_else(|| Failure::Usage(format!("The word {name} is missing: see --help.")))
    }

    /// The files that follow the words of a command that takes any number of them.
    pub fn files(&self) -> &[OsString] {
        &self.files
    }

    /// Whether an option was given.
    pub fn has(&self, name: &str) -> bool {
        self.value(name).is_some()
    }

    /// An option's value.
    pub fn required(&self, name: &str) -> Result<&OsStr, Failure> {
        self.value(name).ok_or_else(|| Failure::Usage(format!("The option --{name} is missing.")))
    }

    /// The number that an option has as its value, if it was given.
    pub fn number(&self, name: &str) -> Result<Option<u32>, Failure> {
        self.whole(name)
    }

    /// The counter that an option has as its value, if it was given.
    pub fn counter(&self, name: &str) -> Result<Option<u64>, Failure> {
        self.whole(name)
    }

    fn whole<T: FromStr>(&self, name: &str) -> Result<Option<T>, Failure> {
        let Some(value) = self.value(name) else { return Ok(None) };
        value.to_str().and_then(digits).map(Some).ok_or_else(|| {
            let highest = self.highest(name);
            Failure::Usage(format!("The option --{name} needs a number from 0 to {highest}, in digits."))
        })
    }

    /// The highest number with a meaning that an option takes.
    fn highest(&self, name: &str) -> u64 {
        match self.given.iter().find(|(known, _)| known.name == name).map(|(option, _)| option.value) {
            Some(Value::Number(_, highest) | Value::Range(_, highest)) => u64::from(highest),
            _ => u64::MAX,
        }
    }

    /// The number that an option has as its value.
    pub fn required_number(&self, name: &str) -> Result<u32, Failure> {
        self.required(name)?;
        self.number(name)?.ok_or_else(|| Failure::Usage(format!("The option --{name} is missing.")))
    }

    /// The year that an option has as its value.
    pub fn required_year(&self, name: &str) -> Result<u32, Failure> {
        let year = self.required(name)?.to_str().and_then(digits).filter(|year| YEARS.contains(year));
        year.ok_or_else(|| {
            let (first, last) = YEARS.into_inner();
            Failure::Usage(format!("The option --{name} needs a year from {first} to {last}, in digits."))
        })
    }

    /// Whether words follow those of the command.
    pub fn has_operands(&self) -> bool {
        !self.operands.is_empty()
    }

    /// The numbers that an option has as its value: one, or all from a first to a last.
    pub fn required_range(&self, name: &str) -> Result<RangeInclusive<u32>, Failure> {
        let ends = self.required(name)?.to_str().and_then(|text| {
            let (first, last) = text.split_once('-').unwrap_or((text, text));
            Some((digits(first)?, digits(last)?))
        });
        match ends {
            Some((first, last)) if first <= last => Ok(first..=last),
            Some(_) => Err(Failure::Usage(format!("The range of the option --{name} ends before it begins."))),
            None => Err(Failure::Usage(format!(
                "The option --{name} needs a number from 0 to {} in digits, as 7, or a first and a last one, as 0-23.",
                self.highest(name)
            ))),
        }
    }

    /// The word that an option has as its value, one of these, if it was given.
    pub fn word(&self, name: &str, words: &[&'static str]) -> Result<Option<&'static str>, Failure> {
        let Some(value) = self.value(name) else { return Ok(None) };
        words.iter().find(|word| **word == value).map(|word| Some(*word)).ok_or_else(|| {
            Failure::Usage(format!("The option --{name} needs one of these words: {}.", words.join(", ")))
        })
    }
}

/// A number in digits, of as many bits as its type has.
pub fn digits<T: FromStr>(text: &str) -> Option<T> {
    text.bytes().all(|byte| byte.is_ascii_digit()).then(|| text.parse().ok()).flatten()
}

/// Reads a command line, without the program's own name.
pub fn parse(tokens: impl IntoIterator<Item = OsString>) -> Result<Request, Failure> {
    let (tokens, given) = split(tokens)?;
    // Only names of files may be other than text.
    let texts: Vec<String> = tokens.iter().map(|token| token.to_string_lossy().into_owned()).collect();
    let words: Vec<&str> = texts.iter().map(String::as_str).collect();
    let has = |name: &str| given.iter().any(|(known, _)| known.name == name);
    match words[..] {
        ["completions", shell] if given.is_empty() => return completions::of(shell).map(Request::Print),
        ["completions", ..] => return Err(completions::unknown()),
        ["help", ref topic @ ..] if !topic.is_empty() && given.is_empty() => return help_on(topic),
        _ => {}
    }
    let (area, command, operands) = command_of(&words).map_err(|unfit| unfit.failure(&given))?;
    match command {
        _ if has("help") => Ok(Request::Print(command.map_or_else(|| help::list(area), help::command))),
        None if has("version") => Ok(Request::Print(help::version())),
        None => Err(Failure::Usage(format!("Which command?\n\n{}", help::list(area).trim_end()))),
        Some(command) => {
            let files = &tokens[tokens.len() - operands.len()..];
            let arguments = check(command, given, operands, files)?;
            Ok(if command.id == Id::Help { Request::Print(help::list("")) } else { Request::Run(command, arguments) })
        }
    }
}

/// The help text on a command, or on all that are about one thing.
fn help_on(topic: &[&str]) -> Result<Request, Failure> {
    let (area, command, operands) = command_of(topic).map_err(|unfit| unknown_word(unfit.word, &[]))?;
    if let Some(word) = operands.first() {
        return Err(unknown_word(word, &[]));
    }
    Ok(Request::Print(command.map_or_else(|| help::list(area), help::command)))
}

/// What some words are about, or nothing; their command; and the words after it.
type Found<'w, 'a> = (&'a str, Option<&'static Command>, &'w [&'a str]);

/// The first word that fits nowhere, and the command that it follows, if it follows one.
struct Unfit<'a> {
    word: &'a str,
    command: Option<&'static Command>,
}

impl Unfit<'_> {
    fn failure(&self, given: &[(&Opt, OsString)]) -> Failure {
        match self.command {
            Some(command) => further_word(self.word, command, given),
            None => unknown_word(self.word, given),
        }
    }
}

/// What is found in some words; or the first word that fits nowhere.
fn command_of<'w, 'a>(words: &'w [&'a str]) -> Result<Found<'w, 'a>, Unfit<'a>> {
    let (area, rest) = match words {
        [area, rest @ ..] if AREAS.contains(area) => (*area, rest),
        words => ("", words),
    };
    let [name, operands @ ..] = rest else { return Ok((area, None, &[])) };
    let command = table::find(area, name).ok_or(Unfit { word: name, command: None })?;
    match operands.get(command.operands().count()) {
        Some(word) if !command.takes_files() => Err(Unfit { word, command: Some(command) }),
        _ => Ok((area, Some(command), operands)),
    }
}

/// A word that is no command.
fn unknown_word(word: &str, given: &[(&Opt, OsString)]) -> Failure {
    Failure::Usage(format!("There is no command {word:?} here: `pevghazo --help` lists them.{}", quotes(given)))
}

/// A word that a command does not take. It may be an input whose option was forgotten.
fn further_word(word: &str, command: &Command, given: &[(&Opt, OsString)]) -> Failure {
    let takes_input = command.options.iter().any(|option| option.name == "in");
    let has_input = given.iter().any(|(option, _)| option.name == "in");
    let input = if takes_input && !has_input { " An input is named with --in." } else { "" };
    Failure::Usage(format!(
        "The word {word:?} is one too many: see `{} --help`.{input}{}",
        command.title(),
        quotes(given)
    ))
}

/// A word that fits nowhere may be a part of a text, where one was given.
fn quotes(given: &[(&Opt, OsString)]) -> String {
    let text = given.iter().find(|(option, _)| matches!(option.value, Value::Text(_)));
    let quotes = text.map(|(option, _)| format!(" Spaces in the value of --{} need quotes around it.", option.name));
    quotes.unwrap_or_default()
}

/// Splits a command line into its words and its options. After `--` there are words alone, whatever they begin with.
fn split(tokens: impl IntoIterator<Item = OsString>) -> Result<(Vec<OsString>, Given), Failure> {
    let mut words = Vec::new();
    let mut given = Given::new();
    let mut tokens = tokens.into_iter();
    while let Some(token) = tokens.next() {
        if token == "--" {
            words.extend(tokens);
            break;
        }
        let (option, value) = if let Some(option) = token.as_bytes().strip_prefix(b"--") {
            long(option, &mut tokens)?
        } else if let Some(option) = letter(&token) {
            (option, OsString::new())
        } else {
            words.push(token);
            continue;
        };
        if given.iter().any(|(known, _)| known.name == option.name) {
            return Err(Failure::Usage(format!("The option --{} is given twice.", option.name)));
        }
        given.push((option, value));
    }
    Ok((words, given))
}

/// The option of a letter with a dash.
fn letter(token: &OsStr) -> Option<&'static Opt> {
    let letter = token.to_str()?.strip_prefix('-')?;
    COMMON.iter().find(|option| option.letter.is_some_and(|known| letter.chars().eq([known])))
}

/// An option without its dashes, and its value: inside of it after `=`, or the next token.
fn long(option: &[u8], tokens: &mut impl Iterator<Item = OsString>) -> Result<(&'static Opt, OsString), Failure> {
    let (name, inside) = match option.iter().position(|byte| *byte == b'=') {
        Some(place) => (&option[..place], Some(OsString::from_vec(option[place + 1..].to_vec()))),
        None => (option, None),
    };
    let known = table::option(name).ok_or_else(|| {
        Failure::Usage(format!("There is no option {:?}: `--help` lists them.", String::from_utf8_lossy(name)))
    })?;
    let value = match (known.value, inside) {
        (Value::None, None) => OsString::new(),
        (Value::None, Some(_)) => {
            return Err(Failure::Usage(format!("The option --{} takes no value.", known.name)));
        }
        (_, Some(value)) => value,
        (_, None) => tokens
            .next()
            .filter(|next| !next.as_bytes().starts_with(b"--"))
            .ok_or_else(|| Failure::Usage(format!("The option --{} needs a value: {known}.", known.name)))?,
    };
    Ok((known, value))
}

/// Checks that all options are the command's own, that none is missing, and that each value is what its option takes. The words after
/// the command are its own to check, in their order; but of files there is at least one.
fn check(command: &'static Command, given: Given, operands: &[&str], files: &[OsString]) -> Result<Arguments, Failure> {
    let mut own = Given::new();
    for (option, value) in given {
        let name = option.name;
        let Some(option) = command.options.iter().find(|option| option.name == name) else {
            return Err(Failure::Usage(format!("`{}` has no option --{name}: see its --help.", command.title())));
        };
        own.push((option, value));
    }
    let operands = command.operands().zip(operands.iter().map(|word| word.to_string())).collect();
    let files = if command.takes_files() { files.to_vec() } else { Vec::new() };
    let arguments = Arguments { given: own, operands, files };
    for option in command.options {
        if option.required {
            arguments.required(option.name)?;
        }
        match option.value {
            Value::Number(..) => arguments.number(option.name).map(drop)?,
            Value::Range(..) => arguments.required_range(option.name).map(drop)?,
            Value::Counter(_) => arguments.counter(option.name).map(drop)?,
            Value::Year => arguments.required_year(option.name).map(drop)?,
            Value::Word(words) => arguments.word(option.name, words).map(drop)?,
            Value::None | Value::File | Value::Folder | Value::Text(_) => {}
        }
    }
    if command.takes_files() && arguments.files.is_empty() {
        return Err(Failure::Usage(format!("No file is named: see `{} --help`.", command.title())));
    }
    Ok(arguments)
}

#[cfg(test)]
mod tests {
    use super::*;

    fn parsed(line: &str) -> Result<Request, Failure> {
        parse(line.split_whitespace().map(OsString::from))
    }

    fn options(line: &str) -> Arguments {
        match parsed(line) {
            Ok(Request::Run(_, arguments)) => arguments,
            other => panic!("{other:?}"),
        }
    }

    #[test]
    fn options_stand_anywhere() {
        for line in ["office day --state f --allowance 7", "--state=f office --allowance=7 day"] {
            let arguments = options(line);
            assert_eq!(arguments.value("state"), Some(OsStr::new("f")));
            assert_eq!(arguments.required_number("allowance").unwrap(), 7);
            assert_eq!(arguments.number("wait").unwrap(), None);
        }
        assert!(options("group start --state f --group 4 --key - --replace").has("replace"));
        assert_eq!(options("office show --state=--odd=name").value("state"), Some(OsStr::new("--odd=name")));
    }

    #[test]
    fn numbers_are_digits_within_32_bits() {
        for (text, number) in [("0", 0), ("007", 7), ("4294967295", u32::MAX)] {
            let line = format!("office day --state f --allowance {text}");
            assert_eq!(options(&line).required_number("allowance").ok(), Some(number), "{text}");
        }
        for text in ["", "-1", "+1", "1.5", "0x10", "ten", "4294967296"] {
            let line = format!("office day --state f --allowance={text}");
            assert_eq!(parsed(&line).unwrap_err().status(), 2, "{text}");
        }
    }

    #[test]
    fn counters_are_digits_within_64_bits() {
        let line = |text: &str| format!("sane start --state f --group 4 --key k --counter={text}");
        for (text, counter) in [("0", 0), ("007", 7), ("4294967296", 1 << 32), ("18446744073709551615", u64::MAX)] {
            assert_eq!(options(&line(text)).counter("counter").ok(), Some(Some(counter)), "{text}");
        }
        for text in ["", "-1", "1.5", "18446744073709551616"] {
            let said = parsed(&line(text)).unwrap_err().to_string();
            assert!(said.ends_with(" needs a number from 0 to 18446744073709551615, in digits."), "{said}");
        }
        assert_eq!(options("sane start --state f --group 4 --key k").counter("counter").ok(), Some(None));
    }

    #[test]
    fn ranges_are_one_number_or_two() {
        let line = |text: &str| format!("group codes --state f --packets={text}");
        for (text, range) in
            [("7", 7..=7), ("0-23", 0..=23), ("5-5", 5..=5), ("00-07", 0..=7), ("0-4294967295", 0..=u32::MAX)]
        {
            assert_eq!(options(&line(text)).required_range("packets").ok(), Some(range), "{text}");
        }
        for text in
            ["", "-", "7-", "-7", "0--7", "0-7-9", "0..7", "0,7", "+0-7", "0 - 7", "x", "4294967296", "0-4294967296"]
        {
            let said = parse(["group", "codes", "--state", "f", &format!("--packets={text}")].map(OsString::from));
            let said = said.unwrap_err().to_string();
            assert!(
                said.ends_with(" needs a number from 0 to 2047 in digits, as 7, or a first and a last one, as 0-23."),
                "{text}: {said}"
            );
        }
        for text in ["1-0", "23-7", "4294967295-0"] {
            let said = parsed(&line(text)).unwrap_err().to_string();
            assert_eq!(said, "The range of the option --packets ends before it begins.", "{text}");
        }
    }

    #[test]
    fn years_are_those_whose_days_exist() {
        let line = |text: &str| format!("season show --windows f --year={text}");
        for (text, year) in [("1900", 1900), ("2024", 2024), ("2199", 2199)] {
            assert_eq!(options(&line(text)).required_year("year").ok(), Some(year), "{text}");
        }
        for text in ["", "0", "24", "1899", "2200", "20240", "-2024", "+2024", "2024.0", "year", "4294969320"] {
            let said = parsed(&line(text)).unwrap_err().to_string();
            assert_eq!(said, "The option --year needs a year from 1900 to 2199, in digits.", "{text}");
        }
    }

    /// Words that may be missing have names, and of any number of words there is none.
    #[test]
    fn words_in_brackets_may_be_missing() {
        let arguments = options("season first-day C 20250304 --windows f");
        assert_eq!((arguments.operand("SIZE").unwrap(), arguments.operand("DAY").unwrap()), ("C", "20250304"));
        assert!(arguments.has_operands() && !options("season first-day --windows f --in -").has_operands());
        assert_eq!(options("season first-day C --windows f").operand("DAY").unwrap_err().status(), 2);
        let said = parsed("season first-day C 20250304 more --windows f").unwrap_err().to_string();
        assert!(said.starts_with("The word \"more\" is one too many: "), "{said}");
        let said = parsed("help office --state f").unwrap_err().to_string();
        assert!(said.starts_with("The word \"office\" is one too many: "), "{said}");
    }

    /// Files stand among the options, in their order, and may have any names.
    #[test]
    fn files_in_any_number() {
        let odd = OsString::from_vec(b"b\xff".to_vec());
        let line = ["sae", "a", "open", "--state", "f", "--out-dir=d", "help", "pool"].map(OsString::from);
        assert_eq!(parse(line.clone()).unwrap_err().status(), 2);
        let line = ["sae", "open", "a", "--state", "f", "--out-dir=d", "help", "pool"].map(OsString::from);
        let Ok(Request::Run(_, arguments)) = parse(line.into_iter().chain([odd.clone()])) else { panic!() };
        assert_eq!(arguments.files(), ["a".into(), "help".into(), "pool".into(), odd]);
        assert_eq!(arguments.value("out-dir"), Some(OsStr::new("d")));
        // After two hyphens all are files.
        let Ok(Request::Run(_, arguments)) = parsed("sae open --state f a --out-dir d -- -h --state -- b") else {
            panic!()
        };
        assert_eq!(arguments.files(), ["a", "-h", "--state", "--", "b"]);
        let said = parsed("sae open --state f --out-dir d").unwrap_err().to_string();
        assert_eq!(said, "No file is named: see `pevghazo sae open --help`.");
        let said = parsed("help sae open a").unwrap_err().to_string();
        assert!(said.starts_with("There is no command \"a\" here"), "{said}");
    }

    #[test]
    fn words_are_those_of_the_table() {
        let line = |text: &str| format!("group codes --state f --packets 7 --format={text}");
        for word in table::FORMATS {
            assert_eq!(options(&line(word)).word("format", &table::FORMATS).ok(), Some(Some(word)));
        }
        assert_eq!(options("group codes --state f --packets 7").word("format", &table::FORMATS).ok(), Some(None));
        for text in ["", "TEXT", "tex", "pdf"] {
            let said = parsed(&line(text)).unwrap_err().to_string();
            assert_eq!(said, "The option --format needs one of these words: text, csv, html.", "{text}");
        }
    }

    #[test]
    fn spaces_of_a_text_need_quotes() {
        let said = parsed("group check-code --state f --packet 7 --code 0123 4567 89ab cdef").unwrap_err().to_string();
        assert!(
            said.starts_with("The word \"4567\" is one too many: see `pevghazo group check-code --help`."),
            "{said}"
        );
        assert!(said.ends_with(" Spaces in the value of --code need quotes around it."), "{said}");
        // Not where no text was given.
        for line in ["office show more --state f", "office seal more --state f --group 4", "help group check-code more"]
        {
            let said = parsed(line).unwrap_err().to_string();
            assert!(said.contains(" \"more\" ") && !said.contains("quotes"), "{said}");
        }
    }

    #[test]
    fn hints_name_the_first_word_that_fits_nowhere_and_the_range_of_a_number() {
        for (line, word) in [
            ("nothing show --state f", "nothing"),
            ("nothing", "nothing"),
            ("show office --state f", "show"),
            ("office nothing more", "nothing"),
            ("help nothing show", "nothing"),
            ("help office show more", "more"),
        ] {
            let said = parsed(line).unwrap_err().to_string();
            assert!(said.starts_with(&format!("There is no command \"{word}\" here")), "{line}: {said}");
        }
        for (line, said) in [
            ("office show more --state f", "The word \"more\" is one too many: see `pevghazo office show --help`."),
            ("demo more still", "The word \"more\" is one too many: see `pevghazo demo --help`."),
            ("pool find C 1 2 --state f", "The word \"2\" is one too many: see `pevghazo pool find --help`."),
            ("pool add more --in f", "The word \"more\" is one too many: see `pevghazo pool add --help`."),
            (
                "pool add f",
                "The word \"f\" is one too many: see `pevghazo pool add --help`. An input is named with --in.",
            ),
        ] {
            assert_eq!(parsed(line).unwrap_err().to_string(), said, "{line}");
        }
        for group in ["-1", "x", "4294967296"] {
            let said = parsed(&format!("office resend --state f --out o --group {group}")).unwrap_err().to_string();
            assert_eq!(said, "The option --group needs a number from 0 to 31, in digits.", "{group}");
        }
    }

    #[test]
    fn other_command_lines_are_refused() {
        for line in [
            "",
            "office",
            "nothing",
            "office nothing",
            "office show more --state f",
            "demo more",
            "show --state f",
            "office show",
            "office show --state",
            "office show --state f --state f",
            "office show --state f --nothing 1",
            "office show --state f --group 1",
            "office open-group --state f --group 1 --key f --replace=1",
            "office demo",
            "office help",
            "help nothing",
            "help office nothing",
            "help office show more",
            "help --state f",
            "completions",
            "completions nothing",
            "completions bash more",
            "-x",
            "office day --state --allowance 1",
            "office show -state f",
            "--",
        ] {
            assert_eq!(parsed(line).unwrap_err().status(), 2, "{line}");
        }
        let odd = [b"off\xffice".to_vec(), b"--\xff".to_vec(), b"--\xff=\xff".to_vec()];
        for token in odd {
            assert_eq!(parse([OsString::from_vec(token)]).unwrap_err().status(), 2);
        }
    }
}
