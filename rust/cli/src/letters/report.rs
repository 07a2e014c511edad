//! The report on a box of old letters: what became of each, for people and as a table for spreadsheets and scripts.

use std::ffi::OsString;
use std::fmt::Write;
use std::path::Path;

use pevghazo::Number;
use pevghazo_store::shown;

use super::Letter;

/// What became of a letter.
#[derive(Debug, PartialEq, Eq)]
pub enum Fate {
    /// It was opened, at this place in its session, and its message is in the file of this name.
    Opened(usize, OsString),
    /// It was opened in an earlier run, or earlier in this one, at this place in its session.
    Before(usize),
    /// The opening stopped here, with the number of a refusal, or for another reason.
    Stopped(Option<Number>),
    /// The opening had stopped before.
    NotTried,
}

impl Fate {
    /// For people.
    fn words(&self) -> String {
        match self {
            Fate::Opened(..) => "opened".to_string(),
            Fate::Before(_) => "opened before".to_string(),
            Fate::Stopped(Some(number)) => format!("REFUSED, {}", number.number()),
            Fate::Stopped(None) => "STOPPED".to_string(),
            Fate::NotTried => "not tried".to_string(),
        }
    }

    /// For scripts: one word, and the number of a refusal.
    fn fields(&self) -> (&'static str, String) {
        match self {
            Fate::Opened(..) => ("opened", String::new()),
            Fate::Before(_) => ("opened-before", String::new()),
            Fate::Stopped(Some(number)) => ("refused", number.number().to_string()),
            Fate::Stopped(None) => ("stopped", String::new()),
            Fate::NotTried => ("not-tried", String::new()),
        }
    }

    /// The name of the message's file, if it is known.
    fn output(&self) -> String {
        match self {
            Fate::Opened(_, name) => shown(Path::new(name)),
            _ => String::new(),
        }
    }

    /// The letter's place in its session, if it was opened.
    fn place(&self) -> Option<String> {
        match self {
            Fate::Opened(place, _) | Fate::Before(place) => Some(place.to_string()),
            _ => None,
        }
    }
}

/// What became of the letters of a box, each of which has its fate.
pub struct Report<'a> {
    /// The letters.
    pub letters: &'a [Letter<'a>],
    /// Their fates.
    pub fates: &'a [Fate],
}

impl Report<'_> {
    /// The text in a format of the table of commands.
    pub fn text(&self, format: &str) -> String {
        if format == "csv" { self.csv() } else { self.lines() }
    }

    /// How many have such a fate.
    fn count(&self, is: impl Fn(&Fate) -> bool) -> usize {
        self.fates.iter().filter(|fate| is(fate)).count()
    }

    /// How many were opened, and how many had been before.
    pub fn opened(&self) -> [usize; 2] {
        [self.count(|fate| matches!(fate, Fate::Opened(..))), self.count(|fate| matches!(fate, Fate::Before(_)))]
    }

    /// The letters with their places in the box, from 1 on, and their fates.
    fn rows(&self) -> impl Iterator<Item = (usize, &Letter<'_>, &Fate)> {
        (1..).zip(self.letters.iter().zip(self.fates)).map(|(letter_at, (letter, fate))| (letter_at, letter, fate))
    }

    /// For people: a line for each letter, and one for all together. Names of files, which have any length, stand last.
    fn lines(&self) -> String {
        let mut text = String::from("letter group metadata message  result         place  file\n");
        for (letter_at, letter, fate) in self.rows() {
            let [group, metadata, message] = numbers(letter).map(|number| number.unwrap_or("-".to_string()));
            let (words, place) = (fate.words(), fate.place().unwrap_or("-".to_string()));
            let output = fate.output();
            let to = if output.is_empty() { output } else { format!(" to {output}") };
            let _ = write!(text, "{letter_at:6} {group:>5} {metadata:>8} {message:>7}  {words:14} {place:>5}  ");
            let _ = writeln!(text, "{}{to}", letter.place());
        }
        let [opened, before] = self.opened();
        let stopped = self.count(|fate| matches!(fate, Fate::Stopped(_)));
        let (all, not_tried) = (self.fates.len(), self.count(|fate| *fate == Fate::NotTried));
        let _ = writeln!(
            text,
            "opened {opened}, opened before {before}, not opened {stopped}, not tried {not_tried} of {all} letters"
        );
        text
    }

    /// A table with commas. A field with commas or quotes is in quotes; lines end with a line feed alone. It has no line for all
    /// together, which would be one more letter to a script.
    fn csv(&self) -> String {
        let mut text = String::from("letter,file,from,group,metadata,message,result,number,place,output\n");
        for (letter_at, letter, fate) in self.rows() {
            let [group, metadata, message] = numbers(letter).map(Option::unwrap_or_default);
            let (file, from) = (field(&shown(letter.file)), letter.from);
            let (result, number) = fate.fields();
            let (place, output) = (fate.place().unwrap_or_default(), field(&fate.output()));
            let _ = write!(text, "{letter_at},{file},{from},{group},{metadata},{message},");
            let _ = writeln!(text, "{result},{number},{place},{output}");
        }
        text
    }
}

/// A letter's group, and the lengths of its metadata and its message, as its header has them; nothing of what is no envelope.
fn numbers(letter: &Letter) -> [Option<String>; 3] {
    match &letter.content {
        Ok(envelope) => {
            let numbers = [envelope.group as usize, envelope.metadata.len(), envelope.cryptogram.len()];
            numbers.map(|number| Some(number.to_string()))
        }
        Err(_) => [None, None, None],
    }
}

/// A field of a table with commas.
fn field(text: &str) -> String {
    if text.contains([',', '"']) { format!("\"{}\"", text.replace('"', "\"\"")) } else { text.to_string() }
}

#[cfg(test)]
mod tests {
    use pevghazo::envelope;

    use super::*;

    /// A report on a letter of each fate, the third of which is no envelope.
    fn report(format: &str) -> String {
        let bytes = b"F,5,6,11,size C12001-12100the letter's tag";
        let letter = |file, from, bytes| Letter { file: Path::new(file), from, content: envelope::read(bytes) };
        let letters = [
            letter("box/1", 0, &bytes[..]),
            letter("box/a \"b\", c", 0, bytes),
            letter("box/1", 42, b""),
            letter("box/\"line\nfeed", 0, bytes),
        ];
        let stopped = Fate::Stopped(Some(Number::BadHeader));
        let fates = [Fate::Opened(1_204, "1204-1.message".into()), Fate::Before(7), stopped, Fate::NotTried];
        Report { letters: &letters, fates: &fates }.text(format)
    }

    #[test]
    fn lines_have_columns() {
        let expected = "\
letter group metadata message  result         place  file
     1     5        6      11  opened          1204  box/1 to 1204-1.message
     2     5        6      11  opened before      7  box/a \"b\", c
     3     -        -       -  REFUSED, 1         -  box/1 from byte 42
     4     5        6      11  not tried          -  box/\"line\\nfeed
opened 1, opened before 1, not opened 1, not tried 1 of 4 letters
";
        assert_eq!(report("text"), expected);
    }

    #[test]
    fn tables_have_a_head() {
        let expected = "\
letter,file,from,group,metadata,message,result,number,place,output
1,box/1,0,5,6,11,opened,,1204,1204-1.message
2,\"box/a \"\"b\"\", c\",0,5,6,11,opened-before,,7,
3,box/1,42,,,,refused,1,,
4,\"box/\"\"line\\nfeed\",0,5,6,11,not-tried,,,
";
        assert_eq!(report("csv"), expected);
    }

    #[test]
    fn a_stop_that_is_no_refusal() {
        assert_eq!((Fate::Stopped(None).words(), Fate::Stopped(None).fields().0), ("STOPPED".to_string(), "stopped"));
    }
}
