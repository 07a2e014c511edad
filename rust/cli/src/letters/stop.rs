//! Why the opening of a box of old letters ended before its last letter.

use std::fmt;

use super::Letter;
use crate::failure::Failure;

/// Where the opening stopped, and what is to be said besides.
#[derive(Debug)]
pub struct Stop {
    /// The letter's place in the box, from 1 on.
    pub place: usize,
    /// How many letters the box has.
    pub of: usize,
    /// Where the letter is.
    pub letter: String,
    /// Why.
    pub source: Failure,
    /// Which letter belongs there, where the tag is wrong.
    pub next: Option<Next>,
    /// How many letters were opened, and how many had been before.
    pub opened: [usize; 2],
}

/// Which letter of a box belongs in the place of one whose tag is wrong.
#[derive(Debug, PartialEq, Eq)]
pub enum Next {
    /// One that comes later in the box: its place there, and where it is.
    Later(usize, String),
    /// None that comes later.
    Missing,
    /// None that comes later, and no letter of the session was opened yet.
    NoneYet,
}

impl Next {
    /// The letter at this place of the box, counted from 0 on.
    pub fn later(place: usize, letter: &Letter) -> Next {
        Next::Later(place + 1, letter.place())
    }
}

impl fmt::Display for Stop {
    fn fmt(&self, f: &mut fmt::Formatter<'_>) -> fmt::Result {
        let Stop { place, of, letter, source, next, opened: [opened, before] } = self;
        write!(f, "Stopped at letter {place} of {of}, {letter}. {source}")?;
        if let Some(next) = next {
            write!(f, " {next}")?;
        }
        write!(f, " Letters opened: {opened}. Opened before: {before}. Not tried: {}.", of - place)
    }
}

impl fmt::Display for Next {
    fn fmt(&self, f: &mut fmt::Formatter<'_>) -> fmt::Result {
        match self {
            Next::Later(place, letter) => write!(f, "Letter {place}, {letter}, belongs here."),
            Next::Missing => {
                f.write_str("No later letter of the box belongs here: one is missing, or this one is damaged.")
            }
            Next::NoneYet => f.write_str(NONE_YET),
        }
    }
}

/// What is said where no letter opens as the first one.
const NONE_YET: &str = "\
No letter of the box belongs here as the first one: it is missing or damaged, or key and nonce are not those of this session.";

#[cfg(test)]
mod tests {
    use super::*;

    #[test]
    fn the_sentences() {
        let stop = |next| Stop {
            place: 3,
            of: 10,
            letter: "box/3".to_string(),
            source: Failure::NotNow("Not now.".to_string()),
            next,
            opened: [1, 2],
        };
        let end = " Letters opened: 1. Opened before: 2. Not tried: 7.";
        for (next, sentence) in [
            (None, ""),
            (Some(Next::Later(5, "box/5".to_string())), " Letter 5, box/5, belongs here."),
            (Some(Next::Missing), " No later letter of the box belongs here: one is missing, or this one is damaged."),
            (
                Some(Next::NoneYet),
                " No letter of the box belongs here as the first one: it is missing or damaged, or key and nonce are not \
                 those of this session.",
            ),
        ] {
            assert_eq!(stop(next).to_string(), format!("Stopped at letter 3 of 10, box/3. Not now.{sentence}{end}"));
        }
    }
}
