//! Opening a box of old letters, of the first version, whose sessions only open.
//!
//! Each letter's message is written to its file, and only then is the session behind the letter committed, with a note of the letter. A
//! kill in between leaves the session before the letter: the next run opens it again, and finds the file with the same bytes. Elsewhere
//! the state is committed first, since what was sealed or opened must not be done twice; here nothing is sealed, and to open a letter
//! twice gives the same message. So no message is ever kept in the state file.

use std::io::Write;
use std::path::Path;

use pevghazo::{Letter as Mode, Number, Plain, SaeSession};

use crate::arguments::Arguments;
use crate::failure::Failure;
use crate::letters::{Fate, Letter, LetterBox, Next, Report, Stop};
use crate::output::{Time, check_standard, folder, print, tell, write_file};
use crate::progress::Progress;
use crate::state::{Sae, open_letter};
use crate::state_file::Used;
use crate::table::REPORTS;

/// Opens the letters of a box in their order, up to the first one that does not open, and prints a report on all.
pub fn open(arguments: &Arguments, out: &mut dyn Write) -> Result<(), Failure> {
    check_standard()?;
    let format = arguments.word("format", &REPORTS)?.unwrap_or(REPORTS[0]);
    let folder = folder(arguments, "out-dir")?;
    let files = LetterBox::read(arguments)?;
    let letters = files.letters();
    let mut used = Used::<Sae>::open(arguments)?;
    let mut fates = Vec::new();
    let stop = open_all(&mut used, &letters, &folder, &mut fates).err();
    let next = stop.as_ref().and_then(|(place, failure)| next(&used.state, &letters, *place, failure));
    let (group, index) = (used.state.group, used.state.session.index());
    // Whoever reads the output may be slow, and needs the state file no more.
    drop(used);
    fates.resize_with(letters.len(), || Fate::NotTried);
    let report = Report { letters: &letters, fates: &fates };
    let opened = report.opened();
    let printed = print(out, &report.text(format));
    if let Some((place, source)) = stop {
        let (letter, of) = (letters[place].place(), letters.len());
        return Err(Failure::Stopped(Box::new(Stop { place: place + 1, of, letter, source, next, opened })));
    }
    printed.map_err(|failure| if opened[0] > 0 { Failure::NotReported(Box::new(failure)) } else { failure })?;
    tell(&format!("Opened {} letters of group {group}, and {} had been before: index {index}.", opened[0], opened[1]));
    Ok(())
}

/// Opens the letters, and adds what became of each. Where it stops, gives the letter's place, from 0 on, and why.
fn open_all(
    used: &mut Used<Sae>,
    letters: &[Letter],
    folder: &Path,
    fates: &mut Vec<Fate>,
) -> Result<(), (usize, Failure)> {
    let mut progress = Progress::new();
    for (place, letter) in letters.iter().enumerate() {
        let (fate, failure) = open_and_commit(used, letter, folder);
        fates.push(fate);
        failure.map_or(Ok(()), |failure| Err((place, failure)))?;
        progress.show_letters(fates.len(), letters.len());
    }
    Ok(())
}

/// What becomes of a letter, and why the opening stops there, if it does. One whose commit the disk did not confirm is opened all the same.
fn open_and_commit(used: &mut Used<Sae>, letter: &Letter, folder: &Path) -> (Fate, Option<Failure>) {
    let fate = match open_one(&mut used.state, letter, folder) {
        Ok(before @ Fate::Before(_)) => return (before, None),
        Ok(fate) => fate,
        Err(failure) => return (Fate::Stopped(failure.number()), Some(failure)),
    };
    match used.commit() {
        Ok(()) => (fate, None),
        Err(error) if error.is_committed() => (fate, Some(error.into())),
        Err(error) => (Fate::Stopped(None), Some(error.into())),
    }
}

/// Opens a letter, unless it was opened before, and writes its message to its file. The state is to be committed then.
fn open_one(state: &mut Sae, letter: &Letter, folder: &Path) -> Result<Fate, Failure> {
    let envelope = letter.content?;
    let fingerprint = state.opened.fingerprint(&envelope)?;
    if let Some(place) = state.opened.place(&fingerprint) {
        return Ok(Fate::Before(place));
    }
    state.takes_letter(&envelope)?;
    let opened = open_letter(&mut state.session, &envelope);
    let message = opened.map_err(|refusal| Failure::Refused(refusal, Mode::F))?;
    let place = state.opened.count() + 1;
    let name = |ending: &str| {
        let mut name = letter.output(place);
        name.push(ending);
        name
    };
    if !envelope.metadata.is_empty() {
        write_file(&folder.join(name(".metadata")), envelope.metadata, Time::Again)?;
    }
    let name = name(".message");
    write_file(&folder.join(&name), &message, Time::Again)?;
    state.opened.add(fingerprint);
    Ok(Fate::Opened(place, name))
}

/// Which letter belongs at a place of the box, where the one there has a wrong tag.
fn next(state: &Sae, letters: &[Letter], place: usize, failure: &Failure) -> Option<Next> {
    if failure.number() != Some(Number::WrongTag) {
        return None;
    }
    // A refused letter leaves it as it was.
    let mut copy = SaeSession::from_bytes(&state.session.to_bytes()).ok()?;
    let mut opens = |letter: &Letter| {
        let own = letter.content.ok().filter(|envelope| state.takes_letter(envelope).is_ok());
        own.is_some_and(|envelope| open_letter(&mut copy, &envelope).is_ok())
    };
    let later = letters.iter().enumerate().skip(place + 1).find(|(_, letter)| opens(letter));
    Some(match later {
        Some((place, letter)) => Next::later(place, letter),
        None if state.opened.count() == 0 => Next::NoneYet,
        None => Next::Missing,
    })
}

/// Asks the library to seal in a session of the first version, which it refuses whatever is to be sealed: nothing of that is read.
pub fn seal(arguments: &Arguments) -> Result<(), Failure> {
    let mut used = Used::<Sae>::open(arguments)?;
    let sealed = used.state.session.wrap(&Plain { metadata: &[], message: &[] });
    sealed.map(drop).map_err(|refusal| Failure::Refused(refusal, Mode::F))
}
