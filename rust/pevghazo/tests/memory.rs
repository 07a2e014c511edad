//! What stays of a session's secrets in memory: after each call one copy, the session's own, and after its end none.
//!
//! A process of its own makes the calls and looks through all of its memory, as a debugger or a core dump would show it. The
//! lanes that it looks for are worked out here by the independent implementation and handed over as their complements, so that
//! looking for them puts none there. So are the old letters that it opens, which the library does not seal.

use std::collections::BTreeSet;
use std::fs::{self, File};
use std::os::unix::fs::FileExt;
use std::process::Command;

use pevghazo::{Arrival, Envelope, Letter, Number, Plain, SaeSession, SaneSession, Session, Table, envelope, raw};
use pevghazo_reference::deck::p;
use pevghazo_reference::envelope::header_bytes;
use pevghazo_reference::rolling::{roll_input, roll_output};
use pevghazo_reference::session::{
    Record, SaeSession as SaeReference, SaneSession as SaneReference, Session as Reference,
};
use pevghazo_reference::xoodoo::State;

const KEY: &[u8] = b"a key for the memory's test";
const NONCE: &[u8] = b"a nonce of more than one block, which is no secret: 41";
const METADATA: &[u8] = b"size C";
const GROUP: u32 = 7;
const PACKET: u32 = 2;
const VARIABLE: &str = "PEVGHAZO_LANES";
const LETTERS: &str = "PEVGHAZO_LETTERS";

/// The messages that go out, longer and longer, each without an envelope and then for one: whether it is for one.
fn messages() -> [(bool, Vec<u8>); 6] {
    let of = |for_envelope| [vec![], vec![0x31; 40], vec![0x32; 400]].map(|message| (for_envelope, message));
    let ([a, b, c], [d, e, f]) = (of(false), of(true));
    [a, d, b, e, c, f]
}

/// The header of a message that is for an envelope with this letter.
fn header(letter: Letter, for_envelope: bool, message: &[u8]) -> Option<Vec<u8>> {
    for_envelope.then(|| header_bytes(letter.byte(), GROUP, METADATA.len(), message.len()))
}

/// All lanes of mask and accumulator from the start to the last message in every mode, also those of the masks in between, and
/// those of the states that outputs are made from, which would give these away.
fn lanes() -> BTreeSet<u32> {
    let states = sanse_states().into_iter().chain(sane_states()).chain(sae_states());
    // Small numbers and runs of one byte stand in memory for other reasons.
    states.flatten().filter(|lane| *lane > 0xFFFF && lane.to_le_bytes() != [*lane as u8; 4]).collect()
}

/// The states in SANSE; of outputs those of the packet's code.
fn sanse_states() -> Vec<State> {
    let mut session = Reference::start(KEY).unwrap();
    let mut states = Vec::new();
    for (for_envelope, message) in messages() {
        let header = header(Letter::S, for_envelope, &message);
        let mut out = vec![0; message.len()];
        session.wrap_for(header.as_deref(), METADATA, &message, &mut out, &mut [0; 32]).unwrap();
        states.push(session.accumulator);
        states.extend(output_states(&session.accumulator, 2));
    }
    states.extend(masks(&session.mask));
    states
}

/// The states in SANE; of outputs those of tags and keystreams.
fn sane_states() -> Vec<State> {
    let (session, _) = SaneReference::start(KEY, NONCE, &mut [0; 16]).unwrap();
    stream_states(session, |session, for_envelope, message| {
        let header = header(Letter::N, for_envelope, message);
        let mut out = vec![0; message.len()];
        session.wrap_for(header.as_deref(), METADATA, message, &mut out, &mut [0; 16]).unwrap();
    })
}

/// The first version's session of old letters.
fn trial() -> SaeReference {
    SaeReference::start(KEY, NONCE, &mut [0; 16]).unwrap().0
}

/// The states of old letters.
fn sae_states() -> Vec<State> {
    stream_states(trial(), |session, _, message| drop(session.trial_seal(GROUP, METADATA, message)))
}

/// The states of a session whose keystream comes from the history before a message, over all messages.
fn stream_states<M>(mut session: Record<M>, next: impl Fn(&mut Record<M>, bool, &[u8])) -> Vec<State> {
    let mut states = Vec::new();
    for (for_envelope, message) in messages() {
        states.push(session.accumulator);
        states.extend(output_states(&session.accumulator, (message.len() + 16).div_ceil(48)));
        next(&mut session, for_envelope, &message);
    }
    states.push(session.accumulator);
    states.extend(output_states(&session.accumulator, 1));
    states.extend(masks(&session.mask));
    states
}

/// The old letters, in hexadecimal digits.
fn letters() -> String {
    let mut session = trial();
    let letters = messages().map(|(_, message)| session.trial_seal(GROUP, METADATA, &message));
    letters.map(|letter| letter.iter().map(|byte| format!("{byte:02x}")).collect::<String>()).join(" ")
}

/// The states that so many blocks of output are made from.
fn output_states(accumulator: &State, blocks: usize) -> Vec<State> {
    let rolled = std::iter::successors(Some(p(accumulator)), |state| Some(roll_output(state)));
    rolled.take(blocks).flat_map(|state| [state, p(&state)]).collect()
}

/// The key's mask and those after it, up to this one.
fn masks(last: &State) -> Vec<State> {
    let mut masks = vec![Reference::start(KEY).unwrap().mask];
    while masks.last() != Some(last) {
        masks.push(roll_input(&masks[masks.len() - 1]));
    }
    masks
}

#[test]
fn what_stays_in_memory() {
    let hidden: Vec<String> = lanes().iter().map(|lane| (!lane).to_string()).collect();
    let output = Command::new(std::env::current_exe().unwrap())
        .args(["--exact", "child", "--ignored", "--nocapture", "--test-threads=1"])
        .env(VARIABLE, hidden.join(" "))
        .env(LETTERS, letters())
        .output()
        .unwrap();
    let said = String::from_utf8_lossy(&output.stdout);
    assert!(
        output.status.success() && said.contains("memory looked through"),
        "{said}{}",
        String::from_utf8_lossy(&output.stderr)
    );
}

/// The places of this process's memory that hold a lane, and what kind of memory each is.
struct Memory {
    hidden: BTreeSet<u32>,
    file: File,
    buffer: Vec<u8>,
}

impl Memory {
    fn new() -> Memory {
        let hidden = std::env::var(VARIABLE).expect("what_stays_in_memory sets it");
        let hidden = hidden.split(' ').map(|number| number.parse().unwrap()).collect();
        Memory { hidden, file: File::open("/proc/self/mem").unwrap(), buffer: vec![0; 1 << 16] }
    }

    /// Looks from far down the stack, so that its own frames do not take the place of what a call left there.
    #[inline(never)]
    fn places(&mut self) -> Vec<(u64, String)> {
        let mut room = [const { std::mem::MaybeUninit::<u64>::uninit() }; 1 << 13];
        std::hint::black_box(&mut room);
        let found = self.places_from_here();
        std::hint::black_box(&mut room);
        found
    }

    /// Looks through all that can be written to.
    #[inline(never)]
    fn places_from_here(&mut self) -> Vec<(u64, String)> {
        let mut found = Vec::new();
        for line in fs::read_to_string("/proc/self/maps").unwrap().lines() {
            let words: Vec<&str> = line.split_whitespace().collect();
            if !words[1].starts_with("rw") {
                continue;
            }
            let (start, end) = words[0].split_once('-').unwrap();
            let (mut place, end) = (u64::from_str_radix(start, 16).unwrap(), u64::from_str_radix(end, 16).unwrap());
            while place < end {
                let length = self.buffer.len().min((end - place) as usize);
                self.look(place, length, words.get(5).unwrap_or(&"a mapping"), &mut found);
                place += length as u64;
            }
        }
        found
    }

    fn look(&mut self, place: u64, length: usize, name: &str, found: &mut Vec<(u64, String)>) {
        if self.file.read_exact_at(&mut self.buffer[..length], place).is_err() {
            return;
        }
        let own = self.buffer.as_ptr_range();
        // A stored record may stand at any even place of its table's bytes.
        for (i, word) in self.buffer[..length].windows(4).enumerate().step_by(2) {
            let at = place + i as u64;
            let is_own = (own.start as u64..own.end as u64).contains(&at);
            if !is_own && self.hidden.contains(&!u32::from_le_bytes(word.try_into().unwrap())) {
                found.push((at, name.to_string()));
            }
        }
        self.buffer.fill(0);
    }

    /// While a session lives, its lanes stand in one record.
    fn one_record(&mut self, when: &str) {
        let places = self.places();
        let (first, last) = (places.first(), places.last());
        let (Some((first, _)), Some((last, _))) = (first, last) else { panic!("{when}: this test sees nothing") };
        assert!(last - first < 96, "{when}: lanes stand in more than one place: {places:x?}");
    }

    fn nothing(&mut self, when: &str) {
        let places = self.places();
        assert!(places.is_empty(), "{when}: lanes are left: {places:x?}");
    }
}

/// Runs in the process whose memory is looked through.
#[test]
#[ignore = "what_stays_in_memory runs it in a process of its own"]
fn child() {
    let mut memory = Memory::new();
    memory.nothing("before the first call");
    lone(&mut memory, || Session::start(KEY).unwrap().0, stored);
    lone(&mut memory, || SaneSession::start(KEY, NONCE).unwrap().0, stored_in_sane);
    old_letters(&mut memory);
    table(&mut memory);
    println!("memory looked through");
}

/// An end whose calls are looked at.
trait End {
    /// What it is, for messages.
    const NAME: &'static str;
    /// The letter of its envelopes.
    const LETTER: Letter;
    /// Wraps without an envelope, and gives cryptogram and tag.
    fn wrap(&mut self, plain: &Plain<'_>) -> (Vec<u8>, Vec<u8>);
    /// Seals, and gives the envelope.
    fn seal(&mut self, plain: &Plain<'_>) -> Vec<u8>;
    /// Unwraps the parts of an envelope without its header, and gives whether it is accepted.
    fn unwrap(&mut self, envelope: &Envelope<'_>) -> bool;
    /// Unwraps an envelope, and gives whether it is accepted.
    fn unwrap_envelope(&mut self, envelope: &Envelope<'_>) -> bool;
    /// Opens an envelope, and gives whether it is accepted.
    fn open(&mut self, bytes: &[u8]) -> bool;
    /// Asks for a code, where it has some.
    fn code(&self) {}
}

/// A lone session of either mode.
macro_rules! lone_end {
    ($session:ty, $name:literal, $letter:expr $(, $code:item)?) => {
        impl End for $session {
            const NAME: &'static str = $name;
            const LETTER: Letter = $letter;

            fn wrap(&mut self, plain: &Plain<'_>) -> (Vec<u8>, Vec<u8>) {
                let wrapped = <$session>::wrap(self, plain).unwrap();
                (wrapped.cryptogram, wrapped.tag.to_vec())
            }

            fn seal(&mut self, plain: &Plain<'_>) -> Vec<u8> {
                <$session>::seal(self, GROUP, plain).unwrap().envelope
            }

            fn unwrap(&mut self, envelope: &Envelope<'_>) -> bool {
                <$session>::unwrap(self, &envelope.arrival().unwrap()).is_ok()
            }

            fn unwrap_envelope(&mut self, envelope: &Envelope<'_>) -> bool {
                <$session>::unwrap_envelope(self, envelope).is_ok()
            }

            fn open(&mut self, bytes: &[u8]) -> bool {
                <$session>::open(self, bytes).is_ok()
            }

            $($code)?
        }
    };
}

lone_end!(
    Session,
    "SANSE",
    Letter::S,
    fn code(&self) {
        Session::code(self, PACKET).unwrap();
    }
);
lone_end!(SaneSession, "SANE", Letter::N);

impl End for Table {
    const NAME: &'static str = "a table";
    const LETTER: Letter = Letter::S;

    fn wrap(&mut self, plain: &Plain<'_>) -> (Vec<u8>, Vec<u8>) {
        let wrapped = Table::wrap(self, GROUP, plain).unwrap();
        (wrapped.cryptogram, wrapped.tag.to_vec())
    }

    fn seal(&mut self, plain: &Plain<'_>) -> Vec<u8> {
        Table::seal(self, GROUP, plain).unwrap().envelope
    }

    fn unwrap(&mut self, envelope: &Envelope<'_>) -> bool {
        Table::unwrap(self, GROUP, &envelope.arrival().unwrap()).is_ok()
    }

    fn unwrap_envelope(&mut self, envelope: &Envelope<'_>) -> bool {
        Table::unwrap_envelope(self, GROUP, envelope).is_ok()
    }

    fn open(&mut self, bytes: &[u8]) -> bool {
        Table::open(self, bytes).is_ok()
    }

    fn code(&self) {
        Table::code(self, GROUP, PACKET).unwrap();
    }
}

/// What travels: whether it is for an envelope, and the envelope's bytes, in which a message without one stands too.
struct Travels {
    for_envelope: bool,
    bytes: Vec<u8>,
}

/// An end wraps and seals all messages.
fn sends<E: End>(memory: &mut Memory, end: &mut E) -> Vec<Travels> {
    let mut sent = Vec::new();
    for (for_envelope, message) in messages() {
        let plain = Plain { metadata: METADATA, message: &message };
        let bytes = if for_envelope {
            end.seal(&plain)
        } else {
            let (cryptogram, tag) = end.wrap(&plain);
            envelope::write(E::LETTER, GROUP, METADATA, &cryptogram, &tag).unwrap()
        };
        memory.one_record(&format!("after wrapping in {}, for an envelope: {for_envelope}", E::NAME));
        sent.push(Travels { for_envelope, bytes });
        end.code();
        memory.one_record(&format!("after a code of {}", E::NAME));
    }
    sent
}

/// An end is handed what travels: damaged, with another header, and as it is.
fn receives<E: End>(memory: &mut Memory, end: &mut E, Travels { for_envelope, bytes }: &Travels) {
    let mut damaged = bytes.clone();
    *damaged.last_mut().unwrap() ^= 1;
    let (arrived, damaged) = (envelope::read(bytes).unwrap(), envelope::read(&damaged).unwrap());
    let mut look = |what: &str| memory.one_record(&format!("{what} in {}, for an envelope: {for_envelope}", E::NAME));
    if *for_envelope {
        assert!(!end.unwrap_envelope(&Envelope { header: &arrived.header[1..], ..arrived }));
        look("after a header that is refused");
        assert!(!end.unwrap_envelope(&damaged));
        look("after a refused unwrap");
        assert!(end.open(bytes));
    } else {
        assert!(!end.unwrap(&damaged));
        look("after a refused unwrap");
        assert!(end.unwrap(&arrived));
    }
    look("after opening");
}

/// One session, which wraps and seals; and one that unwraps and opens what it gave.
fn lone<E: End>(memory: &mut Memory, start: fn() -> E, store_and_load: fn(&mut Memory, E) -> E) {
    let mut session = start();
    memory.one_record(&format!("after start in {}", E::NAME));
    let sent = sends(memory, &mut session);
    drop(session);
    memory.nothing(&format!("after the end of a session in {}", E::NAME));
    let mut session = start();
    for travels in &sent {
        receives(memory, &mut session, travels);
        let moved = Box::new(session);
        session = store_and_load(memory, *moved);
        memory.one_record(&format!("after storing and loading in {}", E::NAME));
    }
    drop(session);
    memory.nothing(&format!("after the end of a second session in {}", E::NAME));
}

/// The old letters as they were handed over.
fn handed_over() -> Vec<Vec<u8>> {
    let letters = std::env::var(LETTERS).expect("what_stays_in_memory sets it");
    let byte = |digits: &[u8]| u8::from_str_radix(std::str::from_utf8(digits).unwrap(), 16).unwrap();
    letters.split(' ').map(|letter| letter.as_bytes().chunks(2).map(byte).collect()).collect()
}

/// A session that opens old letters, each after a damaged one and a wrap, which are refused.
fn old_letters(memory: &mut Memory) {
    let mut session = SaeSession::start(KEY, NONCE).unwrap().0;
    memory.one_record("after the start of old letters");
    for letter in handed_over() {
        let mut damaged = letter.clone();
        *damaged.last_mut().unwrap() ^= 1;
        assert_eq!(session.open(&damaged).unwrap_err().number, Number::WrongTag);
        memory.one_record("after a refused letter");
        assert!(session.wrap(&Plain { metadata: METADATA, message: &letter }).is_err());
        memory.one_record("after a refused wrap of old letters");
        let bytes = session.to_bytes();
        drop(session);
        memory.one_record("while old letters' session is stored");
        session = SaeSession::from_bytes(&bytes).unwrap();
        drop(bytes);
        assert!(session.open(&letter).is_ok());
        memory.one_record("after an old letter");
    }
    let parts: Arrival<'_, 16> = Arrival { metadata: METADATA, cryptogram: &[0x33; 400], tag: &[0; 16] };
    assert!(session.unwrap(&parts).is_err());
    memory.one_record("after a refused letter by its parts");
    drop(session);
    memory.nothing("after the end of a session of old letters");
}

/// A session that is stored and loaded.
fn stored(memory: &mut Memory, session: Session) -> Session {
    let bytes = session.to_bytes();
    drop(session);
    memory.one_record("while it is stored in SANSE");
    Session::from_bytes(&bytes).unwrap()
}

/// The same in SANE.
fn stored_in_sane(memory: &mut Memory, session: SaneSession) -> SaneSession {
    let bytes = session.to_bytes();
    drop(session);
    memory.one_record("while it is stored in SANE");
    SaneSession::from_bytes(&bytes).unwrap()
}

/// The same for a group of a table.
fn table(memory: &mut Memory) {
    let mut office = Table::new();
    office.start_day(u32::MAX);
    office.open_group(GROUP, KEY).unwrap();
    memory.one_record("after opening a group");
    let sent = sends(memory, &mut office);
    assert_eq!(office.nearly_full(1), Some(GROUP));
    memory.one_record("after the nearly-full question");
    office.start_day(u32::MAX);
    memory.one_record("after the start of a day");
    office.open_group(GROUP, KEY).unwrap();
    for travels in &sent {
        receives(memory, &mut office, travels);
    }
    stored_table(memory, office);
}

/// A table that is stored and loaded, also as versions up to 0.4 stored it.
fn stored_table(memory: &mut Memory, mut office: Table) {
    let bytes = office.to_bytes();
    drop(office);
    memory.one_record("while the table is stored");
    office = Table::from_bytes(&bytes).unwrap();
    drop(bytes);
    memory.one_record("after storing and loading a table");
    // As versions up to 0.4 stored it: the sessions, then one count and the allowance.
    let bytes = office.to_bytes();
    drop(office);
    let mut old = vec![0; Table::BYTES_BEFORE];
    let sessions = bytes.chunks_exact(Session::BYTES + 4).map(|record| &record[..Session::BYTES]);
    old.chunks_exact_mut(Session::BYTES).zip(sessions).for_each(|(place, session)| place.copy_from_slice(session));
    drop(bytes);
    office = Table::from_bytes_before(&old).unwrap();
    raw::wipe(&mut old);
    memory.one_record("after loading a table of an earlier version");
    drop(office);
    memory.nothing("after the end of a table");
}
