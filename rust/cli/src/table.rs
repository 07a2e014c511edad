//! The table of commands: their words, options and help texts. Arguments, help texts, shell completions and the commands
//! themselves read it, and it reads none of them.

use std::fmt;
use std::ops::RangeInclusive;

use pevghazo::PACKET_MAX;

/// What commands are about, whose first words these are: the ends of sessions, of which either end of one in SANE has the third; old
/// letters; the pool; issue seasons; and the till.
pub const AREAS: [&str; 7] = ["office", "group", "sane", "sae", "pool", "season", "till"];

/// What the commands of each are.
pub const ABOUT_AREAS: [&str; 7] = [
    "the commands of the office",
    "the commands of a group",
    "the commands of a session in SANE, at either end",
    "the commands of old letters, of the first version",
    "the commands of a pool of unused rings",
    "the commands of issue seasons",
    "the commands of a till, which charges for rings",
];

/// How codes may be given, and receipts.
pub const FORMATS: [&str; 3] = ["text", "csv", "html"];

/// How a calendar may be given.
pub const CALENDARS: [&str; 2] = ["text", "html"];

/// How the report on a box of old letters may be given.
pub const REPORTS: [&str; 2] = ["text", "csv"];

/// The words of a command that any number of files follow, but at least one.
pub const FILES: &str = "FILE ..";

/// The years whose days exist for issue lines.
pub const YEARS: RangeInclusive<u32> = 1900..=2199;

/// A command.
#[derive(Debug)]
pub struct Command {
    /// Which one it is.
    pub id: Id,
    /// What it is about, or nothing.
    pub area: &'static str,
    /// Its name.
    pub name: &'static str,
    /// The words that follow, or nothing; those in brackets may be missing.
    pub words: &'static str,
    /// What it does, in a few words.
    pub about: &'static str,
    /// Its options.
    pub options: &'static [Opt],
    /// More for the help text, or nothing.
    pub more: &'static str,
}

/// Names for the commands in the program itself.
#[derive(Clone, Copy, Debug, PartialEq, Eq)]
#[allow(missing_docs)] // The table says what each is.
pub enum Id {
    OfficeCreate,
    OfficeDay,
    OfficeOpenGroup,
    OfficeSeal,
    OfficeOpen,
    OfficeResend,
    OfficeReread,
    OfficeForget,
    OfficeNearlyFull,
    OfficeCodes,
    OfficeCheckCode,
    OfficeShow,
    GroupStart,
    GroupSeal,
    GroupOpen,
    GroupResend,
    GroupReread,
    GroupForget,
    GroupCodes,
    GroupCheckCode,
    GroupShow,
    SaneStart,
    SaneSeal,
    SaneOpen,
    SaneResend,
    SaneReread,
    SaneForget,
    SaneShow,
    SaeStart,
    SaeOpen,
    SaeSeal,
    SaeShow,
    PoolCreate,
    PoolAdd,
    PoolShow,
    PoolFind,
    SeasonFirstDay,
    SeasonShow,
    TillCreate,
    TillCharge,
    TillReceipt,
    TillShow,
    TillPrices,
    Keygen,
    Demo,
    Help,
}

impl Command {
    /// The words of the command: what it is about, if anything, and its name.
    pub fn path(&self) -> String {
        let space = if self.area.is_empty() { "" } else { " " };
        format!("{}{space}{}", self.area, self.name)
    }

    /// The names of the words that follow, or may. Of any number of words there is no name.
    pub fn operands(&self) -> impl Iterator<Item = &'static str> {
        let words = if self.words.contains("..") { "" } else { self.words };
        words.split([' ', '[', ']']).filter(|word| !word.is_empty())
    }

    /// Whether files follow, any number of them.
    pub fn takes_files(&self) -> bool {
        self.words == FILES
    }

    /// The command as it is typed.
    pub fn title(&self) -> String {
        format!("pevghazo {}", self.path())
    }
}

/// The command of these words.
pub fn find(area: &str, name: &str) -> Option<&'static Command> {
    COMMANDS.iter().find(|command| command.area == area && command.name == name)
}

/// An option of a command.
#[derive(Debug)]
pub struct Opt {
    /// Its name, without the dashes.
    pub name: &'static str,
    /// A letter that stands for it, with one dash.
    pub letter: Option<char>,
    /// What its value is.
    pub value: Value,
    /// Whether the command cannot do without it.
    pub required: bool,
    /// What it says, in a few words.
    pub about: &'static str,
}

/// The value of an option. The text is what a help text calls it.
#[derive(Clone, Copy, Debug, PartialEq, Eq)]
pub enum Value {
    /// It has none.
    None,
    /// A file's name.
    File,
    /// A folder's name.
    Folder,
    /// Some text.
    Text(&'static str),
    /// A number, of which those up to this one have a meaning.
    Number(&'static str, u32),
    /// A number, or a first and a last one with a hyphen between them, of which those up to this one have a meaning.
    Range(&'static str, u32),
    /// A number of 64 bits.
    Counter(&'static str),
    /// A year of [`YEARS`].
    Year,
    /// One of these words.
    Word(&'static [&'static str]),
}

impl fmt::Display for Value {
    fn fmt(&self, f: &mut fmt::Formatter<'_>) -> fmt::Result {
        match self {
            Value::None => Ok(()),
            Value::File => f.write_str("FILE"),
            Value::Folder => f.write_str("DIR"),
            Value::Text(name) | Value::Number(name, _) | Value::Range(name, _) | Value::Counter(name) => {
                f.write_str(name)
            }
            Value::Year => f.write_str("YYYY"),
            Value::Word(words) => f.write_str(&words.join("|")),
        }
    }
}

impl fmt::Display for Opt {
    /// As in a help text: `--name VALUE`.
    fn fmt(&self, f: &mut fmt::Formatter<'_>) -> fmt::Result {
        let space = if self.value == Value::None { "" } else { " " };
        write!(f, "--{}{space}{}", self.name, self.value)
    }
}

/// The options that every command line may have.
pub const COMMON: [Opt; 2] = [
    Opt { letter: Some('h'), ..flag("help", "print a help text") },
    Opt { letter: Some('V'), ..flag("version", "print the version") },
];

/// The option of this name, of whichever command.
pub fn option(name: &[u8]) -> Option<&'static Opt> {
    let all = COMMANDS.iter().flat_map(|command| command.options).chain(&COMMON);
    all.into_iter().find(|option| option.name.as_bytes() == name)
}

const fn required(name: &'static str, value: Value, about: &'static str) -> Opt {
    Opt { name, letter: None, value, required: true, about }
}

const fn optional(name: &'static str, value: Value, about: &'static str) -> Opt {
    Opt { name, letter: None, value, required: false, about }
}

const fn flag(name: &'static str, about: &'static str) -> Opt {
    optional(name, Value::None, about)
}

const STATE: Opt = required("state", Value::File, "the state file");
const WAIT: Opt = optional(
    "wait",
    Value::Number("SECONDS", u32::MAX),
    "how long to wait for another program that uses the state file; 10",
);
const RESTORE: Opt = flag("restore", "take a state file that is an older copy");
const GROUP: Opt = required("group", Value::Number("G", 31), "the group, 0 to 31");
const KEY: Opt = required("key", Value::File, "the key: all bytes of this file, 16 to 47, closed to others");
const REPLACE: Opt = flag("replace", "take the place of a session that is open");
const REUSE_KEY: Opt = flag("reuse-key", "take a key that was used in this state file before");
const COUNTER: Opt =
    optional("counter", Value::Counter("N"), "the nonce: this number as eight bytes, the lowest first");
const NONCE: Opt = optional("nonce", Value::File, "the nonce: all bytes of this file, at most 16384");
const EXPECT: Opt =
    optional("expect", Value::Text("TAG"), "start only if the tag is this one, as the other end has it");
const MESSAGE: Opt = required("message", Value::File, "the message, at most 16384 bytes");
const METADATA: Opt = optional("metadata", Value::File, "metadata, which travel in the clear, at most 16384 bytes");
const METADATA_TEXT: Opt = optional("metadata-text", Value::Text("TEXT"), "metadata, here on the command line");
const ENVELOPE_OUT: Opt = required("out", Value::File, "where the envelope goes");
const IN: Opt = required("in", Value::File, "the file with the envelope");
const FROM: Opt = optional("from", Value::Number("PLACE", u32::MAX), "where in the file the envelope starts; 0");
const MESSAGE_OUT: Opt = required("out", Value::File, "where the message goes");
const METADATA_OUT: Opt = optional("metadata-out", Value::File, "where the metadata go");
const ENVELOPE: Opt = flag("envelope", "forget the kept envelope too");
const ALLOWANCE: Opt = required("allowance", Value::Number("N", u32::MAX), "the most permutations of each group");
const MARK: Opt = required("mark", Value::Number("N", u32::MAX), "the index above which a group counts as nearly full");
const ALL: Opt = flag("all", "list all such groups, one on each line");
const PACKETS: Opt = required(
    "packets",
    Value::Range("RANGE", PACKET_MAX),
    "a packet, 0 to 2047, as 7, or a first and a last one, as 0-23",
);
const FORMAT: Opt = optional("format", Value::Word(&FORMATS), "lines, a table, or a page of labels to print; text");
const CODES_OUT: Opt = optional("out", Value::File, "where the codes go; the standard output");
const PACKET: Opt = required("packet", Value::Number("P", PACKET_MAX), "the packet, 0 to 2047");
const CODE: Opt = required("code", Value::Text("TEXT"), "the code that was read off the packet");
const JSON: Opt = flag("json", "as JSON, for scripts");
const LINES: Opt = required("in", Value::File, "the file with issue lines, any number of them");
const ALL_OR_NONE: Opt = flag("all-or-none", "add nothing if a line is refused");
const RUNS: Opt = flag("runs", "the runs alone, one on each line");
const CSV: Opt = flag("csv", "as a table with commas, for spreadsheets and scripts");
const IN_SEASON: Opt =
    optional("windows", Value::File, "add only what its size's window permits: the file with the windows");
const WINDOWS: Opt = required("windows", Value::File, "the file with the windows of the eight sizes");
const ASKED: Opt = optional("in", Value::File, "the file with issue lines, in the place of SIZE and DAY");
const YEAR: Opt = required("year", Value::Year, "the year, 1900 to 2199");
const CALENDAR: Opt = optional("format", Value::Word(&CALENDARS), "for a terminal, or a page to print; text");
const CALENDAR_OUT: Opt = optional("out", Value::File, "where the calendar goes; the standard output");
const PRICES: Opt = required("prices", Value::File, "the file with the prices of the eight sizes");
const CHARGE_ALL_OR_NONE: Opt = flag("all-or-none", "charge nothing if a line is refused");
const TO_CHARGE: Opt = required("in", Value::File, "the file with issue lines, at most 65536 of them");
const RECEIPT: Opt = optional("format", Value::Word(&FORMATS), "for a terminal, a table, or a page to print; text");
const RECEIPT_OUT: Opt = optional("out", Value::File, "where the receipt goes; the standard output");
const AGAIN: Opt = flag("again", "charge lines of the last receipt once more");
const KEY_OUT: Opt = required("out", Value::File, "where the key goes");
const NOTED: Opt = optional("expect", Value::Text("TAG"), "start only if the tag is this one, as it was noted then");
const FOLDER: Opt = required("out-dir", Value::Folder, "the folder in which each message gets a new file");
const REPORT: Opt = optional("format", Value::Word(&REPORTS), "the report for people, or a table with commas; text");
const NO_MESSAGE: Opt = Opt { required: false, ..MESSAGE };
const NO_OUT: Opt = Opt { required: false, ..ENVELOPE_OUT };

const NEW_KEY: &str = "\
Every session needs a key of its own: under a key that was used before, old envelopes would be accepted again. So such a
key is refused; `--reuse-key` takes it all the same.";
const NEW_NONCE: &str = "\
Either `--counter` or `--nonce` is needed. A nonce must not repeat under one key: two messages would share keystream, and
whoever sees both envelopes learns how the messages differ. So a counter that is not above the last one under this key in this
state file is refused, and so is any nonce that was used before; no option takes it. Prints the tag of the start, which is the
same at both ends if key and nonce are. With `--expect`, another tag is a `mismatch` with status 9, and nothing is started.";
const IN_TURN: &str = "\
The envelope is handed out once the state is safe, and kept in it: `resend` hands it out again. An end seals only once it has
opened all that the other has sealed: otherwise two messages share keystream.";
const SEALED_ONCE: &str =
    "The envelope is handed out once the state is safe, and kept in it: `resend` hands it out again.";
const OPENED_ONCE: &str = "\
The message is kept in the state: `reread` hands it out again, `forget` removes it. A refused arrival leaves no output. The tag
covers the header too, with the group's number: envelopes that a version before 0.8 has sealed are refused.";
const FORGOTTEN: &str = "\
What was not handed out is not forgotten. Without its envelope a session cannot go on, unless the other end has it.";

const READ_AGAIN: &str = "\
Key and nonce are those that the old session was started with; either `--counter` or `--nonce` is needed. Nothing is sealed in it,
so it may be read again from its start, as often as is wanted: in another state file, or here with `--replace`. Prints the tag of the
start, as the first version did. With `--expect`, another tag is a `mismatch` with status 9, and nothing is started.";
const BOX_OPENED: &str = "\
Opens the letters of the files in the order given; a file may hold several, one after the other. Each message goes to a new file
NUMBER-NAME.message in the folder, where NUMBER is the letter's place in its session and NAME its file's name, and metadata, if there
are any, go to NUMBER-NAME.metadata. Stops at the first letter that does not open, says which one, and which letter of the box
belongs there; what was opened before stays opened. Letters that were opened in an earlier run are known by their bytes: once the
order is mended, run it over the whole box again. At the end prints a report on all letters. The status of a refusal is 10 and its
number; 6 is an envelope of another group or with another letter than F.";
const ONLY_OPENED: &str = "\
Sessions of the first version only open letters: this is always refused, with status 28. `group seal`, `office seal` and `sane seal`
seal messages today.";

const CODES_CHANGE: &str = "\
Codes belong to the session as it stands and change with the next message that is sealed or opened here. So both ends have
the same codes only while they stand at the same message. The state file stays as it is, and nothing is counted.";
const EVERY_GROUP: &str = "\
Every group may spend the allowance by itself, and every group's count starts at 0 again. A group that has spent it does not
hinder the others.";
const NEARLY_FULL: &str = "\
Prints the number of the lowest group that is open with an index above the mark; with `--all` the numbers of all such groups, in
rising order; or `none` if there is no such group. An index may reach 1048576. A group that is opened again starts at 0.";
const CODE_CHECKED: &str = "\
Prints `match`, or `mismatch` with status 9. The code's 16 digits may be in either case, and between the groups of four may
be hyphens, or spaces, if the whole is in quotes. A code of the session before its last message is a mismatch.";

const POOLED: &str = "\
An issue line is `group,size,first,last,day` and a line feed, as 7,C,12001,12100,20250304. All lines are tried in their order, and
those that are accepted are committed together at the end; with `--all-or-none` only if no line is refused. Then prints each refused
line's place with number and reason, and what was added. The status is that of the first refusal, 10 and its number: 23 this is
not a line, 24 a number of it is in the pool already, 25 the pool would need more than 256 runs. With `--windows`, before 24 and 25:
26 the line's day does not exist in 1900 to 2199, or the window of its size has a date that no year has; 27 the day is outside that
window. A windows file has a line for each size, A to H, as C,0301,0930: size, opening and closing, as month and day.";
const SHOWN: &str = "\
Prints the runs and rings of each size, and then the runs. A table with commas has the sizes, or with `--runs` the runs.";
const FOUND: &str = "\
SIZE is a letter, A to H, and NUMBER is 1 to 99999999. Prints `pooled` with the run that the ring is in, or `not pooled` with
status 9.";

const FIRST_DAY: &str = "\
SIZE is a letter, A to H, and DAY eight digits, as 20250304. Prints the first day from this one on that the size's window permits, or
`none` if none up to 21991231 is. With `--in` instead, prints a line for each issue line: its first permitted day, or `none`, or its
place with number and reason if it is refused. The status is that of the first refusal, 10 and its number: 23 this is not an issue
line, 26 its day does not exist in 1900 to 2199, or the window of its size has a date that no year has. A windows file has a line for
each size, A to H, as C,0301,0930: size, opening and closing, as month and day.";
const CALENDAR_SHOWN: &str = "\
Prints what each window means in the year, and for each day the letters of the sizes that are open. The page to print is A4.
A windows file has a line for each size, A to H, as C,0301,0930: size, opening and closing, as month and day, both included. A window
that opens later than it closes runs over New Year.";

const CHARGED: &str = "\
An issue line is `group,size,first,last,day` and a line feed, as 7,C,12001,12100,20250304. Its charge is its rings times the price of a
hundred of them, divided by 100, in whole pence, halves upwards. All lines are priced in their order, and those that are accepted are
booked together, with the next receipt; with `--all-or-none` only if no line is refused. The receipt has the charged lines, the totals
and the refused lines; `till receipt` gives it again. Where a line was charged in the last receipt already, nothing is charged, with
status 5, unless `--again` is given; nor is it where the last receipt was not handed out, before `till receipt` does that. The status is
otherwise that of the first refused line, 10 and its number: 23 this is not a line, 26 its day does not exist in 1900 to 2199, 29 its
size is not sold, 32 the till is full. A price file has a line for each size, A to H, as C,250: size, and the price of a hundred rings
in pence, at most 1000000, or 0 for not sold.";
const RECEIPT_AGAIN: &str = "\
The last receipt is worked out again from what the state file has of it, and has the same bytes in each format. Nothing is charged. A
receipt that `till charge` could not hand out waits for this command, and nothing more is charged before.";
const TILL_SHOWN: &str = "\
Prints how many receipts there are, whether the last one was handed out, how many lines of at most 65536 were charged, the total
charged, the exact total, and how far these lie apart: at most half a penny for each line.";
const PRICES_SHOWN: &str = "\
Prints each size's price for a hundred rings, in pence and in pounds, or `not sold`; or what is wrong with the file, and in which line. A
price file has a line for each size, A to H, as C,250: size, and the price of a hundred rings in pence, at most 1000000, or 0 for not
sold.";

/// All commands.
pub const COMMANDS: &[Command] = &[
    Command {
        id: Id::OfficeCreate,
        area: "office",
        name: "create",
        words: "",
        about: "create the office's state file: 32 closed groups",
        options: &[STATE, WAIT],
        more: "",
    },
    Command {
        id: Id::OfficeDay,
        area: "office",
        name: "day",
        words: "",
        about: "begin a day with an allowance for each group",
        options: &[STATE, ALLOWANCE, WAIT, RESTORE],
        more: EVERY_GROUP,
    },
    Command {
        id: Id::OfficeOpenGroup,
        area: "office",
        name: "open-group",
        words: "",
        about: "open a group from a key file",
        options: &[STATE, GROUP, KEY, REPLACE, REUSE_KEY, WAIT, RESTORE],
        more: NEW_KEY,
    },
    Command {
        id: Id::OfficeSeal,
        area: "office",
        name: "seal",
        words: "",
        about: "seal a message for a group into an envelope",
        options: &[STATE, GROUP, MESSAGE, METADATA, METADATA_TEXT, ENVELOPE_OUT, WAIT, RESTORE],
        more: SEALED_ONCE,
    },
    Command {
        id: Id::OfficeOpen,
        area: "office",
        name: "open",
        words: "",
        about: "open an envelope that arrived from a group",
        options: &[STATE, IN, FROM, MESSAGE_OUT, METADATA_OUT, WAIT, RESTORE],
        more: OPENED_ONCE,
    },
    Command {
        id: Id::OfficeResend,
        area: "office",
        name: "resend",
        words: "",
        about: "hand out a group's last envelope again",
        options: &[STATE, GROUP, ENVELOPE_OUT, WAIT, RESTORE],
        more: "",
    },
    Command {
        id: Id::OfficeReread,
        area: "office",
        name: "reread",
        words: "",
        about: "hand out a group's last message again",
        options: &[STATE, GROUP, MESSAGE_OUT, METADATA_OUT, WAIT, RESTORE],
        more: "",
    },
    Command {
        id: Id::OfficeForget,
        area: "office",
        name: "forget",
        words: "",
        about: "remove a group's last message from the state file",
        options: &[STATE, GROUP, ENVELOPE, WAIT, RESTORE],
        more: FORGOTTEN,
    },
    Command {
        id: Id::OfficeNearlyFull,
        area: "office",
        name: "nearly-full",
        words: "",
        about: "name the lowest group whose index is above a mark",
        options: &[STATE, MARK, ALL, WAIT, RESTORE],
        more: NEARLY_FULL,
    },
    Command {
        id: Id::OfficeCodes,
        area: "office",
        name: "codes",
        words: "",
        about: "list the codes of a group's packets",
        options: &[STATE, GROUP, PACKETS, FORMAT, CODES_OUT, WAIT, RESTORE],
        more: CODES_CHANGE,
    },
    Command {
        id: Id::OfficeCheckCode,
        area: "office",
        name: "check-code",
        words: "",
        about: "check a code that was read off a packet",
        options: &[STATE, GROUP, PACKET, CODE, WAIT, RESTORE],
        more: CODE_CHECKED,
    },
    Command {
        id: Id::OfficeShow,
        area: "office",
        name: "show",
        words: "",
        about: "show the allowance, and the groups with their counts",
        options: &[STATE, JSON, WAIT, RESTORE],
        more: "",
    },
    Command {
        id: Id::GroupStart,
        area: "group",
        name: "start",
        words: "",
        about: "start the group's session and its state file",
        options: &[STATE, GROUP, KEY, REPLACE, REUSE_KEY, WAIT, RESTORE],
        more: NEW_KEY,
    },
    Command {
        id: Id::GroupSeal,
        area: "group",
        name: "seal",
        words: "",
        about: "seal a message for the office into an envelope",
        options: &[STATE, MESSAGE, METADATA, METADATA_TEXT, ENVELOPE_OUT, WAIT, RESTORE],
        more: SEALED_ONCE,
    },
    Command {
        id: Id::GroupOpen,
        area: "group",
        name: "open",
        words: "",
        about: "open an envelope that arrived from the office",
        options: &[STATE, IN, FROM, MESSAGE_OUT, METADATA_OUT, WAIT, RESTORE],
        more: OPENED_ONCE,
    },
    Command {
        id: Id::GroupResend,
        area: "group",
        name: "resend",
        words: "",
        about: "hand out the last envelope again",
        options: &[STATE, ENVELOPE_OUT, WAIT, RESTORE],
        more: "",
    },
    Command {
        id: Id::GroupReread,
        area: "group",
        name: "reread",
        words: "",
        about: "hand out the last message again",
        options: &[STATE, MESSAGE_OUT, METADATA_OUT, WAIT, RESTORE],
        more: "",
    },
    Command {
        id: Id::GroupForget,
        area: "group",
        name: "forget",
        words: "",
        about: "remove the last message from the state file",
        options: &[STATE, ENVELOPE, WAIT, RESTORE],
        more: FORGOTTEN,
    },
    Command {
        id: Id::GroupCodes,
        area: "group",
        name: "codes",
        words: "",
        about: "list the codes of packets",
        options: &[STATE, PACKETS, FORMAT, CODES_OUT, WAIT, RESTORE],
        more: CODES_CHANGE,
    },
    Command {
        id: Id::GroupCheckCode,
        area: "group",
        name: "check-code",
        words: "",
        about: "check a code that was read off a packet",
        options: &[STATE, PACKET, CODE, WAIT, RESTORE],
        more: CODE_CHECKED,
    },
    Command {
        id: Id::GroupShow,
        area: "group",
        name: "show",
        words: "",
        about: "show the session",
        options: &[STATE, JSON, WAIT, RESTORE],
        more: "",
    },
    Command {
        id: Id::SaneStart,
        area: "sane",
        name: "start",
        words: "",
        about: "start a session in SANE and its state file",
        options: &[STATE, GROUP, KEY, COUNTER, NONCE, EXPECT, REPLACE, WAIT, RESTORE],
        more: NEW_NONCE,
    },
    Command {
        id: Id::SaneSeal,
        area: "sane",
        name: "seal",
        words: "",
        about: "seal a message for the other end into an envelope",
        options: &[STATE, MESSAGE, METADATA, METADATA_TEXT, ENVELOPE_OUT, WAIT, RESTORE],
        more: IN_TURN,
    },
    Command {
        id: Id::SaneOpen,
        area: "sane",
        name: "open",
        words: "",
        about: "open an envelope that arrived from the other end",
        options: &[STATE, IN, FROM, MESSAGE_OUT, METADATA_OUT, WAIT, RESTORE],
        more: OPENED_ONCE,
    },
    Command {
        id: Id::SaneResend,
        area: "sane",
        name: "resend",
        words: "",
        about: "hand out the last envelope again",
        options: &[STATE, ENVELOPE_OUT, WAIT, RESTORE],
        more: "",
    },
    Command {
        id: Id::SaneReread,
        area: "sane",
        name: "reread",
        words: "",
        about: "hand out the last message again",
        options: &[STATE, MESSAGE_OUT, METADATA_OUT, WAIT, RESTORE],
        more: "",
    },
    Command {
        id: Id::SaneForget,
        area: "sane",
        name: "forget",
        words: "",
        about: "remove the last message from the state file",
        options: &[STATE, ENVELOPE, WAIT, RESTORE],
        more: FORGOTTEN,
    },
    Command {
        id: Id::SaneShow,
        area: "sane",
        name: "show",
        words: "",
        about: "show the session, its counter and its start's tag",
        options: &[STATE, JSON, WAIT, RESTORE],
        more: "",
    },
    Command {
        id: Id::SaeStart,
        area: "sae",
        name: "start",
        words: "",
        about: "start the reading of an old session and its state file",
        options: &[STATE, GROUP, KEY, COUNTER, NONCE, NOTED, REPLACE, WAIT, RESTORE],
        more: READ_AGAIN,
    },
    Command {
        id: Id::SaeOpen,
        area: "sae",
        name: "open",
        words: FILES,
        about: "open a box of old letters, in their order",
        options: &[STATE, FOLDER, REPORT, WAIT, RESTORE],
        more: BOX_OPENED,
    },
    Command {
        id: Id::SaeSeal,
        area: "sae",
        name: "seal",
        words: "",
        about: "is refused, as old sessions only open letters",
        options: &[STATE, NO_MESSAGE, METADATA, METADATA_TEXT, NO_OUT, WAIT, RESTORE],
        more: ONLY_OPENED,
    },
    Command {
        id: Id::SaeShow,
        area: "sae",
        name: "show",
        words: "",
        about: "show the old session and how many letters were opened",
        options: &[STATE, JSON, WAIT, RESTORE],
        more: "",
    },
    Command {
        id: Id::PoolCreate,
        area: "pool",
        name: "create",
        words: "",
        about: "create the state file of an empty pool of unused rings",
        options: &[STATE, WAIT],
        more: "",
    },
    Command {
        id: Id::PoolAdd,
        area: "pool",
        name: "add",
        words: "",
        about: "add issue lines to the pool",
        options: &[STATE, LINES, IN_SEASON, ALL_OR_NONE, WAIT, RESTORE],
        more: POOLED,
    },
    Command {
        id: Id::PoolShow,
        area: "pool",
        name: "show",
        words: "",
        about: "show the runs and rings of each size",
        options: &[STATE, RUNS, CSV, JSON, WAIT, RESTORE],
        more: SHOWN,
    },
    Command {
        id: Id::PoolFind,
        area: "pool",
        name: "find",
        words: "SIZE NUMBER",
        about: "say whether a ring is in the pool",
        options: &[STATE, WAIT, RESTORE],
        more: FOUND,
    },
    Command {
        id: Id::SeasonFirstDay,
        area: "season",
        name: "first-day",
        words: "[SIZE DAY]",
        about: "say on which day rings of a size may first be issued",
        options: &[WINDOWS, ASKED],
        more: FIRST_DAY,
    },
    Command {
        id: Id::SeasonShow,
        area: "season",
        name: "show",
        words: "",
        about: "show a year's calendar of the sizes that are open",
        options: &[WINDOWS, YEAR, CALENDAR, CALENDAR_OUT],
        more: CALENDAR_SHOWN,
    },
    Command {
        id: Id::TillCreate,
        area: "till",
        name: "create",
        words: "",
        about: "create the state file of a till in which nothing is booked",
        options: &[STATE, WAIT],
        more: "",
    },
    Command {
        id: Id::TillCharge,
        area: "till",
        name: "charge",
        words: "",
        about: "charge for the rings of issue lines, with a receipt",
        options: &[STATE, PRICES, TO_CHARGE, RECEIPT, RECEIPT_OUT, CHARGE_ALL_OR_NONE, AGAIN, WAIT, RESTORE],
        more: CHARGED,
    },
    Command {
        id: Id::TillReceipt,
        area: "till",
        name: "receipt",
        words: "",
        about: "give the last receipt again, or one that was not handed out",
        options: &[STATE, RECEIPT, RECEIPT_OUT, WAIT, RESTORE],
        more: RECEIPT_AGAIN,
    },
    Command {
        id: Id::TillShow,
        area: "till",
        name: "show",
        words: "",
        about: "show the receipts, the lines and the totals of the till",
        options: &[STATE, JSON, WAIT, RESTORE],
        more: TILL_SHOWN,
    },
    Command {
        id: Id::TillPrices,
        area: "till",
        name: "prices",
        words: "",
        about: "show the prices of a price file",
        options: &[PRICES],
        more: PRICES_SHOWN,
    },
    Command {
        id: Id::Keygen,
        area: "",
        name: "keygen",
        words: "",
        about: "make a new key of 32 random bytes",
        options: &[KEY_OUT],
        more: "The file is closed to others. It must reach the other end by a way that is safe.",
    },
    Command {
        id: Id::Demo,
        area: "",
        name: "demo",
        words: "",
        about: "play a season in a temporary folder",
        options: &[],
        more: "",
    },
    Command {
        id: Id::Help,
        area: "",
        name: "help",
        words: "[COMMAND ..]",
        about: "print the help text of a command, or the list of commands",
        options: &[],
        more: "",
    },
];
