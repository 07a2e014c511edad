//! Showing what a state file holds, to people and to scripts.

use std::fmt::Write as _;
use std::io::Write;

use pevghazo::{GROUPS, Group, SaneSession, Session};

use crate::arguments::Arguments;
use crate::failure::Failure;
use crate::output::print;
use crate::starts::{Start, Starts};
use crate::state::{Held, Kept, Lone, Mode, Office, Sae};
use crate::state_file::Used;
use crate::tag::StartTag;

/// What is shown of one session.
struct Shown<'a> {
    group: u32,
    is_open: bool,
    index: u32,
    toggle: bool,
    kept: &'a Kept,
}

impl Shown<'_> {
    /// For people, after the group's number.
    fn line(&self) -> String {
        format!(
            "index {:7}, toggle {}, last envelope {}, last message {}",
            self.index,
            u8::from(self.toggle),
            word(&self.kept.envelope),
            word(&self.kept.message),
        )
    }

    /// For scripts: the members of a JSON object.
    fn members(&self) -> String {
        format!(
            r#""group":{},"open":{},"index":{},"toggle":{},"envelope":"{}","message":"{}""#,
            self.group,
            self.is_open,
            self.index,
            u8::from(self.toggle),
            json_word(&self.kept.envelope),
            json_word(&self.kept.message),
        )
    }
}

/// Shows the office's table: the groups that are open, and those that have a count of the day all the same.
pub fn office(arguments: &Arguments, out: &mut dyn Write) -> Result<(), Failure> {
    let mut used = Used::<Office>::open(arguments)?;
    let (commit, keys, allowance) = (used.generation(), used.state.keys.count(), used.state.table.allowance());
    let groups: Vec<_> = used.state.table.groups().filter(|group| group.is_open || group.count > 0).collect();
    // What is left is never wider, nor is a count that the library let through.
    let width = allowance.to_string().len();
    let mut lines = String::new();
    let mut objects = Vec::new();
    for Group { group, is_open, index, toggle, count } in groups {
        let left = used.state.table.left(group).unwrap_or(0);
        let shown = Shown { group, is_open, index, toggle, kept: used.state.kept(group)? };
        let session = if is_open { shown.line() } else { "closed".to_string() };
        let _ = writeln!(lines, "group {group:2}: count {count:width$}, left {left:width$}, {session}");
        objects.push(format!(r#"{{{},"count":{count},"left":{left}}}"#, shown.members()));
    }
    let text = if arguments.has("json") {
        let groups = objects.join(",");
        format!("{{\"commit\":{commit},\"keys\":{keys},\"allowance\":{allowance},\"groups\":[{groups}]}}\n")
    } else {
        let closed = used.state.table.groups().filter(|group| !group.is_open).count();
        format!("day: allowance {allowance} for each group\n{lines}closed: {closed} of {GROUPS} groups\n")
    };
    print(out, &text)
}

/// Shows a group's session.
pub fn group(arguments: &Arguments, out: &mut dyn Write) -> Result<(), Failure> {
    lone::<Session>(arguments, out, |_| String::new(), |keys| format!(r#""keys":{}"#, keys.count()))
}

/// Shows a session in SANE, and how it was started.
pub fn sane(arguments: &Arguments, out: &mut dyn Write) -> Result<(), Failure> {
    let line = |starts: &Starts| format!("mode SANE, {}\n", start_line(starts.last()));
    let members =
        |starts: &Starts| format!(r#""keys":{},"mode":"sane",{}"#, starts.keys(), start_members(starts.last()));
    lone::<SaneSession>(arguments, out, line, members)
}

/// Shows a session of the first version, how it was started, and how many of its letters were opened.
pub fn sae(arguments: &Arguments, out: &mut dyn Write) -> Result<(), Failure> {
    let used = Used::<Sae>::open(arguments)?;
    let Sae { group, session, start, opened } = &used.state;
    let (is_open, index, letters) = (session.is_open(), session.index(), opened.count());
    let text = if arguments.has("json") {
        let session = format!(r#""group":{group},"open":{is_open},"index":{index},"letters":{letters}"#);
        format!("{{\"commit\":{},\"mode\":\"sae\",{},{session}}}\n", used.generation(), start_members(*start))
    } else {
        let open = if is_open { "open" } else { "closed" };
        format!(
            "group {group:2}: {open}, index {index:7}, letters opened {letters}\nmode SAE, {}\n",
            start_line(*start)
        )
    };
    print(out, &text)
}

/// For people: how a session was started.
fn start_line(start: Start) -> String {
    let nonce = start.counter.map_or("nonce of a file".to_string(), |counter| format!("counter {counter}"));
    format!("{nonce}, tag {}", StartTag::from(start.tag))
}

/// For scripts: the same, as members of a JSON object.
fn start_members(start: Start) -> String {
    let counter = start.counter.map_or("null".to_string(), |counter| counter.to_string());
    format!(r#""counter":{counter},"tag":"{}""#, StartTag::from(start.tag))
}

/// Shows a lone session, and what is to be said of its start: a line for people, and members of the JSON object for scripts.
fn lone<S: Mode>(
    arguments: &Arguments,
    out: &mut dyn Write,
    line: impl Fn(&S::Starts) -> String,
    members: impl Fn(&S::Starts) -> String,
) -> Result<(), Failure> {
    let used = Used::<Lone<S>>::open(arguments)?;
    let Lone { group, session, kept, starts } = &used.state;
    let shown =
        Shown { group: *group, is_open: session.is_open(), index: session.index(), toggle: session.toggle(), kept };
    let text = if arguments.has("json") {
        format!("{{\"commit\":{},{},{}}}\n", used.generation(), members(starts), shown.members())
    } else {
        let open = if shown.is_open { "open" } else { "closed" };
        format!("group {group:2}: {open}, {}\n{}", shown.line(), line(starts))
    };
    print(out, &text)
}

/// What is said of something kept.
pub fn word<T>(held: &Option<Held<T>>) -> &'static str {
    match held {
        None => "none",
        Some(Held { handed_out: true, .. }) => "handed out",
        Some(_) => "WAITING",
    }
}

/// The same for scripts.
pub fn json_word<T>(held: &Option<Held<T>>) -> &'static str {
    match held {
        None => "none",
        Some(Held { handed_out: true, .. }) => "handed-out",
        Some(_) => "waiting",
    }
}
