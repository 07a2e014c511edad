//! The commands of the office alone.

use std::io::Write;

use super::messages::again;
use crate::arguments::Arguments;
use crate::end::End;
use crate::failure::Failure;
use crate::input;
use crate::output::{print, tell};
use crate::state::{Office, waits};
use crate::state_file::{Used, create as create_file};

/// Creates the state file.
pub fn create(arguments: &Arguments) -> Result<(), Failure> {
    create_file(arguments, &Office::new())?;
    tell("Created: 32 closed groups, allowance 0.");
    Ok(())
}

/// Begins a day, with the same allowance for every group.
pub fn day(arguments: &Arguments) -> Result<(), Failure> {
    let allowance = arguments.required_number("allowance")?;
    let mut used = Used::<Office>::open(arguments)?;
    used.state.table.start_day(allowance);
    used.commit()?;
    tell(&format!("A day begins: every group may spend {allowance} permutations, and all counts are 0."));
    Ok(())
}

/// Opens a group.
pub fn open_group(arguments: &Arguments) -> Result<(), Failure> {
    let group = arguments.required_number("group")?;
    let key = input::key(arguments)?;
    let mut used = Used::<Office>::open(arguments)?;
    let open = used.state.table.group(group).is_some_and(|group| group.is_open);
    if open && !arguments.has("replace") {
        return Err(Failure::NotNow(format!(
            "Group {group} is open: `--replace` gives up its session and starts another."
        )));
    }
    if waits(&used.state.kept(group)?.message) {
        return Err(Failure::NotNow(format!(
            "A message of group {group} was opened and not handed out: do that first, with `{}`.",
            again::<Office>("reread", group, arguments)
        )));
    }
    used.state.keys.add(&key, arguments.has("reuse-key"))?;
    let opened = used.state.table.open_group(group, &key);
    opened.map_err(|refusal| used.state.refused(group, refusal))?;
    *used.state.kept(group)? = Default::default();
    used.commit()?;
    tell(&format!("Group {group} is open."));
    Ok(())
}

/// Names the lowest group that is nearly full, or lists all of them.
pub fn nearly_full(arguments: &Arguments, out: &mut dyn Write) -> Result<(), Failure> {
    let mark = arguments.required_number("mark")?;
    let used = Used::<Office>::open(arguments)?;
    let table = &used.state.table;
    let groups: Vec<u32> = if arguments.has("all") {
        table.all_nearly_full(mark).collect()
    } else {
        table.nearly_full(mark).into_iter().collect()
    };
    let lines: String = groups.iter().map(|group| format!("{group}\n")).collect();
    print(out, if lines.is_empty() { "none\n" } else { &lines })
}
