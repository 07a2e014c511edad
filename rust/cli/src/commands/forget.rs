//! Removing what is kept.

use super::messages::again;
use crate::arguments::Arguments;
use crate::end::End;
use crate::failure::Failure;
use crate::output::tell;
use crate::state::waits;
use crate::state_file::Used;

/// Removes the last message from the state file, and the last envelope where that is wanted. What was not handed out stays.
pub fn forget<E: End>(arguments: &Arguments) -> Result<(), Failure> {
    let mut used = Used::<E>::open(arguments)?;
    let group = used.state.group(arguments)?;
    let kept = used.state.kept(group)?;
    if waits(&kept.message) {
        return Err(not_handed_out::<E>("message", "reread", group, arguments));
    }
    let mut found = kept.message.take().is_some();
    if arguments.has("envelope") {
        if waits(&kept.envelope) {
            return Err(not_handed_out::<E>("envelope", "resend", group, arguments));
        }
        found |= kept.envelope.take().is_some();
    }
    if found {
        used.commit()?;
    }
    tell(&format!(
        "{} is forgotten for group {group}.",
        if found { "What was kept" } else { "Nothing was kept: nothing" }
    ));
    Ok(())
}

fn not_handed_out<E: End>(what: &str, command: &str, group: u32, arguments: &Arguments) -> Failure {
    let again = again::<E>(command, group, arguments);
    Failure::NotNow(format!("The {what} was not handed out: do that first, with `{again}`."))
}
