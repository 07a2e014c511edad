//! What each command of the table does.

mod codes;
mod demo;
mod forget;
mod keygen;
mod messages;
mod office;
mod pool;
mod sae;
mod season;
mod show;
mod start;
mod till;

use std::io::Write;

use crate::arguments::Arguments;
use crate::failure::Failure;
use crate::help;
use crate::output::print;
use crate::state::{Group, Office, Sane};
use crate::table::{Command, Id};

/// Runs a command; `out` is the standard output.
pub fn run(command: &Command, arguments: &Arguments, out: &mut dyn Write) -> Result<(), Failure> {
    match command.id {
        Id::OfficeCreate => office::create(arguments),
        Id::OfficeDay => office::day(arguments),
        Id::OfficeOpenGroup => office::open_group(arguments),
        Id::OfficeSeal => messages::seal::<Office>(arguments, out),
        Id::OfficeOpen => messages::open::<Office>(arguments, out),
        Id::OfficeResend => messages::resend::<Office>(arguments, out),
        Id::OfficeReread => messages::reread::<Office>(arguments, out),
        Id::OfficeForget => forget::forget::<Office>(arguments),
        Id::OfficeNearlyFull => office::nearly_full(arguments, out),
        Id::OfficeCodes => codes::codes::<Office>(arguments, out),
        Id::OfficeCheckCode => codes::check::<Office>(arguments, out),
        Id::OfficeShow => show::office(arguments, out),
        Id::GroupStart => start::group(arguments),
        Id::GroupSeal => messages::seal::<Group>(arguments, out),
        Id::GroupOpen => messages::open::<Group>(arguments, out),
        Id::GroupResend => messages::resend::<Group>(arguments, out),
        Id::GroupReread => messages::reread::<Group>(arguments, out),
        Id::GroupForget => forget::forget::<Group>(arguments),
        Id::GroupCodes => codes::codes::<Group>(arguments, out),
        Id::GroupCheckCode => codes::check::<Group>(arguments, out),
        Id::GroupShow => show::group(arguments, out),
        Id::SaneStart => start::sane(arguments, out),
        Id::SaneSeal => messages::seal::<Sane>(arguments, out),
        Id::SaneOpen => messages::open::<Sane>(arguments, out),
        Id::SaneResend => messages::resend::<Sane>(arguments, out),
        Id::SaneReread => messages::reread::<Sane>(arguments, out),
        Id::SaneForget => forget::forget::<Sane>(arguments),
        Id::SaneShow => show::sane(arguments, out),
        Id::SaeStart => start::sae(arguments, out),
        Id::SaeOpen => sae::open(arguments, out),
        Id::SaeSeal => sae::seal(arguments),
        Id::SaeShow => show::sae(arguments, out),
        Id::PoolCreate => pool::create(arguments),
        Id::PoolAdd => pool::add(arguments, out),
        Id::PoolShow => pool::show(arguments, out),
        Id::PoolFind => pool::find(arguments, out),
        Id::SeasonFirstDay => season::first_day(arguments, out),
        Id::SeasonShow => season::show(arguments, out),
        Id::TillCreate => till::create(arguments),
        Id::TillCharge => till::charge(arguments, out),
        Id::TillReceipt => till::receipt(arguments, out),
        Id::TillShow => till::show(arguments, out),
        Id::TillPrices => till::prices(arguments, out),
        Id::Keygen => keygen::keygen(arguments, out),
        Id::Demo => demo::run(out, run),
        Id::Help => print(out, &help::list("")),
    }
}
