//! The proved calls behind safe functions. All foreign code that the tool runs is called in this folder.
//! The protocol is in the calls; what stands here lends memory and reads bytes.

mod day;
mod raw;
mod reports;
mod site;
mod values;

pub use day::{Day, Window};
pub use raw::{Tally, TALLY_EPOCHS};
pub use reports::{reduce, Report, Rule, TOP_SCRIPT};
pub use site::{Site, DONE};
pub use values::{Event, Kind, Packet, Row, Settings, Shown, State};
