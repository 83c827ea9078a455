//! Random tables and messages, biased to what is likely to matter.

mod any;
mod commands;
mod crowded;
mod forwarded;
mod message;
mod old;
mod reading;
mod records;
mod sessions;
mod sound;
mod units;
mod unsound;
mod view;
mod wrong;

pub use any::request_for;
pub use commands::COMMANDS;
pub use crowded::crowded_world;
pub use forwarded::REQUESTS;
pub use message::damage;
pub use old::{new_devices, old_devices};
pub use records::{used, word, BIND, DEVICE, MOST, SESSION};
pub use sound::{constructed_world, free_world};
pub use units::{has, near, perhaps_set, set_of, some_unit, UnitSet};
pub use unsound::{random_world, spoil};
pub use view::{some_address, View, UIDS};
