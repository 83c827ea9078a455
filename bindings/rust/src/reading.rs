//! Binds read back: the messages, what the replies say, and one call for the whole.
//!
//! A device with rights opens a session with [`start`], reads in it and closes it with [`end`]. The session is the device's, whichever of its units reads;
//! at most 8 devices have one. Any change to the binds closes every session, and a read without one is answered
//! [`NO_SESSION`](crate::code::NO_SESSION): what was read before is then no longer the table, and one starts again. So pages that
//! were read in one session are one table. One unit of a device reads at a time: a start by another one after a change would hide
//! the change. [`read_all`] does all that; a host whose tables are at hand calls
//! [`Tables::read_binds`](crate::Tables::read_binds).
//!
//! A read gives at most [`MOST_ENTRIES`](crate::MOST_ENTRIES), in the order of the table. By index there are further pages; by address there are none, and who
//! gets 60 reads by index. By address "any" is a number like others: [`by_source`] with [`any::DEVICE`](crate::any::DEVICE) gives the
//! binds of any device, and no others.

mod all;
mod error;
mod messages;
mod replies;

pub use all::{read_all, MOST_STARTS};
pub use error::ReadError;
pub use messages::{
    by_destination, by_destination_unit, by_index, by_source, by_source_unit, end, start,
};
pub use replies::{ended, entries, started, Entries};
