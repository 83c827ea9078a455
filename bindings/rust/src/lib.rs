//! The bind and group part of a HAN-FUN concentrator: safe calls of the proved library `libgneissfold.a`.
//!
//! The library has no state. The caller keeps the five tables, and lends them to each call; [`Tables`] keeps them at full size. A site whose
//! device records have 4 octets begins with [`carry_over`] or [`Tables::carried_over`].
//! A fitter's device reads the binds back and compares them with the sheet by [`Tables::read_binds`] and [`compare`]; [`reading`] has the parts.
//! Where an Add Bind is answered 0x02, [`message`] also gives a [`Reason`], which says what is wrong with the bind, and at which octet.
//! Every call answers on any octets and any lengths, and its whole answer is proved (`crates/gneissfold` of the repository).
//! What C leaves to the caller, that no pointer is null and that nothing lent to be written overlaps, Rust's references say.
#![no_std]

pub mod any;
mod bind;
mod binds;
mod calls;
pub mod code;
mod comparing;
mod fields;
mod lengths;
mod outcome;
mod raw;
pub mod reading;
mod reason;
mod tables;
mod units;

pub use bind::{Address, Bind, Role};
pub use binds::Binds;
pub use calls::{admit, carry_over, copy, message, recipients, release};
pub use comparing::{compare, Comparison};
pub use fields::{read, Fields};
pub use lengths::{
    BINDS_LENGTH, BIND_SIZE, DEVICES_LENGTH, GROUPS_LENGTH, HEADER_LENGTH, LIST_LENGTH, LONGEST,
    MEMBERS_LENGTH, MOST_BINDS, MOST_ENTRIES, OLD_DEVICES_LENGTH, RECIPIENT_SIZE, SESSIONS_LENGTH,
    UNITS_LENGTH,
};
pub use outcome::Outcome;
pub use reading::ReadError;
pub use reason::Reason;
pub use tables::{Tables, FREE};
pub use units::Units;
