//! Response codes: the first octet of a reply's payload, `reply[HEADER_LENGTH]`.

pub const OK: u8 = 0x00;
pub const NOT_AUTHORIZED: u8 = 0x01;
pub const INVALID_ARGUMENT: u8 = 0x02;
/// A read without a session.
pub const NO_SESSION: u8 = 0x20;
pub const NOT_ENOUGH_RESOURCES: u8 = 0xFE;
/// An end without a session.
pub const UNKNOWN_REASON: u8 = 0xFF;
