//! The response codes, and a reply that is one of them alone.

pub const OK: u8 = 0x00;
pub const NOT_AUTHORIZED: u8 = 0x01;
pub const INVALID_ARGUMENT: u8 = 0x02;
/// "Read session not established" (Tables 51, 55, 59, 63 and 67).
pub const NO_SESSION: u8 = 0x20;
pub const NOT_ENOUGH_RESOURCES: u8 = 0xFE;
pub const UNKNOWN_REASON: u8 = 0xFF;

/// "A code other than 0x00 is a one-octet reply .. 0x00 is one octet too
/// unless more is named."
pub fn alone(code: u8, out: &mut [u8]) -> usize {
    out[0] = code;
    1
}

/// "0x02 if nothing matches", or if what is named is absent.
pub fn ok_if(found: bool) -> u8 {
    if found {
        OK
    } else {
        INVALID_ARGUMENT
    }
}

/// "0xFE if and only if no free record".
pub fn ok_if_room(stored: bool) -> u8 {
    if stored {
        OK
    } else {
        NOT_ENOUGH_RESOURCES
    }
}
