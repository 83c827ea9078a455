//! The seven messages of reading binds back, from a unit of a device to D'0:U'0.
//!
//! Each asks for a response (type 0x02). The application's reference, octet 9, is 0; who uses it writes it: `message[8] = 5`.

use crate::bind::Address;
use crate::lengths::HEADER_LENGTH;

/// Members of Bind Management.
const START: u8 = 0x07;
const END: u8 = 0x08;
const BY_INDEX: u8 = 0x09;
const BY_SOURCE: u8 = 0x0A;
const BY_SOURCE_UNIT: u8 = 0x0B;
const BY_DESTINATION: u8 = 0x0C;
const BY_DESTINATION_UNIT: u8 = 0x0D;

/// Opens the session of the sender's device, or goes on with the one it has.
pub const fn start(sender: (u16, u8)) -> [u8; HEADER_LENGTH] {
    message(sender, START, &[])
}

/// Closes the session of the sender's device.
pub const fn end(sender: (u16, u8)) -> [u8; HEADER_LENGTH] {
    message(sender, END, &[])
}

/// Asks for `number` binds, from this index on: binds are counted from 0 in the order of the table, free records left out.
pub const fn by_index(sender: (u16, u8), index: u16, number: u8) -> [u8; HEADER_LENGTH + 3] {
    let [a, b] = index.to_be_bytes();
    message(sender, BY_INDEX, &[a, b, number])
}

/// Asks for the binds of a source device. `None` where its number needs more than 15 bits.
pub const fn by_source(sender: (u16, u8), device: u16) -> Option<[u8; HEADER_LENGTH + 2]> {
    match Address::Device(device).to_octets() {
        Some(octets) => Some(message(sender, BY_SOURCE, &octets)),
        None => None,
    }
}

/// Asks for the binds of one unit of a source device. `None` where the device's number needs more than 15 bits.
pub const fn by_source_unit(
    sender: (u16, u8),
    device: u16,
    unit: u8,
) -> Option<[u8; HEADER_LENGTH + 3]> {
    match Address::Device(device).to_octets() {
        Some([a, b]) => Some(message(sender, BY_SOURCE_UNIT, &[a, b, unit])),
        None => None,
    }
}

/// Asks for the binds that lead to a device, whichever its unit, or to a group. `None` where the number needs more than 15 bits.
pub const fn by_destination(sender: (u16, u8), to: Address) -> Option<[u8; HEADER_LENGTH + 2]> {
    match to.to_octets() {
        Some(octets) => Some(message(sender, BY_DESTINATION, &octets)),
        None => None,
    }
}

/// Asks for the binds that lead to one unit of a device, or to a group with this octet behind it. `None` where the number needs more than 15 bits.
pub const fn by_destination_unit(
    sender: (u16, u8),
    to: Address,
    unit: u8,
) -> Option<[u8; HEADER_LENGTH + 3]> {
    match to.to_octets() {
        Some([a, b]) => Some(message(sender, BY_DESTINATION_UNIT, &[a, b, unit])),
        None => None,
    }
}

/// The header and the payload behind it, N octets together, to the server interface of Bind Management.
const fn message<const N: usize>(sender: (u16, u8), member: u8, payload: &[u8]) -> [u8; N] {
    let (device, unit) = sender;
    let [a, b] = device.to_be_bytes();
    let length = payload.len() as u8;
    let header = [
        a, b, unit, 0, 0, 0, 0, 0, 0, 0x02, 0x80, 0x02, member, 0, length,
    ];
    let mut octets = [0; N];
    let (before, behind) = octets.split_at_mut(HEADER_LENGTH);
    before.copy_from_slice(&header);
    behind.copy_from_slice(payload);
    octets
}
