//! A second, independent reading of the requirements paper, for tests only.
//!
//! It is written straight from the paper and favours obviousness. Section
//! names in the comments are the paper's; "CR 1", "CR 2", "CR 4" and "CR 6" are
//! the change requests of those numbers. Octet numbers in the comments count from
//! 1, as in the paper; indices in the code count from 0.

mod binds;
mod carry_over;
mod codes;
mod commands;
mod groups;
mod header;
mod links;
mod reason;
mod recipients;
mod sessions;
mod tables;
mod unit_set;

pub use carry_over::carry_over;
pub use header::{copy, read};
pub use links::links;
pub use reason::reasons;

use codes::INVALID_ARGUMENT;
use commands::Command;
use header::Header;
use tables::{address_in_range, device_of, free_where, word, Tables};
use unit_set::UnitSet;

/// The outcome numbers ("Outcomes").
mod outcome {
    pub const DONE: u8 = 0;
    pub const FORWARDED: u8 = 1;
    pub const NOBODY: u8 = 2;
    pub const LENGTH: u8 = 10;
    pub const DATA_LENGTH: u8 = 11;
    pub const TYPE: u8 = 12;
    pub const NO_SOURCE: u8 = 13;
    pub const NO_DESTINATION: u8 = 14;
    pub const RESPONSE_TO_MANY: u8 = 15;
    pub const NOT_SOUND: u8 = 16;
    pub const ROOM: u8 = 17;
    pub const NO_COMMAND: u8 = 18;
    pub const COPY: u8 = 19;
    pub const ADMIT_RANGE: u8 = 20;
    pub const ALREADY_ADMITTED: u8 = 21;
    pub const NO_FREE_RECORD: u8 = 22;
    pub const NOT_ADMITTED: u8 = 23;
}

/// Octets before the payload ("The message": octet 16 is the first of it).
pub(crate) const HEADER: usize = 15;
/// Longest message, and least room for a reply ("The message", outcome 17).
pub(crate) const LONGEST: usize = 500;
/// Highest device and group address ("Tables").
pub(crate) const HIGHEST_ADDRESS: u16 = 0x7FFE;
/// Device number of the bind address D'7FFF:U'FF ("Recipients").
pub(crate) const BIND_DEVICE: u16 = 0x7FFF;
/// Unit of the bind address; no unit of any device ("Tables").
pub(crate) const NO_UNIT: u8 = 0xFF;

/// Serves a command or finds the recipients of a message. `count` becomes the
/// reply's length (outcome 0), the number of recipients (1) or 0; `reason` and
/// `octet` say what is wrong with an Add Bind that gets 0x02, and else become 0.
#[allow(clippy::too_many_arguments)]
pub fn message(
    devices: &mut [u8],
    binds: &mut [u8],
    groups: &mut [u8],
    members: &mut [u8],
    sessions: &mut [u8],
    msg: &[u8],
    reply: &mut [u8],
    list: &mut [u8],
    count: &mut usize,
    reason: &mut u8,
    octet: &mut u8,
) -> u8 {
    *count = 0;
    (*reason, *octet) = reason::NONE;
    // "Order for a message: 17, 16, 10, 11, 12, 13, 15, then 18 or 14".
    if reply.len() < LONGEST || list.len() < least_list(binds, members) {
        return outcome::ROOM;
    }
    if !tables::sound(devices, binds, groups, members, sessions) {
        return outcome::NOT_SOUND;
    }
    let header = match Header::of(msg) {
        Ok(header) => header,
        Err(refusal) => return refusal,
    };
    if !tables::unit_exists(devices, header.source, header.source_unit) {
        return outcome::NO_SOURCE;
    }
    if header.is_response() && (header.to_group || header.to_bind_address()) {
        return outcome::RESPONSE_TO_MANY;
    }
    if header.to_concentrator() {
        let tables = Tables {
            devices,
            binds,
            groups,
            members,
            sessions,
        };
        return match commands::named_by(&header) {
            None => outcome::NO_COMMAND,
            Some(command) => {
                let payload = &msg[HEADER..];
                // Asked of the tables as they are lent, and given with 0x02 alone.
                let first = match command {
                    Command::AddBind => reason::first(payload, &tables),
                    _ => reason::NONE,
                };
                *count = commands::serve(command, &header, payload, tables, reply);
                if reply[HEADER] == INVALID_ARGUMENT {
                    (*reason, *octet) = first;
                }
                outcome::DONE
            }
        };
    }
    if !destination_exists(devices, groups, &header) {
        return outcome::NO_DESTINATION;
    }
    let recipients = recipients::of(&header, binds, members);
    *count = recipients.write(list);
    if *count == 0 {
        outcome::NOBODY
    } else {
        outcome::FORWARDED
    }
}

/// "3 × max(1, bind records + member records), free ones counted, lengths
/// divided down" (outcome 17). Asked before the tables are known to be sound.
fn least_list(binds: &[u8], members: &[u8]) -> usize {
    3 * (binds.len() / tables::BIND + members.len() / tables::MEMBER).max(1)
}

/// Outcome 14. D'0:U'0 has been dealt with before; the bind address exists.
fn destination_exists(devices: &[u8], groups: &[u8], header: &Header) -> bool {
    if header.to_group {
        tables::group_exists(groups, header.destination)
    } else {
        header.to_bind_address()
            || tables::unit_exists(devices, header.destination, header.destination_unit)
    }
}

/// Admits a device ("Outcomes": 16, 20, 21, 22, else 0).
#[allow(clippy::too_many_arguments)]
pub fn admit(
    devices: &mut [u8],
    binds: &[u8],
    groups: &[u8],
    members: &[u8],
    sessions: &[u8],
    address: u16,
    rights: u8,
    units: &UnitSet,
) -> u8 {
    if !tables::sound(devices, binds, groups, members, sessions) {
        return outcome::NOT_SOUND;
    }
    if !address_in_range(address) || rights > 1 || !unit_set::in_range(units) {
        return outcome::ADMIT_RANGE;
    }
    if tables::admitted(devices, address) {
        return outcome::ALREADY_ADMITTED;
    }
    if tables::store(devices, &device_of(address, rights, units)) {
        outcome::DONE
    } else {
        outcome::NO_FREE_RECORD
    }
}

/// Releases a device ("Outcomes": 16, 23, else 0).
pub fn release(
    devices: &mut [u8],
    binds: &mut [u8],
    groups: &[u8],
    members: &mut [u8],
    sessions: &mut [u8],
    address: u16,
) -> u8 {
    if !tables::sound(devices, binds, groups, members, sessions) {
        return outcome::NOT_SOUND;
    }
    if !free_where(devices, tables::DEVICE, |device| word(device, 0) == address) {
        return outcome::NOT_ADMITTED;
    }
    // "Release takes the device, its members and all binds that name it as
    // source or individual destination" ("Commands and codes"). An admitted
    // address has its top bit clear, so octets 6-7 of a bind equal it only if
    // they are of individual type: G' with the same number stays. It is at most
    // 0x7FFE, so no bind of any device ("CR 4") names it by its source.
    free_where(members, tables::MEMBER, |member| word(member, 2) == address);
    binds::free(binds, sessions, |bind| {
        word(bind, 0) == address || word(bind, 5) == address
    });
    // "a release closes that device's", whether a bind names it or not ("CR 1").
    sessions::close(sessions, address);
    outcome::DONE
}
