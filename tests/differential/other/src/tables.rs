//! The tables ("Tables"), devices as "CR 2" lays them out, and binds with
//! the special values of "CR 4"; beside them the sessions of "CR 1".

use crate::sessions;
use crate::unit_set::{self, UnitSet, UNIT_SET};
use crate::{HIGHEST_ADDRESS, NO_UNIT};

/// Octets of one record. A device's: "address 2, rights 1, one octet 0, then
/// 32 octets with one bit per unit".
pub const DEVICE: usize = 4 + UNIT_SET;
pub const BIND: usize = 8;
pub const GROUP: usize = 16;
pub const MEMBER: usize = 5;

/// Most records of each table.
pub const MOST_DEVICES: usize = 64;
pub const MOST_BINDS: usize = 64;
pub const MOST_GROUPS: usize = 16;
pub const MOST_MEMBERS: usize = 128;

/// Longest name, and where it stands in a group's record.
pub const LONGEST_NAME: usize = 13;
pub const NAME: usize = 3;

/// Source device of a bind that says any device ("CR 4"). No device has it as
/// its address.
pub const ANY_DEVICE: u16 = 0x7FFF;
/// Source unit of a bind that says any unit ("CR 4"). No device has it.
pub const ANY_UNIT: u8 = 0xFF;
/// UID of a bind that says any interface ("CR 4"), of its interface type alone.
pub const ANY_INTERFACE: u16 = 0x7FFF;

/// The tables, lent together.
pub struct Tables<'a> {
    pub devices: &'a mut [u8],
    pub binds: &'a mut [u8],
    pub groups: &'a mut [u8],
    pub members: &'a mut [u8],
    pub sessions: &'a mut [u8],
}

/// "Numbers are most significant octet first" ("The message").
pub fn word(octets: &[u8], at: usize) -> u16 {
    u16::from_be_bytes([octets[at], octets[at + 1]])
}

pub fn put(octets: &mut [u8], at: usize, value: u16) {
    octets[at..at + 2].copy_from_slice(&value.to_be_bytes());
}

/// The 15 bits below a flag or a reserved bit.
pub fn number(word: u16) -> u16 {
    word & 0x7FFF
}

/// The top bit of a word.
pub fn flag(word: u16) -> bool {
    word >> 15 == 1
}

/// "A free record is all 0xFF."
pub fn is_free(record: &[u8]) -> bool {
    record.iter().all(|&octet| octet == 0xFF)
}

/// The records in use, in the table's order.
pub fn used(table: &[u8], size: usize) -> impl Iterator<Item = &[u8]> {
    table.chunks_exact(size).filter(|record| !is_free(record))
}

/// "An addition takes the first free record"; says whether there was one.
pub fn store(table: &mut [u8], record: &[u8]) -> bool {
    let free = table
        .chunks_exact_mut(record.len())
        .find(|there| is_free(there));
    free.map(|there| there.copy_from_slice(record)).is_some()
}

/// Frees every used record that matches; says whether there was one. A free
/// record is never a match.
pub fn free_where(table: &mut [u8], size: usize, matches: impl Fn(&[u8]) -> bool) -> bool {
    let mut found = false;
    for record in table.chunks_exact_mut(size) {
        if !is_free(record) && matches(record) {
            record.fill(0xFF);
            found = true;
        }
    }
    found
}

/// Whether a used record is the same octets.
pub fn present(table: &[u8], record: &[u8]) -> bool {
    used(table, record.len()).any(|there| there == record)
}

fn device_record(devices: &[u8], address: u16) -> Option<&[u8]> {
    used(devices, DEVICE).find(|device| word(device, 0) == address)
}

pub fn admitted(devices: &[u8], address: u16) -> bool {
    device_record(devices, address).is_some()
}

/// A device's record.
pub fn device_of(address: u16, rights: u8, units: &UnitSet) -> [u8; DEVICE] {
    let mut device = [0; DEVICE];
    put(&mut device, 0, address);
    device[2] = rights;
    device[4..].copy_from_slice(units);
    device
}

fn units_of(device: &[u8]) -> &UnitSet {
    device[4..].try_into().unwrap()
}

/// A device has the units that are set in its record. "D'0000 is the
/// concentrator: never in the table, unit 0 only".
pub fn unit_exists(devices: &[u8], device: u16, unit: u8) -> bool {
    if device == 0 {
        return unit == 0;
    }
    match device_record(devices, device) {
        None => false,
        Some(record) => unit_set::has(units_of(record), unit),
    }
}

/// Admitted, or D'0000.
pub fn device_exists(devices: &[u8], device: u16) -> bool {
    device == 0 || admitted(devices, device)
}

/// Rights of a device that exists; the concentrator's are 1.
pub fn rights(devices: &[u8], device: u16) -> u8 {
    if device == 0 {
        return 1;
    }
    device_record(devices, device).map_or(0, |record| record[2])
}

pub fn group_record(groups: &[u8], group: u16) -> Option<&[u8]> {
    used(groups, GROUP).find(|record| word(record, 0) == group)
}

pub fn group_exists(groups: &[u8], group: u16) -> bool {
    group_record(groups, group).is_some()
}

/// "Tables are sound if"; "16 also for an unsound session table" ("CR 1").
pub fn sound(devices: &[u8], binds: &[u8], groups: &[u8], members: &[u8], sessions: &[u8]) -> bool {
    fits(devices, DEVICE, MOST_DEVICES)
        && fits(binds, BIND, MOST_BINDS)
        && fits(groups, GROUP, MOST_GROUPS)
        && fits(members, MEMBER, MOST_MEMBERS)
        && used(devices, DEVICE).all(device_in_range)
        && used(groups, GROUP).all(group_in_range)
        && no_two_equal(devices, DEVICE, 2)
        && no_two_equal(groups, GROUP, 2)
        && used(members, MEMBER).all(|member| member_holds(devices, groups, member))
        && used(binds, BIND).all(|bind| bind_holds(devices, groups, bind))
        && no_two_equal(members, MEMBER, MEMBER)
        && no_two_equal(binds, BIND, BIND)
        && sessions::sound(devices, sessions)
}

pub fn fits(table: &[u8], size: usize, most: usize) -> bool {
    table.len().is_multiple_of(size) && table.len() / size <= most
}

pub fn address_in_range(address: u16) -> bool {
    (1..=HIGHEST_ADDRESS).contains(&address)
}

fn device_in_range(device: &[u8]) -> bool {
    address_in_range(word(device, 0))
        && device[2] <= 1
        && device[3] == 0
        && unit_set::in_range(units_of(device))
}

fn group_in_range(group: &[u8]) -> bool {
    let length = usize::from(group[2]);
    address_in_range(word(group, 0))
        && length <= LONGEST_NAME
        && group[NAME + length..].iter().all(|&octet| octet == 0x00)
}

/// "each device and unit named exists; each group named exists".
pub fn member_holds(devices: &[u8], groups: &[u8], member: &[u8]) -> bool {
    group_exists(groups, word(member, 0)) && unit_exists(devices, word(member, 2), member[4])
}

fn bind_holds(devices: &[u8], groups: &[u8], bind: &[u8]) -> bool {
    !flag(word(bind, 0)) && bind_fields_hold(devices, groups, bind)
}

/// The field rules of Add Bind ("Add Bind 0x02"), less "same bind present".
/// Any UID will do: "Add Bind no longer gives 0x02 for these three values"
/// ("CR 4"). A unit is bound to itself "only where both are written out", which
/// equal octets say: no destination that exists has a special value.
pub fn bind_fields_hold(devices: &[u8], groups: &[u8], bind: &[u8]) -> bool {
    let destination = word(bind, 5);
    let unit = bind[7];
    source_holds(devices, word(bind, 0), bind[2])
        && unit != NO_UNIT
        && if flag(destination) {
            group_exists(groups, number(destination))
        } else {
            unit_exists(devices, destination, unit)
                && (destination, unit) != (word(bind, 0), bind[2])
        }
}

/// What a bind may have as its source ("CR 4"): "a unit written out beside any
/// device may be 0 to 254", so with any unit every octet will do there. Beside
/// a device written out, any unit needs that device alone.
fn source_holds(devices: &[u8], device: u16, unit: u8) -> bool {
    match (device, unit) {
        (ANY_DEVICE, _) => true,
        (_, ANY_UNIT) => device_exists(devices, device),
        _ => unit_exists(devices, device, unit),
    }
}

/// Whether the first `key` octets tell every two used records apart.
pub fn no_two_equal(table: &[u8], size: usize, key: usize) -> bool {
    table.chunks_exact(size).enumerate().all(|(at, record)| {
        is_free(record)
            || table[(at + 1) * size..]
                .chunks_exact(size)
                .all(|later| later[..key] != record[..key] || is_free(later))
    })
}
