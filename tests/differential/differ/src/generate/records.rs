//! The records of the tables ("Tables"; sessions: "CR 1").

use crate::case::World;
use crate::rng::Rng;

/// Octets of one record.
pub const DEVICE: usize = 36;
pub const BIND: usize = 8;
pub const GROUP: usize = 16;
pub const MEMBER: usize = 5;
pub const SESSION: usize = 2;
/// In the order devices, binds, groups, members, sessions.
pub const SIZES: [usize; 5] = [DEVICE, BIND, GROUP, MEMBER, SESSION];
/// Most records of each table, in the same order.
pub const MOST: [usize; 5] = [64, 64, 16, 128, 8];

pub fn free(record: &[u8]) -> bool {
    record.iter().all(|&octet| octet == 0xFF)
}

pub fn word(octets: &[u8], at: usize) -> u16 {
    u16::from_be_bytes([octets[at], octets[at + 1]])
}

/// Where a device's set of units stands in its record.
pub const UNITS: usize = 4;

/// The records in use.
pub fn used<const SIZE: usize>(table: &[u8]) -> Vec<[u8; SIZE]> {
    let records = table.chunks_exact(SIZE).filter(|record| !free(record));
    records.map(|record| record.try_into().unwrap()).collect()
}

/// One of the records in use.
pub fn some_record<'a>(rng: &mut Rng, table: &'a mut [u8], size: usize) -> Option<&'a mut [u8]> {
    let records: Vec<_> = (0..table.len() / size)
        .filter(|at| !free(&table[at * size..(at + 1) * size]))
        .collect();
    let at = rng.pick(&records)?;
    Some(&mut table[at * size..(at + 1) * size])
}

/// A table by its place in that order.
pub fn table(world: &mut World, which: usize) -> &mut Vec<u8> {
    match which {
        0 => &mut world.devices,
        1 => &mut world.binds,
        2 => &mut world.groups,
        3 => &mut world.members,
        _ => &mut world.sessions,
    }
}
