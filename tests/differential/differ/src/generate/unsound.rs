//! Tables that are not sound, or only just are ("Tables are sound if"), and tables of random octets.

use super::any::{put_uid, ANY_DEVICE, ANY_INTERFACE, ANY_UNIT};
use super::records::{free, some_record, table, GROUP, MOST, SIZES, UNITS};
use super::sessions::spoil_sessions;
use super::units::{near, put, some_unit};
use super::view::some_address;
use crate::case::World;
use crate::rng::Rng;

/// Breaks, or nearly breaks, one rule of "Tables are sound if".
pub fn spoil(rng: &mut Rng, world: &mut World) {
    let which = rng.below(SIZES.len());
    let rule = rng.below(13);
    // What others may name is gone, or a field is out of range.
    let spoilt = match rule {
        0..=5 => return spoil_table(rng, table(world, which), SIZES[which], MOST[which]),
        6 => which % 2 * 2,
        7 => which,
        8 => 0,
        9 => 2,
        10 => 1,
        11 => 3,
        _ => return spoil_sessions(rng, &mut world.sessions),
    };
    let Some(record) = some_record(rng, table(world, spoilt), SIZES[spoilt]) else {
        return;
    };
    match rule {
        6 => record.fill(0xFF),
        7 => spoil_address(rng, record, spoilt),
        8 => spoil_device(rng, record),
        9 => match rng.below(3) {
            0 => record[2] = rng.octet() % 16,
            1 => record[15] = rng.octet() % 3,
            _ => record[3 + rng.below(13)] = rng.octet() % 3,
        },
        10 => spoil_bind(rng, record),
        _ => match rng.below(3) {
            0 => record[4] = near(rng, record[4]),
            1 => record[0] ^= 0x80,
            _ => record[2] ^= 0x80,
        },
    }
}

/// Breaks, or nearly breaks, what is asked of every table: its length, its
/// limit, that a record is free or in range, and that none is there twice.
pub(super) fn spoil_table(rng: &mut Rng, table: &mut Vec<u8>, size: usize, most: usize) {
    let records = table.len() / size;
    match rng.below(6) {
        0 if !table.is_empty() => {
            let at = rng.below(table.len());
            table[at] = rng.octet();
        }
        1 => table.push(0xFF),
        2 => {
            table.pop();
        }
        3 => {
            // To the limit, one record past it, or so far past it that the
            // length is small again in 16 bits.
            let records = match rng.below(16) {
                0 => 0x1_0000,
                more => most + more % 2,
            };
            table.resize(records * size, 0xFF);
        }
        4 if records >= 2 => {
            // A record, or its address with other fields, a second time.
            let (from, to) = (rng.below(records), rng.below(records));
            table.copy_within(from * size..(from + 1) * size, to * size);
            if rng.percent(50) {
                table[(to + 1) * size - 1] ^= 1;
            }
            if size == GROUP && !free(&table[to * size..(to + 1) * size]) {
                // The same group address with another name.
                table[to * size + 2..(to + 1) * size].fill(0);
            }
        }
        5 if records > 0 => {
            // Nearly free.
            let at = rng.below(records) * size;
            let record = &mut table[at..at + size];
            record.fill(0xFF);
            record[rng.below(size)] = rng.weighted(&[(1, 0), (1, 0x7F), (1, 0xFE), (1, 1)]);
        }
        _ => (),
    }
}

/// Puts another word into a place where an address, or an interface, stands.
fn spoil_address(rng: &mut Rng, record: &mut [u8], which: usize) {
    let value = rng.weighted(&[(1, 0), (1, 0x7FFF), (1, 0x7FFE), (1, 0x8001), (1, 0xFFFF)]);
    let at = match which {
        0 | 2 | 4 => 0,
        1 => [0, 3, 5][rng.below(3)],
        _ => [0, 2][rng.below(2)],
    };
    record[at..at + 2].copy_from_slice(&u16::to_be_bytes(value));
}

/// Rights, octet 4, or the set of units: unit 0 and unit 255, a unit that others
/// may name, and one more, which breaks no rule.
fn spoil_device(rng: &mut Rng, record: &mut [u8]) {
    let (head, units) = record.split_at_mut(UNITS);
    match rng.below(6) {
        0 => head[2] = rng.octet() % 4,
        1 => head[3] = 1 << rng.below(8),
        2 => put(units, 0, false),
        3 => put(units, 255, true),
        4 => put(units, some_unit(rng, units), false),
        _ => put(units, rng.octet(), true),
    }
}

/// What Add Bind asks of a bind, and octet 1's top bit. A special value breaks
/// no rule by itself. Any device with the top bit does, and any unit beside a
/// device that is not there, and a unit that was well beside any device and that
/// the device now written out has not.
fn spoil_bind(rng: &mut Rng, record: &mut [u8]) {
    match rng.below(12) {
        0 => record[7] = 0xFF,
        1 => record.copy_within(0..3, 5),
        2 => record[5] ^= 0x80,
        3 => record[0] ^= 0x80,
        4 => record[2] = near(rng, record[2]),
        5 => record[7] = near(rng, record[7]),
        6 => record[..2].copy_from_slice(&(0x8000 | ANY_DEVICE).to_be_bytes()),
        7 => record[..2].copy_from_slice(&ANY_DEVICE.to_be_bytes()),
        8 => record[2] = ANY_UNIT,
        9 | 10 => {
            record[..2].copy_from_slice(&some_address(rng).to_be_bytes());
            if rng.percent(60) {
                record[2] = ANY_UNIT;
            }
        }
        _ => put_uid(record, ANY_INTERFACE),
    }
}

/// Tables of random octets and random lengths, also past the limits.
pub fn random_world(rng: &mut Rng) -> World {
    let mut world = World::default();
    for (which, (size, most)) in SIZES.into_iter().zip(MOST).enumerate() {
        let length = match rng.below(4) {
            0 => 0,
            1 => rng.below(3) * size,
            2 => rng.below(size * (most + 2)),
            _ => (most + rng.below(3)) * size,
        };
        *table(&mut world, which) = rng.octets(length);
    }
    world
}
