//! Tables that are sound ("Tables are sound if"): free, and built record by record.

use super::any::{perhaps_any, ANY_DEVICE, ANY_UNIT};
use super::records::{word, BIND, DEVICE, GROUP, MEMBER, MOST, SESSION, UNITS};
use super::sessions::open_sessions;
use super::units::{has, some_set, UnitSet};
use super::view::{some_address, View};
use crate::case::World;
use crate::rng::Rng;

/// A number of records within the limit, a small one often.
pub(super) fn records(rng: &mut Rng, most: usize) -> usize {
    match rng.below(10) {
        0..=2 => most,
        3..=6 => rng.below(most.min(9) + 1),
        _ => rng.below(most + 1),
    }
}

/// Free tables of random sizes within the limits, small ones often so that
/// they fill up.
pub fn free_world(rng: &mut Rng) -> World {
    let [devices, binds, groups, members, sessions] = MOST.map(|most| records(rng, most));
    World {
        devices: vec![0xFF; DEVICE * devices.max(rng.below(5))],
        binds: vec![0xFF; BIND * binds],
        groups: vec![0xFF; GROUP * groups],
        members: vec![0xFF; MEMBER * members],
        sessions: vec![0xFF; SESSION * sessions],
    }
}

/// How full a constructed table becomes, in percent of its records; 99 leaves
/// one record free.
fn fill(rng: &mut Rng) -> usize {
    rng.weighted(&[(10, 0), (20, 20), (20, 50), (15, 90), (15, 99), (20, 100)])
}

/// Puts new records into random places of the table. `new` may fail to find a
/// record, or find one whose key is taken.
pub(super) fn construct<const SIZE: usize>(
    rng: &mut Rng,
    table: &mut [u8],
    key: usize,
    mut new: impl FnMut(&mut Rng) -> Option<[u8; SIZE]>,
) {
    let level = fill(rng);
    let records = table.len() / SIZE;
    let keep = if level == 99 {
        rng.below(records)
    } else {
        records
    };
    let mut taken: Vec<[u8; SIZE]> = Vec::new();
    for at in 0..records {
        if at == keep || level < 99 && !rng.percent(level) {
            continue;
        }
        for _ in 0..8 {
            if let Some(record) = new(rng) {
                if taken.iter().all(|there| there[..key] != record[..key]) {
                    table[at * SIZE..(at + 1) * SIZE].copy_from_slice(&record);
                    taken.push(record);
                    break;
                }
            }
        }
    }
}

/// A device's address: few, so that they meet, or enough for a full table.
pub(super) fn device_address(rng: &mut Rng, wide: bool) -> u16 {
    if wide {
        1 + rng.word() % 90
    } else {
        some_address(rng)
    }
}

pub(super) fn device(address: u16, rights: bool, units: UnitSet) -> [u8; DEVICE] {
    let mut record = [0; DEVICE];
    record[..2].copy_from_slice(&address.to_be_bytes());
    record[2] = u8::from(rights);
    record[UNITS..].copy_from_slice(&units);
    record
}

/// Sound tables built record by record ("Tables are sound if"), with free
/// records among the used ones, also in states that no short run reaches.
pub fn constructed_world(rng: &mut Rng) -> World {
    let mut world = free_world(rng);
    let wide = rng.percent(50);
    // Many members in one group and many binds from one source, so that the
    // list and the reply become as long as they can.
    let crowded = rng.percent(20);
    construct(rng, &mut world.devices, 2, |rng| {
        let address = device_address(rng, wide);
        Some(device(address, rng.percent(70), some_set(rng)))
    });
    construct(rng, &mut world.groups, 2, |rng| {
        let mut record = [0; GROUP];
        let address = if rng.percent(85) {
            1 + rng.word() % 18
        } else {
            some_address(rng)
        };
        record[..2].copy_from_slice(&address.to_be_bytes());
        let length = rng.weighted(&[(40, 1), (20, 0), (20, 13), (20, 6)]);
        record[2] = length as u8;
        let name = rng.octets(length);
        record[3..3 + length].copy_from_slice(&name);
        Some(record)
    });
    let view = View::of(&world);
    construct(rng, &mut world.members, MEMBER, |rng| {
        let group = if crowded {
            *view.groups.first()?
        } else {
            rng.pick(&view.groups)?
        };
        let [g1, g2] = word(&group, 0).to_be_bytes();
        let (device, unit) = view.unit(rng);
        let [d1, d2] = device.to_be_bytes();
        Some([g1, g2, d1, d2, unit])
    });
    let few_sources = [view.unit(rng), view.unit(rng)];
    let scenes = !crowded || rng.percent(50);
    construct(rng, &mut world.binds, BIND, |rng| {
        let source = match rng.below(4) {
            _ if crowded => few_sources[0],
            0 | 1 => few_sources[rng.below(2)],
            _ => view.unit(rng),
        };
        let mut bind = view.new_bind(rng, source);
        if crowded {
            bind[3..5].copy_from_slice(&[0x82, 0x00]);
        }
        if scenes {
            bind = perhaps_any(rng, bind);
        }
        bind_holds(&view, &bind).then_some(bind)
    });
    open_sessions(rng, &mut world);
    world
}

/// Whether a constructed bind names only what is there. A slip here would
/// only make a table that is not sound, which both sides must refuse.
fn bind_holds(view: &View, bind: &[u8; BIND]) -> bool {
    let exists = |device: u16, unit: u8| {
        (device, unit) == (0, 0)
            || view
                .devices
                .iter()
                .any(|record| word(record, 0) == device && has(&record[UNITS..], unit))
    };
    let destination = word(bind, 5);
    let there = if destination >> 15 == 1 {
        view.groups
            .iter()
            .any(|group| word(group, 0) == destination & 0x7FFF)
    } else {
        exists(destination, bind[7]) && (destination, bind[7]) != (word(bind, 0), bind[2])
    };
    let source = match (word(bind, 0), bind[2]) {
        (ANY_DEVICE, _) => true,
        // Every device has unit 0.
        (device, ANY_UNIT) => exists(device, 0),
        (device, unit) => exists(device, unit),
    };
    there && source && bind[7] != 0xFF
}
