//! Tables that are full, so that lists and replies become as long as they can.

use super::any::perhaps_any;
use super::records::{BIND, MOST, SESSION};
use super::sessions::open_sessions;
use super::sound::device;
use super::units::set_of;
use crate::case::World;
use crate::rng::Rng;

/// Full tables with every member in one group and every bind from one source, written out or by special values: a list or a Get Group Info becomes as
/// long as it can, and a read matches more binds than a reply holds.
pub fn crowded_world(rng: &mut Rng) -> World {
    let mut world = World::default();
    // Ten units for each device, unit 0 first, with gaps of one width.
    let step = rng.weighted(&[(10, 1), (5, 8), (5, 9), (5, 28)]);
    let numbers = [0, 1, 2, 3, 4, 5, 6, 7, 8, 9].map(|at| at * step);
    for address in 1..=MOST[0] as u16 {
        let device = device(address, true, set_of(numbers));
        world.devices.extend(device);
    }
    for address in 1..=MOST[2] as u8 {
        world.groups.extend([0, address, 13]);
        world.groups.extend(rng.octets(13));
    }
    let mut units: Vec<_> = (0..640)
        .map(|at| [0, 1 + (at / 10) as u8, numbers[at % 10]])
        .collect();
    for at in (1..units.len()).rev() {
        units.swap(at, rng.below(at + 1));
    }
    let group = 1 + rng.octet() % 16;
    for [d1, d2, unit] in &units[..MOST[3]] {
        world.members.extend([0, group, *d1, *d2, *unit]);
    }
    let source = units[rng.below(MOST[3] + 1)];
    let destinations = &units[MOST[3] + 1..][..MOST[1]];
    world.binds = match rng.below(5) {
        0 => alike(rng, source, destinations[0]),
        1 => alike(rng, source, [0x80, group, 0]),
        _ => to_each(rng, source, destinations, group),
    };
    world.sessions = vec![0xFF; SESSION * MOST[4]];
    open_sessions(rng, &mut world);
    world
}

/// A bind from this source to each of the destinations, but that one is to the group.
fn to_each(rng: &mut Rng, source: [u8; 3], destinations: &[[u8; 3]], group: u8) -> Vec<u8> {
    let [s1, s2, source_unit] = source;
    let through_group = rng.below(MOST[1]);
    // Whether scene switches' binds are among them.
    let scenes = rng.percent(50);
    let mut binds = Vec::new();
    for (at, destination) in destinations.iter().enumerate() {
        let [d1, d2, unit] = if at == through_group {
            [0x80, group, 0]
        } else {
            *destination
        };
        let bind = [s1, s2, source_unit, 0x82, 0x00, d1, d2, unit];
        binds.extend(if scenes { perhaps_any(rng, bind) } else { bind });
    }
    binds
}

/// Binds that differ by their UID alone, so that every form of a read matches all of them, and up to three records free, so that the place of a bind is
/// not its index.
fn alike(rng: &mut Rng, source: [u8; 3], destination: [u8; 3]) -> Vec<u8> {
    let [s1, s2, source_unit] = source;
    let [d1, d2, unit] = destination;
    let first = perhaps_any(rng, [s1, s2, source_unit, 0x82, 0x00, d1, d2, unit]);
    let mut binds = Vec::new();
    for at in 0..MOST[1] as u8 {
        let mut bind = first;
        bind[3..5].copy_from_slice(&[0x82, at]);
        binds.extend(bind);
    }
    for _ in 0..rng.below(4) {
        let at = BIND * rng.below(MOST[1]);
        binds[at..at + BIND].fill(0xFF);
    }
    binds
}
