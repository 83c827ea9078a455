//! Units with gaps in their numbers ("CR 2").

use crate::world::{device, to_concentrator, units, Answer, World, BIND, GROUP, P1};

/// The rows' tables with the three-motor valance as device 6: units 1, 2 and 9,
/// and unit 0, which every device has.
fn with_valance() -> World {
    let mut world = World::of_the_rows();
    assert_eq!(world.admit(6, 1, units(&[0x07, 0x02])), 0);
    let record = device(6, 1, units(&[0x07, 0x02]));
    assert_eq!(world.devices[108..144], record);
    world
}

/// What becomes of a message from one unit to another.
fn between(world: &mut World, from: (u16, u8), to: (u16, u8)) -> Answer {
    let mut msg = to_concentrator(from, 0, 1, &[]);
    msg[3..5].copy_from_slice(&to.0.to_be_bytes());
    msg[5] = to.1;
    world.send(&msg)
}

#[test]
fn a_bind_to_the_valance() {
    let mut world = with_valance();
    for unit in [1, 2, 9, 0] {
        assert_eq!(world.add_bind(&[0, 3, 1, 0x82, 0, 0, 6, unit]), [0]);
    }
    for unit in [8, 3, 7, 10, 254, 255] {
        assert_eq!(world.add_bind(&[0, 3, 1, 0x82, 0, 0, 6, unit]), [2]);
    }
    // As source; and by a command of its own.
    assert_eq!(world.add_bind(&[0, 6, 9, 0x82, 0, 0, 4, 2]), [0]);
    assert_eq!(world.add_bind(&[0, 6, 8, 0x82, 0, 0, 4, 2]), [2]);
    assert_eq!(world.command((6, 9), BIND, 1, &P1), [0]);
    assert_eq!(world.send(&to_concentrator((6, 8), BIND, 1, &P1)).0, 13);
    let msg = [0, 3, 1, 0x7F, 0xFF, 0xFF, 0, 0, 7, 1, 0x82, 0, 1, 0, 0];
    let list = [0, 4, 2, 0, 6, 0, 0, 6, 1, 0, 6, 2, 0, 6, 9];
    assert_eq!(world.send(&msg), Answer(1, list.to_vec()));
}

#[test]
fn a_member_of_the_valance() {
    let mut world = with_valance();
    assert_eq!(world.command((3, 1), GROUP, 3, &[0, 1, 0, 6, 9]), [0]);
    assert_eq!(world.command((3, 1), GROUP, 3, &[0, 1, 0, 6, 8]), [2]);
    let expected = [0, 1, b'S', 0, 4, 0, 3, 1, 0, 4, 2, 0, 5, 1, 0, 6, 9];
    assert_eq!(world.command((4, 0), GROUP, 5, &[0, 1]), expected);
}

/// The place of each unit's bit: no other unit exists by it.
#[test]
fn one_unit_beside_unit_0() {
    assert_eq!(set(7), units(&[0x81]));
    assert_eq!(set(8), units(&[0x01, 0x01]));
    assert_eq!(set(254)[31], 0x40);
    for there in 1..=254 {
        let mut world = World::of_the_rows();
        world.devices.truncate(144);
        assert_eq!(world.admit(6, 0, set(there)), 0);
        for unit in 0..=255 {
            let exists = unit == 0 || unit == there;
            let (to, from) = if exists { (1, 1) } else { (14, 13) };
            assert_eq!(between(&mut world, (3, 1), (6, unit)).0, to);
            assert_eq!(between(&mut world, (6, unit), (3, 1)).0, from);
        }
    }
}

fn set(unit: u8) -> [u8; 32] {
    let mut units = units(&[0x01]);
    units[usize::from(unit / 8)] |= 1 << (unit % 8);
    units
}

/// "Refusals: 20 also for unit 0 unset or 255 set".
#[test]
fn units_that_are_not_admitted() {
    let mut world = World::of_the_rows();
    let mut every = [0xFF; 32];
    assert_eq!(world.admit(6, 0, every), 20);
    every[31] = 0x7F;
    every[0] = 0xFE;
    assert_eq!(world.admit(6, 0, every), 20);
    assert_eq!(world.admit(6, 0, set(255)), 20);
    every[0] = 0xFF;
    assert_eq!(world.admit(6, 0, every), 0);
    assert_eq!(between(&mut world, (3, 1), (6, 254)).0, 1);
    assert_eq!(between(&mut world, (3, 1), (6, 255)).0, 14);
}

#[test]
fn sound_by_the_set() {
    // Octet 4; unit 0; unit 255; unit 9, which nobody names, gone; unit 1, a member, gone.
    for (at, octet, outcome) in [
        (3, 1, 16),
        (3, 0x80, 16),
        (4, 0x06, 16),
        (35, 0x80, 16),
        (5, 0x00, 1),
        (4, 0x05, 16),
    ] {
        let mut world = with_valance();
        assert_eq!(world.command((3, 1), GROUP, 3, &[0, 1, 0, 6, 1]), [0]);
        world.devices[108 + at] = octet;
        assert_eq!(between(&mut world, (3, 1), (4, 2)).0, outcome);
    }
}
