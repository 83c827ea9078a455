//! Any device, any unit and any interface in a bind ("CR 4"): whom a request
//! reaches by it.

mod stored;

use crate::world::{units, Answer, World, P1};

/// P1 with each special value alone, and with all three: any device that has
/// unit 1, any unit of device 3, any server interface; any of all.
const OF_ANY_DEVICE: [u8; 8] = [0x7F, 0xFF, 1, 0x82, 0, 0, 4, 2];
const OF_ANY_UNIT: [u8; 8] = [0, 3, 0xFF, 0x82, 0, 0, 4, 2];
const OF_ANY_INTERFACE: [u8; 8] = [0, 3, 1, 0xFF, 0xFF, 0, 4, 2];
const OF_ALL: [u8; 8] = [0x7F, 0xFF, 0xFF, 0xFF, 0xFF, 0, 4, 2];

/// Who gets a request to the bind address: outcome 1, or 2 if that is nobody.
fn reached(world: &mut World, from: (u16, u8), interface: u16) -> Vec<u8> {
    let Answer(outcome, list) = to_bind_address(world, from, interface);
    assert_eq!(outcome, if list.is_empty() { 2 } else { 1 });
    list
}

fn to_bind_address(world: &mut World, from: (u16, u8), interface: u16) -> Answer {
    let [d1, d2] = from.0.to_be_bytes();
    let [i1, i2] = interface.to_be_bytes();
    world.send(&[
        d1, d2, from.1, 0x7F, 0xFF, 0xFF, 0, 0, 7, 1, i1, i2, 1, 0, 0,
    ])
}

/// The rows' tables with these binds added, each stored as it was sent.
fn with(binds: &[[u8; 8]]) -> World {
    let mut world = World::of_the_rows();
    for bind in binds {
        assert_eq!(world.add_bind(bind), [0], "{bind:02X?}");
    }
    let (used, free) = world.binds.split_at(8 * binds.len());
    assert_eq!(used, binds.concat());
    assert!(free.iter().all(|&octet| octet == 0xFF));
    world
}

const THERE: [u8; 3] = [0, 4, 2];
const NOBODY: [u8; 0] = [];

#[test]
fn any_device() {
    let mut world = with(&[OF_ANY_DEVICE]);
    for from in [(3, 1), (4, 1), (5, 1)] {
        assert_eq!(reached(&mut world, from, 0x8200), THERE);
        // Another UID, and the other interface type.
        assert_eq!(reached(&mut world, from, 0x8201), NOBODY);
        assert_eq!(reached(&mut world, from, 0xFFFF), NOBODY);
        assert_eq!(reached(&mut world, from, 0x0200), NOBODY);
    }
    for from in [(3, 0), (3, 2), (5, 0), (0, 0)] {
        assert_eq!(reached(&mut world, from, 0x8200), NOBODY);
    }
    // A device that was admitted only later, and the concentrator.
    assert_eq!(world.admit(0x7FFE, 0, units(&[0x03])), 0);
    assert_eq!(reached(&mut world, (0x7FFE, 1), 0x8200), THERE);
    assert_eq!(world.add_bind(&[0x7F, 0xFF, 0, 0x82, 0, 0, 4, 2]), [0]);
    assert_eq!(reached(&mut world, (0, 0), 0x8200), THERE);
}

#[test]
fn any_unit() {
    let mut world = with(&[OF_ANY_UNIT]);
    for unit in 0..=2 {
        assert_eq!(reached(&mut world, (3, unit), 0x8200), THERE);
        assert_eq!(reached(&mut world, (3, unit), 0x8201), NOBODY);
        assert_eq!(reached(&mut world, (3, unit), 0xFFFF), NOBODY);
        assert_eq!(reached(&mut world, (3, unit), 0x0200), NOBODY);
    }
    for from in [(4, 1), (5, 1), (0, 0)] {
        assert_eq!(reached(&mut world, from, 0x8200), NOBODY);
    }
    let mut world = with(&[[0, 0, 0xFF, 0x82, 0, 0, 4, 2]]);
    assert_eq!(reached(&mut world, (0, 0), 0x8200), THERE);
    assert_eq!(reached(&mut world, (3, 0), 0x8200), NOBODY);
}

#[test]
fn any_interface() {
    let mut world = with(&[OF_ANY_INTERFACE]);
    for uid in [0x0000, 0x0200, 0x0201, 0x7FFE, 0x7FFF] {
        assert_eq!(reached(&mut world, (3, 1), 0x8000 | uid), THERE);
        assert_eq!(reached(&mut world, (3, 1), uid), NOBODY);
        assert_eq!(reached(&mut world, (3, 0), 0x8000 | uid), NOBODY);
        assert_eq!(reached(&mut world, (5, 1), 0x8000 | uid), NOBODY);
    }
    // A message of UID 0x7FFF says no "any": it is equal to that UID alone.
    let mut world = with(&[P1, OF_ANY_DEVICE, OF_ANY_UNIT]);
    assert_eq!(reached(&mut world, (3, 1), 0xFFFF), NOBODY);
}

/// All three, to the members of a group: whoever sends is left out.
#[test]
fn all_three() {
    let mut world = with(&[[0x7F, 0xFF, 0xFF, 0x7F, 0xFF, 0x80, 1, 9]]);
    for uid in [0x0000, 0x0200, 0x7FFE, 0x7FFF] {
        for (from, list) in [
            ((0, 0), vec![0, 3, 1, 0, 4, 2, 0, 5, 1]),
            ((3, 1), vec![0, 4, 2, 0, 5, 1]),
            ((3, 2), vec![0, 3, 1, 0, 4, 2, 0, 5, 1]),
            ((5, 1), vec![0, 3, 1, 0, 4, 2]),
        ] {
            assert_eq!(reached(&mut world, from, uid), list);
            assert_eq!(reached(&mut world, from, 0x8000 | uid), NOBODY);
        }
    }
}

/// A bind that matches by equal fields and one that says any bring one recipient
/// once, and their recipients together by rising device and unit.
#[test]
fn beside_binds_written_out() {
    let mut world = with(&[
        [0x7F, 0xFF, 0xFF, 0xFF, 0xFF, 0, 5, 0],
        P1,
        OF_ANY_DEVICE,
        OF_ANY_UNIT,
        OF_ANY_INTERFACE,
        OF_ALL,
        [0x7F, 0xFF, 1, 0x82, 0, 0, 3, 2],
    ]);
    let list = [0, 3, 2, 0, 4, 2, 0, 5, 0];
    assert_eq!(reached(&mut world, (3, 1), 0x8200), list);
    assert_eq!(reached(&mut world, (3, 1), 0x8001), list[3..]);
    assert_eq!(reached(&mut world, (4, 2), 0x8200), [0, 5, 0]);
}

/// What a message says of its own sender is never "any".
#[test]
fn no_sender_is_any() {
    let mut world = with(&[OF_ANY_DEVICE, OF_ANY_UNIT, OF_ALL]);
    for from in [(0x7FFF, 1), (0x7FFF, 0xFF), (3, 0xFF), (0, 0xFF), (9, 1)] {
        assert_eq!(to_bind_address(&mut world, from, 0x8200).0, 13);
    }
}

/// "Binding a unit to itself is refused only where both are written out."
#[test]
fn bound_to_itself() {
    let mut world = World::of_the_rows();
    assert_eq!(world.add_bind(&[0, 4, 2, 0x82, 0, 0, 4, 2]), [2]);
    assert_eq!(world.add_bind(&[0, 4, 2, 0xFF, 0xFF, 0, 4, 2]), [2]);
    for source in [[0x7F, 0xFF, 2], [0, 4, 0xFF], [0x7F, 0xFF, 0xFF]] {
        let bind = [&source[..], &[0x82, 0, 0, 4, 2]].concat();
        let mut world = with(&[bind.try_into().unwrap()]);
        assert_eq!(reached(&mut world, (4, 2), 0x8200), NOBODY);
    }
    let mut world = with(&[[0, 4, 0xFF, 0x82, 0, 0, 4, 2]]);
    assert_eq!(reached(&mut world, (4, 1), 0x8200), THERE);
}
