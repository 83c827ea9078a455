//! Which binds with special values are stored, stay and are sound ("CR 4").

use super::*;
use crate::world::{BIND, GROUP};

/// What a removal leaves of these binds, in their order; it is answered with
/// 0x02 if that is all of them.
fn left(binds: &[[u8; 8]], member: u8, payload: &[u8]) -> Vec<[u8; 8]> {
    let mut world = with(binds);
    let code = world.command((3, 1), BIND, member, payload);
    let left = used(&world);
    assert_eq!(code, [if left == binds { 2 } else { 0 }]);
    left
}

fn used(world: &World) -> Vec<[u8; 8]> {
    let records = world
        .binds
        .chunks_exact(8)
        .filter(|bind| *bind != [0xFF; 8]);
    records.map(|bind| bind.try_into().unwrap()).collect()
}

/// "a unit written out beside any device may be 0 to 254"; 0xFF is any unit.
#[test]
fn units_beside_any_device() {
    for unit in 0..=255 {
        let mut world = with(&[[0x7F, 0xFF, unit, 0x82, 0, 0, 4, 2]]);
        let there = if [1, 255].contains(&unit) {
            &THERE[..]
        } else {
            &NOBODY
        };
        assert_eq!(reached(&mut world, (5, 1), 0x8200), there);
    }
}

#[test]
fn devices_written_out() {
    let mut world = World::of_the_rows();
    for (device, unit, code) in [
        (3, 2, 0),
        (3, 3, 2),
        (3, 254, 2),
        (5, 2, 2),
        (0, 0, 0),
        (0, 1, 2),
        (0, 254, 2),
        (9, 0, 2),
        (0x7F, 0, 2),
        // With any unit, the device alone must exist.
        (3, 255, 0),
        (5, 255, 0),
        (0, 255, 0),
        (9, 255, 2),
        (0x7F, 255, 2),
    ] {
        let bind = [0, device, unit, 0x82, 0, 0, 4, 2];
        assert_eq!(world.add_bind(&bind), [code], "{bind:02X?}");
    }
    assert_eq!(world.add_bind(&[0x7F, 0xFE, 0xFF, 0x82, 0, 0, 4, 2]), [2]);
    assert_eq!(world.add_bind(&[0x7F, 0xFE, 0, 0x82, 0, 0, 4, 2]), [2]);
}

/// The destination has no special value, and its rules are as they were.
#[test]
fn destinations() {
    let mut world = World::of_the_rows();
    for destination in [
        [0x7F, 0xFF, 0],
        [0x7F, 0xFF, 0xFF],
        [0xFF, 0xFF, 0],
        [0xFF, 0xFF, 0xFF],
        [0, 4, 0xFF],
        [0x80, 1, 0xFF],
        [0, 4, 3],
        [0, 9, 0],
        [0x80, 2, 0],
    ] {
        let bind = [&OF_ALL[..5], &destination].concat();
        assert_eq!(world.add_bind(&bind), [2], "{bind:02X?}");
    }
}

/// "Octet 1's top bit .. is ignored in a command and stored as 0".
#[test]
fn the_top_bit_beside_any_device() {
    let mut world = World::of_the_rows();
    assert_eq!(world.add_bind(&[0xFF, 0xFF, 1, 0x82, 0, 0, 4, 2]), [0]);
    assert_eq!(world.binds[..8], OF_ANY_DEVICE);
    assert_eq!(world.add_bind(&OF_ANY_DEVICE), [2]);
    // Present is what has the same octets: P1 and the rest are other binds.
    for bind in [P1, OF_ANY_UNIT, OF_ANY_INTERFACE, OF_ALL] {
        assert_eq!(world.add_bind(&bind), [0]);
        assert_eq!(world.add_bind(&bind), [2]);
    }
    world.binds.truncate(40);
    assert_eq!(world.add_bind(&OF_ALL), [2]);
    assert_eq!(world.add_bind(&[0x7F, 0xFF, 2, 0x82, 0, 0, 4, 2]), [0xFE]);
}

/// "Remove compares the stored octets, so any matches only any."
#[test]
fn removals() {
    let binds = [P1, OF_ANY_DEVICE, OF_ANY_UNIT, OF_ANY_INTERFACE, OF_ALL];
    let less = |gone: &[usize]| -> Vec<[u8; 8]> {
        let kept = (0..binds.len()).filter(|at| !gone.contains(at));
        kept.map(|at| binds[at]).collect()
    };
    // Remove Bind takes the one bind; the top bit of octet 1 is ignored.
    for (at, bind) in binds.iter().enumerate() {
        let top = [&[bind[0] | 0x80], &bind[1..]].concat();
        assert_eq!(left(&binds, 2, bind), less(&[at]));
        assert_eq!(left(&binds, 2, &top), less(&[at]));
    }
    // By source device, and with unit.
    assert_eq!(left(&binds, 3, &[0, 3]), less(&[0, 2, 3]));
    assert_eq!(left(&binds, 3, &[0x7F, 0xFF]), less(&[1, 4]));
    assert_eq!(left(&binds, 3, &[0xFF, 0xFF]), less(&[1, 4]));
    assert_eq!(left(&binds, 4, &[0, 3, 1]), less(&[0, 3]));
    assert_eq!(left(&binds, 4, &[0, 3, 0xFF]), less(&[2]));
    assert_eq!(left(&binds, 4, &[0x7F, 0xFF, 1]), less(&[1]));
    assert_eq!(left(&binds, 4, &[0x7F, 0xFF, 0xFF]), less(&[4]));
    // Where no bind says any, any takes none.
    let plain = [P1, [0, 4, 2, 0x82, 0, 0, 4, 1]];
    assert_eq!(left(&plain, 3, &[0x7F, 0xFF]), plain);
    assert_eq!(left(&plain, 4, &[0, 3, 0xFF]), plain);
    assert_eq!(left(&plain, 2, &OF_ALL), plain);
    // No destination is any.
    assert_eq!(left(&binds, 5, &[0x7F, 0xFF]), binds);
    assert_eq!(left(&binds, 6, &[0, 4, 0xFF]), binds);
    assert_eq!(left(&binds, 5, &[0, 4]), less(&[0, 1, 2, 3, 4]));
}

/// "all binds that name it": any device names none.
#[test]
fn releases() {
    let to_group = [0x7F, 0xFF, 0xFF, 0x82, 0, 0x80, 1, 0];
    let binds = [P1, OF_ANY_DEVICE, OF_ANY_UNIT, OF_ANY_INTERFACE, to_group];
    let mut world = with(&binds);
    assert_eq!(world.release(0x7FFF), 23);
    assert_eq!(world.release(3), 0);
    assert_eq!(used(&world), [OF_ANY_DEVICE, to_group]);
    // As individual destination it is named.
    assert_eq!(world.release(4), 0);
    assert_eq!(used(&world), [to_group]);
    assert_eq!(world.release(5), 0);
    assert_eq!(used(&world), [to_group]);
    assert_eq!(world.command((0, 0), GROUP, 2, &[0, 1]), [0]);
    assert_eq!(used(&world), [[0; 8]; 0]);
}

/// "Soundness allows the three values in binds"; the field rules of Add Bind are
/// asked of a stored bind too, and octet 1 has its top bit 0.
#[test]
fn sound_with_any() {
    for (source, interface, sound) in [
        ([0x7F, 0xFF, 1], [0x82, 0], true),
        ([0x7F, 0xFF, 0], [0x82, 0], true),
        ([0x7F, 0xFF, 254], [0x82, 0], true),
        ([0x7F, 0xFF, 255], [0x02, 0], true),
        ([0, 3, 255], [0x82, 0], true),
        ([0, 0, 255], [0x82, 0], true),
        ([0, 3, 1], [0xFF, 0xFF], true),
        ([0, 3, 1], [0x7F, 0xFF], true),
        ([0x7F, 0xFF, 255], [0xFF, 0xFF], true),
        ([0xFF, 0xFF, 1], [0x82, 0], false),
        ([0xFF, 0xFF, 255], [0xFF, 0xFF], false),
        ([0x80, 3, 255], [0x82, 0], false),
        ([0, 9, 255], [0x82, 0], false),
        ([0x7F, 0xFE, 255], [0x82, 0], false),
        ([0x7F, 0xFE, 0], [0x82, 0], false),
        ([0, 3, 3], [0xFF, 0xFF], false),
        ([0, 3, 254], [0x82, 0], false),
        ([0, 0, 1], [0x82, 0], false),
    ] {
        let mut world = World::of_the_rows();
        let bind = [&source[..], &interface, &[0, 4, 2]].concat();
        world.binds[16..24].copy_from_slice(&bind);
        // A request that no bind of these matches.
        let Answer(outcome, _) = to_bind_address(&mut world, (3, 2), 0x0201);
        assert_eq!(outcome, if sound { 2 } else { 16 }, "{bind:02X?}");
        assert_eq!(world.release(9), if sound { 23 } else { 16 }, "{bind:02X?}");
    }
    // Of a bind that says any, its destination is asked, and that it stands once.
    for (at, octet) in [(7, 0xFF), (7, 3), (6, 9), (5, 0x7F), (5, 0x80)] {
        let mut world = with(&[OF_ALL]);
        world.binds[at] = octet;
        assert_eq!(world.release(9), 16, "{:02X?}", &world.binds[..8]);
    }
    let mut world = with(&[OF_ALL, OF_ANY_DEVICE]);
    world.binds.copy_within(..8, 24);
    assert_eq!(world.release(9), 16);
}
