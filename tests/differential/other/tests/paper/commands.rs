//! Sentences of "Commands and codes", admit and release among them.

use crate::world::{device, units, World, BIND, GROUP, P1, P2};

#[test]
fn delete_group_takes_members_and_binds() {
    let mut world = World::of_the_rows();
    assert_eq!(world.add_bind(&P2), [0]);
    // To D'0001, which shares only the number.
    assert_eq!(world.admit(1, 0, units(&[0x01])), 0);
    assert_eq!(world.add_bind(&[0, 3, 1, 0x82, 0, 0, 1, 0]), [0]);
    assert_eq!(world.command((3, 0), GROUP, 2, &[0x80, 1]), [0]);
    assert!(world.members.iter().all(|&octet| octet == 0xFF));
    assert_eq!(
        world.binds[..16],
        [[0xFF; 8], [0, 3, 1, 0x82, 0, 0, 1, 0]].concat()
    );
    assert_eq!(world.command((3, 0), GROUP, 1, &[0]), [0, 0, 1]);
    assert_eq!(world.command((4, 0), GROUP, 5, &[0, 1]), [0, 0, 0, 0]);
}

#[test]
fn group_info_is_by_rising_device_and_unit() {
    let mut world = World::of_the_rows();
    let expected = [0, 1, b'S', 0, 3, 0, 3, 1, 0, 4, 2, 0, 5, 1];
    assert_eq!(world.command((5, 1), GROUP, 5, &[0, 1]), expected);
    assert_eq!(world.command((5, 1), GROUP, 5, &[0, 2]), [2]);
}

#[test]
fn free_records_never_match() {
    let mut world = World::of_the_rows();
    for (member, length) in [(2, 8), (3, 2), (4, 3), (5, 2), (6, 3)] {
        assert_eq!(
            world.command((0, 0), BIND, member, &[0xFF; 8][..length]),
            [2]
        );
    }
    for (member, length) in [(2, 2), (3, 5), (4, 5), (5, 2)] {
        assert_eq!(
            world.command((0, 0), GROUP, member, &[0xFF; 5][..length]),
            [2]
        );
    }
    assert_eq!(world.release(0xFFFF), 23);
    assert_eq!(world.release(0), 23);
}

#[test]
fn release_takes_members_and_binds() {
    let mut world = World::of_the_rows();
    assert_eq!(world.add_bind(&P1), [0]);
    assert_eq!(world.add_bind(&P2), [0]);
    assert_eq!(world.release(4), 0);
    assert_eq!(world.binds[..16], [[0xFF; 8], P2].concat());
    assert_eq!(world.members[5..10], [0xFF; 5]);
    assert_eq!(world.release(4), 23);
    let room = 36..72;
    assert_eq!(world.devices[room.clone()], [0xFF; 36]);
    assert_eq!(world.admit(0x7FFE, 1, units(&[0x01])), 0);
    assert_eq!(world.devices[room], device(0x7FFE, 1, units(&[0x01])));
}

#[test]
fn the_order_of_admission() {
    let mut world = World::of_the_rows();
    let one = units(&[0x01]);
    assert_eq!(world.admit(0x7FFF, 0, one), 20);
    assert_eq!(world.admit(0, 0, one), 20);
    assert_eq!(world.admit(3, 2, one), 20);
    assert_eq!(world.admit(3, 0, units(&[])), 20);
    assert_eq!(world.admit(3, 0, one), 21);
    world.devices.truncate(108);
    assert_eq!(world.admit(9, 2, one), 20);
    assert_eq!(world.admit(3, 0, one), 21);
    assert_eq!(world.admit(9, 0, one), 22);
    world.members[0] = 0x80;
    assert_eq!(world.admit(9, 2, one), 16);
    assert_eq!(world.release(3), 16);
}
