//! Sentences of "Outcomes": the order for a message, and what copying and reading leave.

use crate::world::World;
use other_reading::{copy, message, read};

#[test]
fn the_order_of_outcomes() {
    let mut world = World::of_the_rows();
    world.binds.truncate(9);
    world.members.truncate(16);
    let World {
        devices,
        binds,
        groups,
        members,
        sessions,
    } = &mut world;
    let mut call = |reply: usize, list: usize| {
        let (mut reply, mut list) = (vec![0; reply], vec![0; list]);
        let (mut count, mut reason, mut octet) = (1, 1, 1);
        let outcome = message(
            devices,
            binds,
            groups,
            members,
            sessions,
            &[],
            &mut reply,
            &mut list,
            &mut count,
            &mut reason,
            &mut octet,
        );
        assert_eq!((count, reason, octet), (0, 0, 0));
        outcome
    };
    // One bind record and three member records, divided down.
    assert_eq!(call(500, 11), 17);
    assert_eq!(call(499, 12), 17);
    assert_eq!(call(500, 12), 16);
}

#[test]
fn copying_and_reading() {
    let msg = [
        0x80, 3, 1, 0x80, 1, 9, 8, 7, 6, 5, 0x82, 0, 1, 0xFE, 1, 0x44,
    ];
    let mut room = [0xEE; 18];
    let mut length = 9;
    assert_eq!(copy(&msg, &mut room, 0x7FFE, 0xFE, &mut length), 0);
    assert_eq!(length, 16);
    let expected = [
        0x80, 3, 1, 0x7F, 0xFE, 0xFE, 8, 7, 6, 5, 0x82, 0, 1, 0xFE, 1, 0x44, 0xEE, 0xEE,
    ];
    assert_eq!(room, expected);
    assert_eq!(copy(&msg, &mut room[..15], 4, 4, &mut length), 19);
    assert_eq!(copy(&msg, &mut room, 0x7FFF, 4, &mut length), 19);
    assert_eq!(copy(&msg, &mut room, 4, 0xFF, &mut length), 19);
    assert_eq!((room, length), (expected, 0));
    let mut fields = [9; 12];
    assert_eq!(read(&msg, &mut fields), 0);
    assert_eq!(fields, [3, 1, 1, 1, 9, 6, 5, 1, 0x200, 1, 1, 16]);
    assert_eq!(read(&msg[..15], &mut fields), 11);
    assert_eq!(fields, [0; 12]);
}
