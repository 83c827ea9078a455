//! What closes sessions ("CR 1"): "any change to the bind table closes all
//! sessions, and a release closes that device's".

use super::*;
use crate::world::GROUP;

const FREE: [u16; 8] = [0xFFFF; 8];
const OPEN: [u16; 8] = [0xFFFF, 3, 0xFFFF, 5, 0, 0x0101, 0xFFFF, 0x0102];

/// P1 and P2 are bound, group 2 has no bind to it, and five read.
fn with_five_readers() -> World {
    let mut world = with_readers();
    assert_eq!(world.add_bind(&P1), [0]);
    assert_eq!(world.add_bind(&P2), [0]);
    assert_eq!(world.command((3, 1), GROUP, 1, &[0]), [0, 0, 2]);
    world.sessions = OPEN.map(u16::to_be_bytes).concat();
    world
}

/// A command from D'0:U'0, its code, and who reads afterwards.
fn after(uid: u8, member: u8, payload: &[u8]) -> (u8, Vec<u16>) {
    let mut world = with_five_readers();
    let code = world.command((0, 0), uid, member, payload)[0];
    (code, readers(&world))
}

#[test]
fn binds_that_change() {
    let other = [0, 3, 1, 0x82, 0, 0, 5, 1];
    for (member, payload) in [
        (1, &other[..]),
        (2, &P1),
        (2, &P2),
        (3, &[0, 3]),
        (4, &[0, 3, 1]),
        (5, &[0, 4]),
        (5, &[0x80, 1]),
        (6, &[0, 4, 2]),
        (6, &[0x80, 1, 0]),
    ] {
        assert_eq!(after(BIND, member, payload), (0, FREE.to_vec()));
    }
}

/// Refused, or about something else: no bind changes, and no session ends.
#[test]
fn binds_that_stay() {
    for (member, payload) in [
        (1, &P1[..]),
        (1, &P1[..7]),
        (2, &[0, 3, 2, 0x82, 0, 0, 4, 2]),
        (3, &[0, 4]),
        (4, &[0, 3, 2]),
        (5, &[0x80, 4]),
        (6, &[0, 4, 1]),
        (3, &[]),
    ] {
        assert_eq!(after(BIND, member, payload), (2, OPEN.to_vec()));
    }
    for (member, payload) in [
        (1, &[1, b'N'][..]),
        (3, &[0, 1, 0, 3, 2]),
        (4, &[0, 1, 0, 3, 1]),
        (5, &[0, 1]),
    ] {
        assert_eq!(after(GROUP, member, payload), (0, OPEN.to_vec()));
    }
    let mut world = with_five_readers();
    world.binds.truncate(16);
    let other = [0, 3, 1, 0x82, 0, 0, 5, 1];
    assert_eq!(world.command((0, 0), BIND, 1, &other), [0xFE]);
    assert_eq!(world.command((4, 1), BIND, 2, &P1), [1]);
    assert_eq!(world.admit(6, 1, units(&[0x01])), 0);
    let pressed = [0, 3, 1, 0x7F, 0xFF, 0xFF, 0, 0, 7, 1, 0x82, 0, 1, 0, 0];
    assert_eq!(world.send(&pressed).0, 1);
    for (member, payload) in READS {
        assert_eq!(world.command((5, 0), BIND, member, payload)[0], 0);
    }
    assert_eq!(readers(&world), OPEN);
}

/// Delete Group is a change where a bind to the group goes with it.
#[test]
fn groups_with_and_without_a_bind() {
    assert_eq!(after(GROUP, 2, &[0, 1]), (0, FREE.to_vec()));
    assert_eq!(after(GROUP, 2, &[0x80, 1]), (0, FREE.to_vec()));
    assert_eq!(after(GROUP, 2, &[0, 2]), (0, OPEN.to_vec()));
    assert_eq!(after(GROUP, 2, &[0, 3]), (2, OPEN.to_vec()));
    // A bind to D'0002 is none to G'0002.
    let mut world = with_five_readers();
    assert_eq!(world.admit(2, 0, units(&[0x01])), 0);
    world.binds[16..24].copy_from_slice(&[0, 3, 1, 0x82, 0, 0, 2, 0]);
    assert_eq!(world.command((0, 0), GROUP, 2, &[0, 2]), [0]);
    assert_eq!(readers(&world), OPEN);
}

#[test]
fn releases() {
    for (address, left) in [
        // Named as source, and as individual destination.
        (3, FREE),
        (4, FREE),
        // Bound to nothing: its own alone, if it reads.
        (0x0103, OPEN),
        (5, OPEN.map(|there| if there == 5 { 0xFFFF } else { there })),
        (
            0x0102,
            OPEN.map(|there| if there == 0x0102 { 0xFFFF } else { there }),
        ),
    ] {
        let mut world = with_five_readers();
        assert_eq!(world.release(address), 0);
        assert_eq!(readers(&world), left);
    }
    // A bind of any device names none, and G' with the same number is no device.
    let mut world = with_five_readers();
    world.binds[..8].copy_from_slice(&[0x7F, 0xFF, 1, 0x82, 0, 0x80, 1, 9]);
    assert_eq!(world.release(4), 0);
    assert_eq!(world.admit(1, 0, units(&[0x01])), 0);
    assert_eq!(world.release(1), 0);
    assert_eq!(readers(&world), OPEN);
    // Refused.
    assert_eq!(world.release(4), 23);
    assert_eq!(world.release(0), 23);
    assert_eq!(readers(&world), OPEN);
}

/// Who changes a bind is out of session as the others are, and all may start again.
#[test]
fn the_reader_that_changes() {
    let mut world = with_five_readers();
    assert_eq!(world.command((3, 1), BIND, 3, &[0, 3]), [0]);
    for from in [(3, 1), (5, 1), (0, 0), (0x0101, 1), (0x0102, 0)] {
        for (member, payload) in READS {
            assert_eq!(world.command(from, BIND, member, payload), NO_SESSION);
        }
        assert_eq!(end(&mut world, from), UNKNOWN);
    }
    assert_eq!(start(&mut world, (0x0102, 1)), [0, 0, 0]);
    assert_eq!(start(&mut world, (3, 1)), [0, 0, 0]);
    assert_eq!(readers(&world)[..3], [0x0102, 3, 0xFFFF]);
}

/// A device that comes again under its old address has no session.
#[test]
fn admitted_again() {
    let mut world = with_five_readers();
    assert_eq!(world.release(0x0102), 0);
    assert_eq!(world.admit(0x0102, 1, units(&[0x01])), 0);
    assert_eq!(end(&mut world, (0x0102, 0)), UNKNOWN);
    assert_eq!(end(&mut world, (0x0101, 0)), [0]);
}
