//! What is wrong with a bind ("CR 6"), on the rows' tables: devices 3 (units 0 to
//! 2), 4 (0 to 2) and 5 (0 and 1), and group 1.

use crate::world::{to_concentrator, Answer, World, BIND, GROUP, P1, P2};

/// Reason and octet of an Add Bind that a unit sends.
fn wrong(world: &mut World, from: (u16, u8), payload: &[u8]) -> (u8, u8) {
    let (Answer(outcome, _), why) = world.told(&to_concentrator(from, BIND, 1, payload));
    assert_eq!(outcome, 0);
    why
}

/// Of a source and a destination, with the interface of P1, sent by a device with rights.
fn between(source: [u8; 3], destination: [u8; 3]) -> (u8, u8) {
    let [[a, b, c], [f, g, h]] = [source, destination];
    let mut world = World::of_the_rows();
    wrong(&mut world, (3, 1), &[a, b, c, 0x82, 0, f, g, h])
}

const FROM: [u8; 3] = [0, 3, 1];
const TO: [u8; 3] = [0, 4, 2];
const NONE: (u8, u8) = (0, 0);

#[test]
fn the_list() {
    let mut world = World::of_the_rows();
    for length in (0..40).filter(|length| *length != 8) {
        assert_eq!(wrong(&mut world, (3, 1), &vec![0xFF; length]), (1, 0));
    }
    assert_eq!(between([0, 9, 1], TO), (2, 1));
    assert_eq!(between([0, 3, 3], TO), (3, 3));
    assert_eq!(between(FROM, [0, 4, 0xFF]), (4, 8));
    assert_eq!(between(FROM, [0x80, 1, 0xFF]), (4, 8));
    assert_eq!(between(FROM, [0, 9, 1]), (5, 6));
    assert_eq!(between(FROM, [0, 4, 3]), (6, 8));
    assert_eq!(between(FROM, [0x80, 2, 0]), (7, 6));
    assert_eq!(between(FROM, FROM), (8, 6));
    for bind in [P1, P2] {
        assert_eq!(wrong(&mut world, (3, 1), &bind), NONE);
        assert_eq!(wrong(&mut world, (3, 1), &bind), (9, 1));
    }
}

/// "The first that holds is given": two hold, of which neither makes the other hold.
#[test]
fn the_first_that_holds() {
    for (source, destination, first) in [
        ([0, 9, 1], [0, 4, 0xFF], (2, 1)),
        ([0, 9, 1], [0, 9, 1], (2, 1)),
        ([0, 9, 0xFF], [0, 4, 3], (2, 1)),
        ([0, 9, 1], [0x80, 2, 0], (2, 1)),
        ([0, 3, 3], [0, 4, 0xFF], (3, 3)),
        ([0, 3, 3], [0, 9, 1], (3, 3)),
        ([0, 3, 3], [0, 4, 3], (3, 3)),
        ([0, 3, 3], [0x80, 2, 0], (3, 3)),
        ([0, 3, 3], [0, 3, 3], (3, 3)),
        (FROM, [0, 9, 0xFF], (4, 8)),
        (FROM, [0x80, 2, 0xFF], (4, 8)),
    ] {
        assert_eq!(between(source, destination), first, "{destination:02X?}");
    }
}

/// "D'0000 is the concentrator: never in the table, unit 0 only": it exists, and it is its unit that is wrong.
#[test]
fn the_concentrator() {
    assert_eq!(between([0, 0, 0], TO), NONE);
    assert_eq!(between([0, 0, 1], TO), (3, 3));
    assert_eq!(between(FROM, [0, 0, 0]), NONE);
    assert_eq!(between(FROM, [0, 0, 1]), (6, 8));
    assert_eq!(between([0, 0, 0], [0, 0, 0]), (8, 6));
}

/// Any device and any unit are asked nothing ("CR 4"), and a unit beside any device is not either.
#[test]
fn special_values() {
    for source in [
        [0x7F, 0xFF, 0xFF],
        [0x7F, 0xFF, 0],
        [0x7F, 0xFF, 254],
        [0, 3, 0xFF],
    ] {
        assert_eq!(between(source, TO), NONE);
        assert_eq!(between(source, [0, 4, 0xFF]), (4, 8));
        assert_eq!(between(source, [0, 9, 1]), (5, 6));
        assert_eq!(between(source, [0x80, 2, 0]), (7, 6));
    }
    assert_eq!(between([0, 9, 0xFF], TO), (2, 1));
    // Bound to itself "only where both are written out".
    assert_eq!(between([0x7F, 0xFF, 2], TO), NONE);
    assert_eq!(between([0, 4, 0xFF], TO), NONE);
    assert_eq!(between([0x7F, 0xFF, 0xFF], [0x7F, 0xFF, 0xFE]), (5, 6));
    assert_eq!(between([0x7F, 0xFF, 1], [0x7F, 0xFF, 1]), (5, 6));
}

/// D'0001 and G'0001 are different things, and octet 1's top bit is ignored.
#[test]
fn flags() {
    assert_eq!(between(FROM, [0x80, 3, 1]), (7, 6));
    assert_eq!(between(FROM, [0, 1, 1]), (5, 6));
    assert_eq!(between([0x80, 3, 1], TO), NONE);
    assert_eq!(between([0x80, 9, 1], TO), (2, 1));
    assert_eq!(between([0x80, 3, 1], FROM), (8, 6));
    assert_eq!(between([0, 3, 1], [0x80, 1, 1]), NONE);
    let mut world = World::of_the_rows();
    assert_eq!(world.add_bind(&P1), [0]);
    let with_top_bit = [&[0x80], &P1[1..]].concat();
    assert_eq!(wrong(&mut world, (3, 1), &with_top_bit), (9, 1));
}

/// `World::told` asks of every message that no other code, command or outcome has a
/// reason; here are those that come closest.
#[test]
fn with_any_other_code_none() {
    let mut world = World::of_the_rows();
    assert_eq!(wrong(&mut world, (4, 1), &[0, 9, 9]), NONE);
    assert_eq!(wrong(&mut world, (4, 1), &[0xFF; 8]), NONE);
    world.binds.truncate(8);
    assert_eq!(wrong(&mut world, (3, 1), &P1), NONE);
    assert_eq!(wrong(&mut world, (3, 1), &P2), NONE);
    assert_eq!(wrong(&mut world, (3, 1), &P1), (9, 1));
    assert_eq!(world.command((3, 1), BIND, 2, &P2), [2]);
    assert_eq!(world.command((3, 1), BIND, 2, &P2[..7]), [2]);
    assert_eq!(world.command((3, 1), GROUP, 1, &[9]), [2]);
    assert_eq!(world.send(&to_concentrator((3, 3), BIND, 1, &P1)).0, 13);
}
