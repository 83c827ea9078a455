//! Read sessions ("CR 1"): who may start one, and who has one.

mod closed;
mod reads;
mod sound;

use crate::world::{to_concentrator, units, World, BIND, P1, P2};

/// The members of document 000's order of sections, 6.2.5.7 to 6.2.5.13.
const START: u8 = 0x07;
const END: u8 = 0x08;
const BY_INDEX: u8 = 0x09;
const BY_SOURCE: u8 = 0x0A;
const BY_SOURCE_UNIT: u8 = 0x0B;
const BY_DESTINATION: u8 = 0x0C;
const BY_DESTINATION_UNIT: u8 = 0x0D;

/// Each read with a payload of the right length.
const READS: [(u8, &[u8]); 5] = [
    (BY_INDEX, &[0, 0, 9]),
    (BY_SOURCE, &[0, 3]),
    (BY_SOURCE_UNIT, &[0, 3, 1]),
    (BY_DESTINATION, &[0, 4]),
    (BY_DESTINATION_UNIT, &[0, 4, 2]),
];

/// "Read session not established"; "Unknown reason".
const NO_SESSION: [u8; 1] = [0x20];
const UNKNOWN: [u8; 1] = [0xFF];

fn start(world: &mut World, from: (u16, u8)) -> Vec<u8> {
    world.command(from, BIND, START, &[])
}

fn end(world: &mut World, from: (u16, u8)) -> Vec<u8> {
    world.command(from, BIND, END, &[])
}

/// The devices in session, record by record; 0xFFFF where it is free.
fn readers(world: &World) -> Vec<u16> {
    let records = world.sessions.chunks_exact(2);
    records
        .map(|two| u16::from_be_bytes([two[0], two[1]]))
        .collect()
}

/// The rows' tables, and devices 0x0101 to 0x0109 with rights.
fn with_readers() -> World {
    let mut world = World::of_the_rows();
    for address in 0x0101..=0x0109 {
        assert_eq!(world.admit(address, 1, units(&[0x03])), 0);
    }
    world
}

#[test]
fn from_start_to_end() {
    let mut world = World::of_the_rows();
    for (member, payload) in READS {
        assert_eq!(world.command((3, 1), BIND, member, payload), NO_SESSION);
    }
    assert_eq!(start(&mut world, (3, 1)), [0, 0, 0]);
    assert_eq!(world.sessions[..2], [0, 3]);
    assert!(world.sessions[2..].iter().all(|&octet| octet == 0xFF));
    for (member, payload) in READS {
        assert_eq!(world.command((3, 1), BIND, member, payload), [0, 0]);
    }
    assert_eq!(end(&mut world, (3, 1)), [0]);
    assert!(world.sessions.iter().all(|&octet| octet == 0xFF));
    assert_eq!(end(&mut world, (3, 1)), UNKNOWN);
    for (member, payload) in READS {
        assert_eq!(world.command((3, 1), BIND, member, payload), NO_SESSION);
    }
}

/// "One lent record per reading device": whichever of its units started it.
#[test]
fn the_session_is_the_devices() {
    let mut world = World::of_the_rows();
    assert_eq!(start(&mut world, (3, 1)), [0, 0, 0]);
    let before = world.clone();
    assert_eq!(start(&mut world, (3, 1)), [0, 0, 0]);
    assert_eq!(start(&mut world, (3, 2)), [0, 0, 0]);
    assert_eq!(world, before);
    assert_eq!(world.command((3, 0), BIND, BY_SOURCE, &[0, 3]), [0, 0]);
    assert_eq!(world.command((0, 0), BIND, BY_SOURCE, &[0, 3]), NO_SESSION);
    assert_eq!(end(&mut world, (0, 0)), UNKNOWN);
    assert_eq!(end(&mut world, (3, 2)), [0]);
    assert_eq!(readers(&world), [0xFFFF; 8]);
    // The concentrator's is one like any other: its record is 0x0000.
    assert_eq!(start(&mut world, (0, 0)), [0, 0, 0]);
    assert_eq!(world.sessions[..2], [0, 0]);
    assert_eq!(world.command((0, 0), BIND, BY_SOURCE, &[0, 3]), [0, 0]);
    assert_eq!(end(&mut world, (0, 0)), [0]);
}

/// "Number of bind entries currently set on D'0:U'0": free records are none.
#[test]
fn the_number_at_start() {
    let mut world = World::of_the_rows();
    for uid in 0..64 {
        assert_eq!(start(&mut world, (3, 1)), [0, 0, uid]);
        let bind = [0, 3, 1, 0x82, uid, 0, 4, 2];
        assert_eq!(world.add_bind(&bind), [0]);
    }
    assert_eq!(start(&mut world, (3, 1)), [0, 0, 64]);
    let gone = [0, 3, 1, 0x82, 9, 0, 4, 2];
    assert_eq!(world.command((3, 1), BIND, 2, &gone), [0]);
    assert_eq!(start(&mut world, (3, 1)), [0, 0, 63]);
    world.binds.truncate(80);
    assert_eq!(start(&mut world, (3, 1)), [0, 0, 9]);
}

/// Rights are asked at Start alone, which alone lists the code.
#[test]
fn rights() {
    let mut world = World::of_the_rows();
    assert_eq!(start(&mut world, (4, 1)), [1]);
    assert_eq!(end(&mut world, (4, 1)), UNKNOWN);
    for (member, payload) in READS {
        assert_eq!(world.command((4, 1), BIND, member, payload), NO_SESSION);
    }
    // In session, as a table that is lent may have it.
    world.sessions[4..6].copy_from_slice(&[0, 4]);
    assert_eq!(start(&mut world, (4, 1)), [1]);
    for (member, payload) in READS {
        assert_eq!(world.command((4, 1), BIND, member, payload), [0, 0]);
    }
    assert_eq!(end(&mut world, (4, 1)), [0]);
    assert_eq!(readers(&world), [0xFFFF; 8]);
}

/// Start 0 octets, End 0, by index 3, by source 2, with unit 3, by destination 2,
/// with unit 3. Rights come before the length, and the session behind it.
#[test]
fn lengths() {
    let right = [
        (START, 0),
        (END, 0),
        (BY_INDEX, 3),
        (BY_SOURCE, 2),
        (BY_SOURCE_UNIT, 3),
        (BY_DESTINATION, 2),
        (BY_DESTINATION_UNIT, 3),
    ];
    for (member, right) in right {
        for length in (0..=9).chain([255, 256, 258, 259, 485]) {
            let payload = vec![0; length];
            let mut world = World::of_the_rows();
            let without = world.command((4, 1), BIND, member, &payload);
            let due = match member {
                START => [1],
                _ if length != right => [2],
                END => UNKNOWN,
                _ => NO_SESSION,
            };
            assert_eq!(without, due, "{member} {length}");
            world.sessions[..2].copy_from_slice(&[0, 3]);
            let within = world.command((3, 1), BIND, member, &payload);
            let due: &[u8] = match member {
                _ if length != right => &[2],
                START => &[0, 0, 0],
                END => &[0],
                _ => &[0, 0],
            };
            assert_eq!(within, due, "{member} {length}");
        }
    }
}

/// "0xFE at Start exactly when no session record is free and the device has none".
#[test]
fn eight_read_at_once() {
    let mut world = with_readers();
    for address in 0x0101..=0x0108 {
        assert_eq!(start(&mut world, (address, 1)), [0, 0, 0]);
    }
    let all: Vec<u16> = (0x0101..=0x0108).collect();
    assert_eq!(readers(&world), all);
    for from in [(0x0109, 0), (3, 1), (0, 0)] {
        assert_eq!(start(&mut world, from), [0xFE]);
    }
    for address in 0x0101..=0x0108 {
        assert_eq!(start(&mut world, (address, 0)), [0, 0, 0]);
    }
    assert_eq!(readers(&world), all);
    // Rights and length come first.
    assert_eq!(start(&mut world, (4, 1)), [1]);
    assert_eq!(world.command((0x0109, 1), BIND, START, &[0]), [2]);
    // "An addition takes the first free record".
    assert_eq!(end(&mut world, (0x0106, 1)), [0]);
    assert_eq!(end(&mut world, (0x0103, 1)), [0]);
    assert_eq!(start(&mut world, (0x0109, 1)), [0, 0, 0]);
    assert_eq!(readers(&world)[2], 0x0109);
    assert_eq!(readers(&world)[5], 0xFFFF);
    assert_eq!(start(&mut world, (0, 0)), [0, 0, 0]);
    assert_eq!(start(&mut world, (0x0103, 1)), [0xFE]);
}

#[test]
fn fewer_records() {
    for records in 0..=8 {
        let mut world = with_readers();
        world.sessions.truncate(2 * records);
        for (at, address) in (0x0101..=0x0109).enumerate() {
            let due: &[u8] = if at < records { &[0, 0, 0] } else { &[0xFE] };
            assert_eq!(start(&mut world, (address, 1)), due);
        }
    }
}

/// Another member, interface, role or type is none of the commands (18).
#[test]
fn outcome_18_shrinks_by_seven() {
    let mut world = World::of_the_rows();
    for member in 0..=255 {
        let served = (1..=0x0D).contains(&member);
        let msg = to_concentrator((3, 1), BIND, member, &[]);
        assert_eq!(world.send(&msg).0, if served { 0 } else { 18 });
        let groups = to_concentrator((3, 1), 3, member, &[]);
        let served = (1..=5).contains(&member);
        assert_eq!(world.send(&groups).0, if served { 0 } else { 18 });
    }
    for member in START..=BY_DESTINATION_UNIT {
        for kind in 1..=0x10 {
            let mut msg = to_concentrator((3, 1), BIND, member, &[]);
            msg[9] = kind;
            assert_eq!(world.send(&msg).0, if kind <= 2 { 0 } else { 18 });
            msg[10] = 0;
            assert_eq!(world.send(&msg).0, 18);
        }
    }
}

/// `links` lends sessions of full size, all free.
#[test]
fn printed() {
    let mut world = World::of_the_rows();
    assert_eq!(world.add_bind(&P1), [0]);
    assert_eq!(world.add_bind(&P2), [0]);
    let tables = [
        &world.devices[..],
        &world.binds,
        &world.groups,
        &world.members,
    ]
    .concat();
    for (member, payload, printed) in [
        (START, &[][..], "000000000301000007038002070003 000002"),
        (END, &[], "000000000301000007038002080001 FF"),
        (BY_SOURCE, &[0, 3], "0000000003010000070380020A0001 20"),
    ] {
        let msg = to_concentrator((3, 1), BIND, member, payload);
        let reply = printed.replace(' ', "");
        assert_eq!(
            other_reading::links(&[&tables[..], &msg].concat()),
            format!("outcome 0 count 0\n{reply}\n")
        );
    }
}
