//! A scene switch: one bind for a key in every room, and what any device, any unit and any interface match.
use gneissfold::{
    any, code, recipients, Outcome, Tables, Units, HEADER_LENGTH, LIST_LENGTH, LONGEST,
};

const ROOMS: [u16; 3] = [0x0101, 0x0102, 0x0103];
const MOTOR: u16 = 0x0201;
const CURTAINS: u16 = 0x0200;
const SERVER: u16 = 0x8000;

/// Three rooms, each with a switch of units 0, 1 and 7, the first with rights; and a motor of units 0 and 1.
fn house() -> Tables {
    let mut tables = Tables::new();
    for room in ROOMS {
        let rights = u8::from(room == ROOMS[0]);
        let units = Units::up_to(1).with(7);
        assert_eq!(tables.admit(room, rights, units), Outcome::Done);
    }
    assert_eq!(tables.admit(MOTOR, 0, Units::up_to(1)), Outcome::Done);
    tables
}

/// A bind to unit 1 of the motor, from this source, at this interface.
fn bind(device: u16, unit: u8, interface: u16) -> [u8; 8] {
    let [[a, b], [c, d], [e, f]] = [device, interface, MOTOR].map(u16::to_be_bytes);
    [a, b, unit, c, d, e, f, 1]
}

/// The code of a Bind Management command from unit 0 of the first room.
fn commanded(tables: &mut Tables, member: u8, payload: &[u8]) -> u8 {
    let length = payload.len() as u8;
    let mut message = vec![1, 1, 0, 0, 0, 0, 0, 0, 7, 1, 0x80, 2, member, 0, length];
    message.extend(payload);
    let mut reply = [0; LONGEST];
    let (outcome, length, _) = tables.message(&message, &mut reply, &mut [0; LIST_LENGTH]);
    assert_eq!((outcome, length), (Outcome::Done, 16));
    reply[HEADER_LENGTH]
}

/// Whether a key reaches the motor: a request of this unit to the bind address, at this interface.
fn moves(tables: &mut Tables, device: u16, unit: u8, interface: u16) -> bool {
    let [[a, b], [c, d]] = [device, interface].map(u16::to_be_bytes);
    let message = [a, b, unit, 0x7F, 0xFF, 0xFF, 0, 0, 8, 1, c, d, 1, 0, 0];
    let mut list = [0; LIST_LENGTH];
    let (outcome, count, _) = tables.message(&message, &mut [0; LONGEST], &mut list);
    match outcome {
        Outcome::Forwarded => recipients(&list, count).eq([(MOTOR, 1)]),
        Outcome::Nobody => false,
        refused => panic!("refused: {refused:?}"),
    }
}

#[test]
fn one_bind_serves_a_key_in_every_room() {
    let mut tables = house();
    let scene = bind(any::DEVICE, 7, SERVER | CURTAINS);
    assert_eq!(commanded(&mut tables, 1, &scene), code::OK);
    assert_eq!(tables.binds[..8], scene);
    for room in ROOMS {
        assert!(moves(&mut tables, room, 7, SERVER | CURTAINS));
        assert!(!moves(&mut tables, room, 1, SERVER | CURTAINS));
        assert!(!moves(&mut tables, room, 7, SERVER | 0x0201));
    }
    // A room that comes later needs no bind, and one that goes takes none along.
    let units = Units::new().with(7);
    assert_eq!(tables.admit(0x0104, 0, units), Outcome::Done);
    assert_eq!(tables.release(ROOMS[1]), Outcome::Done);
    assert!(moves(&mut tables, 0x0104, 7, SERVER | CURTAINS));
    assert_eq!(tables.binds[..8], scene);
}

#[test]
fn any_unit_and_any_interface_match_each_alone() {
    let mut tables = house();
    let unit = bind(ROOMS[0], any::UNIT, SERVER | CURTAINS);
    assert_eq!(commanded(&mut tables, 1, &unit), code::OK);
    assert!(
        [0, 1, 7].map(|unit| moves(&mut tables, ROOMS[0], unit, SERVER | CURTAINS)) == [true; 3]
    );
    assert!(!moves(&mut tables, ROOMS[1], 7, SERVER | CURTAINS));

    let mut tables = house();
    let interface = bind(ROOMS[0], 7, SERVER | any::INTERFACE);
    assert_eq!(commanded(&mut tables, 1, &interface), code::OK);
    assert!(moves(&mut tables, ROOMS[0], 7, SERVER | CURTAINS));
    assert!(moves(&mut tables, ROOMS[0], 7, SERVER | 0x0300));
    // The interface type is always compared.
    assert!(!moves(&mut tables, ROOMS[0], 7, CURTAINS));
    assert!(!moves(&mut tables, ROOMS[0], 1, SERVER | CURTAINS));
}

#[test]
fn what_is_written_out_must_be_there() {
    let mut tables = house();
    for (device, unit) in [(ROOMS[0], 2), (ROOMS[0], 254), (0x0105, any::UNIT), (0, 1)] {
        let absent = bind(device, unit, SERVER | any::INTERFACE);
        assert_eq!(commanded(&mut tables, 1, &absent), code::INVALID_ARGUMENT);
    }
    for (device, unit) in [(any::DEVICE, 254), (any::DEVICE, any::UNIT), (0, any::UNIT)] {
        let there = bind(device, unit, SERVER | any::INTERFACE);
        assert_eq!(commanded(&mut tables, 1, &there), code::OK);
    }
}

#[test]
fn a_removal_of_any_takes_only_any() {
    let mut tables = house();
    let own = bind(ROOMS[0], 7, SERVER | CURTAINS);
    let scene = bind(any::DEVICE, 7, SERVER | CURTAINS);
    assert_eq!(commanded(&mut tables, 1, &own), code::OK);
    assert_eq!(commanded(&mut tables, 1, &scene), code::OK);
    assert_eq!(
        commanded(&mut tables, 3, &any::DEVICE.to_be_bytes()),
        code::OK
    );
    assert!(moves(&mut tables, ROOMS[0], 7, SERVER | CURTAINS));
    assert!(!moves(&mut tables, ROOMS[1], 7, SERVER | CURTAINS));
    assert_eq!(
        commanded(&mut tables, 3, &any::DEVICE.to_be_bytes()),
        code::INVALID_ARGUMENT
    );
    assert_eq!(tables.binds[..8], own);
}
