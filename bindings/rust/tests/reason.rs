//! What is wrong with a bind that Add Bind refuses: each of the nine reasons, which of two is told, and when there is none.
use gneissfold::{
    any, code, Outcome, Reason, Tables, Units, FREE, HEADER_LENGTH, LIST_LENGTH, LONGEST,
};

/// Sources and destinations, three octets each.
const SWITCH: [u8; 3] = [0, 3, 1];
const MOTOR: [u8; 3] = [0, 4, 1];
const GROUP: [u8; 3] = [0x80, 1, 0];
const ABSENT: [u8; 3] = [0, 9, 1];
const ABSENT_UNIT: [u8; 3] = [0, 4, 2];
const ABSENT_GROUP: [u8; 3] = [0x80, 2, 0];

/// A switch with rights and a motor without, each with units 0 and 1; and group 1, which has the name "S".
fn house() -> Tables {
    let mut tables = Tables::new();
    for (address, rights) in [(3, 1), (4, 0)] {
        let admitted = tables.admit(address, rights, Units::up_to(1));
        assert_eq!(admitted, Outcome::Done);
    }
    tables.groups[..16].copy_from_slice(b"\0\x01\x01S\0\0\0\0\0\0\0\0\0\0\0\0");
    tables
}

/// The code and the reason of a Bind Management command from a unit.
fn told(tables: &mut Tables, from: [u8; 3], member: u8, payload: &[u8]) -> (u8, Option<Reason>) {
    let [a, b, unit] = from;
    let length = payload.len() as u8;
    let header = [a, b, unit, 0, 0, 0, 0, 0, 7, 1, 0x80, 2, member, 0, length];
    let message = [&header, payload].concat();
    let mut reply = [0; LONGEST];
    let (outcome, _, reason) = tables.message(&message, &mut reply, &mut [0; LIST_LENGTH]);
    assert_eq!(outcome, Outcome::Done);
    (reply[HEADER_LENGTH], reason)
}

/// From a source to a destination at server interface 0x0200.
fn bind(source: [u8; 3], destination: [u8; 3]) -> [u8; 8] {
    let [[a, b, c], [f, g, h]] = [source, destination];
    [a, b, c, 0x82, 0, f, g, h]
}

fn added(tables: &mut Tables, source: [u8; 3], destination: [u8; 3]) -> (u8, Option<Reason>) {
    told(tables, SWITCH, 1, &bind(source, destination))
}

/// The unit of this number in the place of a destination's own.
fn unit(unit: u8, [a, b, _]: [u8; 3]) -> [u8; 3] {
    [a, b, unit]
}

const GRANTED: (u8, Option<Reason>) = (code::OK, None);

const fn wrong(reason: Reason) -> (u8, Option<Reason>) {
    (code::INVALID_ARGUMENT, Some(reason))
}

#[test]
fn each_of_the_nine() {
    let mut tables = house();
    for length in [0, 1, 7, 9, 200] {
        let answer = told(&mut tables, SWITCH, 1, &vec![0; length]);
        assert_eq!(answer, wrong(Reason::Length));
    }
    assert_eq!(added(&mut tables, SWITCH, MOTOR), GRANTED);
    assert_eq!(added(&mut tables, SWITCH, GROUP), GRANTED);
    for (source, destination, reason) in [
        (ABSENT, MOTOR, Reason::SourceDevice),
        (ABSENT_UNIT, MOTOR, Reason::SourceUnit),
        (SWITCH, unit(0xFF, MOTOR), Reason::UnitFf),
        (SWITCH, unit(0xFF, GROUP), Reason::UnitFf),
        (SWITCH, ABSENT, Reason::DestinationDevice),
        (SWITCH, ABSENT_UNIT, Reason::DestinationUnit),
        (SWITCH, ABSENT_GROUP, Reason::Group),
        (SWITCH, SWITCH, Reason::Itself),
        (SWITCH, MOTOR, Reason::Present),
        (SWITCH, GROUP, Reason::Present),
    ] {
        let before = tables.clone();
        assert_eq!(added(&mut tables, source, destination), wrong(reason));
        assert_eq!(tables, before);
    }
}

#[test]
fn of_two_the_first_is_told() {
    let mut tables = house();
    for (source, destination, reason) in [
        (ABSENT, unit(0xFF, MOTOR), Reason::SourceDevice),
        (ABSENT, ABSENT, Reason::SourceDevice),
        (ABSENT, ABSENT_GROUP, Reason::SourceDevice),
        (ABSENT_UNIT, unit(0xFF, GROUP), Reason::SourceUnit),
        (ABSENT_UNIT, ABSENT, Reason::SourceUnit),
        (ABSENT_UNIT, ABSENT_UNIT, Reason::SourceUnit),
        (ABSENT_UNIT, ABSENT_GROUP, Reason::SourceUnit),
        (SWITCH, unit(0xFF, ABSENT), Reason::UnitFf),
        (SWITCH, unit(0xFF, ABSENT_GROUP), Reason::UnitFf),
        (SWITCH, unit(9, ABSENT), Reason::DestinationDevice),
    ] {
        assert_eq!(added(&mut tables, source, destination), wrong(reason));
    }
}

#[test]
fn the_concentrator_is_there_with_unit_0_alone() {
    let mut tables = house();
    let source = added(&mut tables, [0, 0, 1], MOTOR);
    assert_eq!(source, wrong(Reason::SourceUnit));
    let destination = added(&mut tables, SWITCH, [0, 0, 1]);
    assert_eq!(destination, wrong(Reason::DestinationUnit));
    assert_eq!(added(&mut tables, SWITCH, [0, 0, 0]), GRANTED);
    assert_eq!(added(&mut tables, [0, 0, 0], MOTOR), GRANTED);
}

#[test]
fn a_source_of_any_is_asked_for_its_device_alone() {
    let [a, b] = any::DEVICE.to_be_bytes();
    for source in [[a, b, any::UNIT], [a, b, 9], unit(any::UNIT, SWITCH)] {
        let mut tables = house();
        let answer = added(&mut tables, source, ABSENT);
        assert_eq!(answer, wrong(Reason::DestinationDevice));
        assert_eq!(added(&mut tables, source, MOTOR), GRANTED);
        assert_eq!(added(&mut tables, source, MOTOR), wrong(Reason::Present));
    }
    let absent = added(&mut house(), unit(any::UNIT, ABSENT), MOTOR);
    assert_eq!(absent, wrong(Reason::SourceDevice));
}

#[test]
fn another_code_has_no_reason() {
    let mut tables = house();
    let without_rights = (code::NOT_AUTHORIZED, None);
    for payload in [&bind(ABSENT, ABSENT)[..], &[0; 7], &bind(SWITCH, MOTOR)] {
        assert_eq!(told(&mut tables, MOTOR, 1, payload), without_rights);
    }
    // A full table, of binds that differ in their UIDs.
    for (uid, record) in tables.binds.chunks_exact_mut(8).enumerate() {
        record.copy_from_slice(&bind(SWITCH, MOTOR));
        record[4] = uid as u8;
    }
    assert!(!tables.binds.chunks(8).any(|record| record == [FREE; 8]));
    let full = (code::NOT_ENOUGH_RESOURCES, None);
    assert_eq!(added(&mut tables, SWITCH, GROUP), full);
    assert_eq!(added(&mut tables, SWITCH, MOTOR), wrong(Reason::Present));
}

#[test]
fn another_command_or_outcome_has_no_reason() {
    let mut tables = house();
    let refused = (code::INVALID_ARGUMENT, None);
    for payload in [&bind(ABSENT, ABSENT)[..], &[0; 7]] {
        assert_eq!(told(&mut tables, SWITCH, 2, payload), refused);
    }
    let mut message = [
        0, 9, 1, 0, 0, 0, 0, 0, 7, 1, 0x80, 2, 1, 0, 8, 0, 9, 1, 0x82, 0, 0, 9, 1,
    ];
    let (mut reply, mut list) = ([0; LONGEST], [0; LIST_LENGTH]);
    let answer = tables.message(&message, &mut reply, &mut list);
    assert_eq!(answer, (Outcome::NoSource, 0, None));
    message[14] = 7;
    let answer = tables.message(&message, &mut reply, &mut list);
    assert_eq!(answer, (Outcome::WrongDataLength, 0, None));
}

#[test]
fn no_reason_is_left_from_the_call_before() {
    let mut tables = house();
    assert_eq!(added(&mut tables, SWITCH, SWITCH), wrong(Reason::Itself));
    assert_eq!(added(&mut tables, SWITCH, MOTOR), GRANTED);
    assert_eq!(added(&mut tables, SWITCH, MOTOR), wrong(Reason::Present));
    let removed = told(&mut tables, SWITCH, 2, &bind(SWITCH, MOTOR));
    assert_eq!(removed, GRANTED);
    let pressed = [0, 3, 1, 0x7F, 0xFF, 0xFF, 0, 0, 8, 1, 0x82, 0, 1, 0, 0];
    assert_eq!(added(&mut tables, SWITCH, ABSENT).0, code::INVALID_ARGUMENT);
    let answer = tables.message(&pressed, &mut [0; LONGEST], &mut [0; LIST_LENGTH]);
    assert_eq!(answer, (Outcome::Nobody, 0, None));
}

#[test]
fn reasons_have_the_papers_numbers_octets_and_a_sentence() {
    let reasons: Vec<Reason> = (0..=255).filter_map(Reason::from_number).collect();
    let numbers: Vec<_> = reasons.iter().map(|reason| reason.number()).collect();
    assert_eq!(numbers, [1, 2, 3, 4, 5, 6, 7, 8, 9]);
    let octets: Vec<_> = reasons.iter().map(|reason| reason.octet()).collect();
    assert_eq!(octets, [0, 1, 3, 8, 6, 8, 6, 6, 1]);
    // In the crate as in the header for C, and as `links` says them.
    let header = include_str!("../../../include/gneissfold.h");
    let links = include_str!("../../../crates/reason_text/specs/Saying.antt");
    // Before the first of them, the header also has what it says of no reason.
    for (text, start, before) in [(header, "return \"", 2), (links, "= ascii \"", 1)] {
        let sentences = text.split(start).skip(before);
        let sentences = sentences.filter_map(|rest| rest.split('"').next());
        assert!(sentences.take(9).eq(reasons.iter().map(Reason::to_string)));
    }
}
