//! Binds read back: a fitter compares the hub with a sheet, page by page, and starts again where somebody changed it.
use gneissfold::{
    code, Outcome, Tables, Units, FREE, HEADER_LENGTH, LIST_LENGTH, LONGEST, MOST_ENTRIES,
    SESSIONS_LENGTH,
};

const FITTER: u16 = 0x0101;
const MOTOR: u16 = 0x0201;
/// Members of Bind Management.
const ADD: u8 = 0x01;
const REMOVE: u8 = 0x02;
const START: u8 = 0x07;
const END: u8 = 0x08;
const BY_INDEX: u8 = 0x09;
const BY_SOURCE: u8 = 0x0A;
const BY_DESTINATION: u8 = 0x0C;

/// The fitter's device and nine more with rights, and a motor without.
fn house() -> Tables {
    let mut tables = Tables::new();
    for address in FITTER..FITTER + 10 {
        assert_eq!(tables.admit(address, 1, Units::new()), Outcome::Done);
    }
    assert_eq!(tables.admit(MOTOR, 0, Units::up_to(1)), Outcome::Done);
    tables
}

/// The payload of the reply to a Bind Management command from unit 0 of a device.
fn told(tables: &mut Tables, from: u16, member: u8, payload: &[u8]) -> Vec<u8> {
    let [a, b] = from.to_be_bytes();
    let length = payload.len() as u8;
    let mut message = vec![a, b, 0, 0, 0, 0, 0, 0, 7, 1, 0x80, 2, member, 0, length];
    message.extend(payload);
    let mut reply = [0; LONGEST];
    let (outcome, length, _) = tables.message(&message, &mut reply, &mut [0; LIST_LENGTH]);
    assert_eq!(outcome, Outcome::Done);
    reply[HEADER_LENGTH..length].to_vec()
}

/// From the fitter's device to unit 1 of the motor, at this UID.
fn bind(uid: u8) -> [u8; 8] {
    [0x01, 0x01, 0, 0x82, uid, 0x02, 0x01, 1]
}

#[test]
fn all_binds_are_read_page_by_page() {
    let mut tables = house();
    let sheet: Vec<[u8; 8]> = (0..64).map(bind).collect();
    for bind in &sheet {
        assert_eq!(told(&mut tables, FITTER, ADD, bind), [code::OK]);
    }
    assert_eq!(told(&mut tables, FITTER, START, &[]), [code::OK, 0, 64]);
    let mut read = Vec::new();
    loop {
        let page = told(&mut tables, FITTER, BY_INDEX, &[0, read.len() as u8, 0xFF]);
        assert_eq!(page[0], code::OK);
        let entries = page[2..].chunks(8);
        assert_eq!(usize::from(page[1]), entries.len());
        if page[1] == 0 {
            break;
        }
        assert!(entries.len() <= MOST_ENTRIES);
        read.extend(entries.map(<[u8]>::to_vec));
    }
    assert_eq!(read, sheet);
    let source = told(&mut tables, FITTER, BY_SOURCE, &[0x01, 0x01]);
    assert_eq!(usize::from(source[1]), MOST_ENTRIES);
    assert_eq!(source[2..], sheet[..MOST_ENTRIES].concat());
    let to_group = told(&mut tables, FITTER, BY_DESTINATION, &[0x82, 0x01]);
    assert_eq!(to_group, [code::OK, 0]);
    assert_eq!(told(&mut tables, FITTER, END, &[]), [code::OK]);
    assert_eq!(tables.sessions, [FREE; SESSIONS_LENGTH]);
}

#[test]
fn a_change_by_another_ends_the_session() {
    let mut tables = house();
    let other = FITTER + 1;
    assert_eq!(told(&mut tables, other, ADD, &bind(1)), [code::OK]);
    assert_eq!(told(&mut tables, FITTER, START, &[]), [code::OK, 0, 1]);
    assert_eq!(tables.sessions[..2], FITTER.to_be_bytes());
    let refused = told(&mut tables, other, ADD, &bind(1));
    assert_eq!(refused, [code::INVALID_ARGUMENT]);
    let read = told(&mut tables, FITTER, BY_SOURCE, &[0x01, 0x01]);
    assert_eq!(read[..2], [code::OK, 1]);
    assert_eq!(told(&mut tables, other, REMOVE, &bind(1)), [code::OK]);
    let read = told(&mut tables, FITTER, BY_SOURCE, &[0x01, 0x01]);
    assert_eq!(read, [code::NO_SESSION]);
    assert_eq!(told(&mut tables, FITTER, END, &[]), [code::UNKNOWN_REASON]);
    assert_eq!(told(&mut tables, FITTER, START, &[]), [code::OK, 0, 0]);
}

#[test]
fn eight_read_at_once_and_a_release_makes_room() {
    let mut tables = house();
    for address in FITTER..FITTER + 8 {
        assert_eq!(told(&mut tables, address, START, &[]), [code::OK, 0, 0]);
    }
    let full = tables.clone();
    let ninth = told(&mut tables, FITTER + 8, START, &[]);
    assert_eq!(ninth, [code::NOT_ENOUGH_RESOURCES]);
    assert_eq!(told(&mut tables, FITTER, START, &[]), [code::OK, 0, 0]);
    let without_rights = told(&mut tables, MOTOR, START, &[]);
    assert_eq!(without_rights, [code::NOT_AUTHORIZED]);
    assert_eq!(tables, full);
    // No bind names it: the seven others read on.
    assert_eq!(tables.release(FITTER + 3), Outcome::Done);
    assert_eq!(tables.sessions[6..8], [FREE; 2]);
    let ninth = told(&mut tables, FITTER + 8, START, &[]);
    assert_eq!(ninth, [code::OK, 0, 0]);
    let read = told(&mut tables, FITTER, BY_INDEX, &[0, 0, 1]);
    assert_eq!(read, [code::OK, 0]);
}

#[test]
fn sessions_that_are_not_sound_are_refused() {
    for session in [[0, 9], [0x81, 0x01], [0xFF, 0xFE], FITTER.to_be_bytes()] {
        let mut tables = house();
        tables.sessions[2..4].copy_from_slice(&FITTER.to_be_bytes());
        tables.sessions[8..10].copy_from_slice(&session);
        let before = tables.clone();
        assert_eq!(tables.admit(9, 0, Units::new()), Outcome::Unsound);
        assert_eq!(tables.release(MOTOR), Outcome::Unsound);
        let answer = tables.message(&[], &mut [0; LONGEST], &mut [0; LIST_LENGTH]);
        assert_eq!(answer, (Outcome::Unsound, 0, None));
        assert_eq!(tables, before);
    }
}
