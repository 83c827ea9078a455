//! A valance with three motors, units 1, 2 and 9: which units exist, and which sets are refused.
use gneissfold::{
    code, recipients, Outcome, Reason, Tables, Units, HEADER_LENGTH, LIST_LENGTH, LONGEST,
};

const SWITCH: u16 = 3;
const VALANCE: u16 = 4;

fn valance() -> Units {
    Units::new().with(1).with(2).with(9)
}

/// A house with a switch, units 0 and 1, and the valance.
fn house() -> Tables {
    let mut tables = Tables::new();
    assert_eq!(tables.admit(SWITCH, 1, Units::up_to(1)), Outcome::Done);
    assert_eq!(tables.admit(VALANCE, 0, valance()), Outcome::Done);
    tables
}

/// What becomes of a message, and whom it goes to.
fn sent(tables: &mut Tables, message: &[u8]) -> (Outcome, Vec<(u16, u8)>) {
    let mut list = [0; LIST_LENGTH];
    let (outcome, count, _) = tables.message(message, &mut [0; LONGEST], &mut list);
    (outcome, recipients(&list, count).collect())
}

/// A command to the server interface 0x0200, without payload.
fn command(from: (u16, u8), to: (u16, u8)) -> [u8; HEADER_LENGTH] {
    let [[a, b], [c, d]] = [from.0.to_be_bytes(), to.0.to_be_bytes()];
    [a, b, from.1, c, d, to.1, 0, 0, 8, 1, 0x82, 0, 1, 0, 0]
}

/// What Add Bind gets, its code and a reason: 3:01, server interface 0x0200, to this unit of the valance.
fn bound(tables: &mut Tables, unit: u8) -> (u8, Option<Reason>) {
    let add_bind = [
        0, 3, 1, 0, 0, 0, 0, 0, 7, 1, 0x80, 2, 1, 0, 8, 0, 3, 1, 0x82, 0, 0, 4, unit,
    ];
    let mut reply = [0; LONGEST];
    let (outcome, length, reason) = tables.message(&add_bind, &mut reply, &mut [0; LIST_LENGTH]);
    assert_eq!((outcome, length), (Outcome::Done, 16));
    (reply[HEADER_LENGTH], reason)
}

#[test]
fn its_record_has_a_bit_for_each_unit() {
    let record = &house().devices[36..72];
    assert_eq!(record[..6], [0, 4, 0, 0, 0b111, 0b10]);
    assert_eq!(record[6..], [0; 30]);
}

#[test]
fn the_units_of_its_set_exist_and_no_others() {
    let mut tables = house();
    for unit in 0..=255 {
        let to = sent(&mut tables, &command((SWITCH, 1), (VALANCE, unit)));
        let from = sent(&mut tables, &command((VALANCE, unit), (SWITCH, 1)));
        if [0, 1, 2, 9].contains(&unit) {
            assert_eq!(to, (Outcome::Forwarded, vec![(VALANCE, unit)]));
            assert_eq!(from, (Outcome::Forwarded, vec![(SWITCH, 1)]));
        } else {
            assert_eq!(to, (Outcome::NoDestination, vec![]));
            assert_eq!(from, (Outcome::NoSource, vec![]));
        }
    }
}

#[test]
fn a_switch_is_bound_to_a_unit_of_its_set_alone() {
    let mut tables = house();
    let refused = (code::INVALID_ARGUMENT, Some(Reason::DestinationUnit));
    assert_eq!(bound(&mut tables, 8), refused);
    assert_eq!(bound(&mut tables, 9), (code::OK, None));
    let pressed = sent(&mut tables, &command((SWITCH, 1), (0x7FFF, 0xFF)));
    assert_eq!(pressed, (Outcome::Forwarded, vec![(VALANCE, 9)]));
}

#[test]
fn a_set_without_unit_0_or_with_unit_255_is_refused() {
    let mut octets = *valance().octets();
    octets[0] &= !1;
    let mut tables = Tables::new();
    for units in [
        Units::from_octets(octets),
        valance().with(255),
        Units::up_to(255),
    ] {
        assert_eq!(tables.admit(VALANCE, 0, units), Outcome::OutOfRange);
    }
    assert_eq!(tables, Tables::new());
    assert_eq!(tables.admit(VALANCE, 0, Units::up_to(254)), Outcome::Done);
}

#[test]
fn a_record_with_another_octet_4_unit_0_or_unit_255_is_not_sound() {
    for (place, octet) in [(3, 1), (4, 0b110), (35, 0x80)] {
        let mut tables = house();
        tables.devices[36 + place] = octet;
        let outcome = sent(&mut tables, &command((SWITCH, 1), (VALANCE, 9)));
        assert_eq!(outcome, (Outcome::Unsound, vec![]), "place {place}");
    }
}
