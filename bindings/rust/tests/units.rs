//! Sets of units, by themselves: no call of the library is made here.
use gneissfold::Units;

/// The numbers that a set has, asked one by one.
fn numbers(units: Units) -> Vec<u8> {
    (0..=255).filter(|&unit| units.has(unit)).collect()
}

#[test]
fn a_set_has_unit_0_and_what_was_put_in() {
    assert_eq!(numbers(Units::new()), [0]);
    assert_eq!(Units::default(), Units::new());
    for unit in 1..=255 {
        assert_eq!(numbers(Units::new().with(unit)), [0, unit]);
    }
    assert_eq!(numbers(Units::new().with(9).with(1).with(2)), [0, 1, 2, 9]);
}

#[test]
fn what_is_put_in_twice_is_there_once() {
    assert_eq!(Units::new().with(0), Units::new());
    assert_eq!(Units::new().with(9).with(9), Units::new().with(9));
}

#[test]
fn up_to_has_all_from_0_to_the_highest() {
    for highest in 0..=255 {
        assert!(numbers(Units::up_to(highest)).into_iter().eq(0..=highest));
    }
}

#[test]
fn the_lowest_bit_of_the_first_octet_is_unit_0() {
    assert_eq!(
        Units::new().with(7).with(9).octets()[..3],
        [0b1000_0001, 0b10, 0]
    );
    assert_eq!(Units::up_to(254).octets()[..31], [0xFF; 31]);
    assert_eq!(Units::up_to(254).octets()[31], 0x7F);
}

#[test]
fn octets_are_taken_as_they_are() {
    let mut octets = [0; 32];
    octets[0] = 0b10;
    octets[31] = 0x80;
    assert_eq!(numbers(Units::from_octets(octets)), [1, 255]);
    assert_eq!(Units::from_octets(octets).octets(), &octets);
}

#[test]
fn a_set_is_shown_as_its_numbers() {
    assert_eq!(
        format!("{:?}", Units::new().with(1).with(2).with(9)),
        "{0, 1, 2, 9}"
    );
}
