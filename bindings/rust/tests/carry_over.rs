//! Devices of the old form, carried over: record by record, and refused.
use gneissfold::{
    carry_over, recipients, Outcome, Tables, Units, BINDS_LENGTH, DEVICES_LENGTH, FREE,
    GROUPS_LENGTH, LIST_LENGTH, LONGEST, MEMBERS_LENGTH, OLD_DEVICES_LENGTH,
};

/// What stands in the new table before it is written.
const BEFORE: u8 = 0xAA;

/// A record of the new form.
fn record(address: u16, rights: u8, units: Units) -> [u8; 36] {
    let mut record = [0; 36];
    record[..2].copy_from_slice(&address.to_be_bytes());
    record[2] = rights;
    record[4..].copy_from_slice(units.octets());
    record
}

/// An old table at full size: these records, and free ones behind.
fn old(records: &[[u8; 4]]) -> [u8; OLD_DEVICES_LENGTH] {
    let mut table = [FREE; OLD_DEVICES_LENGTH];
    table[..4 * records.len()].copy_from_slice(&records.concat());
    table
}

#[test]
fn each_record_has_units_up_to_its_highest_in_its_place() {
    for highest in 0..=254 {
        let old = old(&[
            [0, 3, 1, highest],
            [FREE; 4],
            [0x7F, 0xFE, 0, 254 - highest],
        ]);
        let mut devices = [BEFORE; DEVICES_LENGTH];
        assert_eq!(carry_over(&old, &mut devices), Outcome::Done);
        assert_eq!(devices[..36], record(3, 1, Units::up_to(highest)));
        assert_eq!(devices[36..72], [FREE; 36]);
        let last = record(0x7FFE, 0, Units::up_to(254 - highest));
        assert_eq!(devices[72..108], last);
        assert!(devices[108..].iter().all(|&octet| octet == FREE));
    }
}

#[test]
fn a_table_of_any_number_of_records_is_carried_over() {
    let old: Vec<u8> = (1..=64).flat_map(|address| [0, address, 0, 1]).collect();
    for records in 0..=64 {
        let mut devices = vec![BEFORE; 36 * records];
        assert_eq!(carry_over(&old[..4 * records], &mut devices), Outcome::Done);
        let due = (1..=records as u16).flat_map(|address| record(address, 0, Units::up_to(1)));
        assert!(devices.into_iter().eq(due));
    }
}

#[test]
fn an_old_table_that_is_not_sound_is_refused_and_nothing_is_written() {
    let refused: [&[u8]; 8] = [
        &[0, 3, 1, 255],
        &[0, 3, 2, 1],
        &[0, 0, 1, 1],
        &[0x7F, 0xFF, 1, 1],
        &[0x80, 3, 1, 1],
        &[0, 3, 1, 1, FREE, FREE, FREE, FREE, 0, 3, 0, 2],
        &[0, 3, 1],
        &[FREE; 4 * 65],
    ];
    for old in refused {
        // With a new table of the right length, and of a wrong one: 16 comes before 17.
        for length in [9 * old.len(), 9 * old.len() + 1] {
            let mut devices = vec![BEFORE; length];
            assert_eq!(carry_over(old, &mut devices), Outcome::Unsound, "{old:?}");
            assert!(devices.iter().all(|&octet| octet == BEFORE));
        }
    }
}

#[test]
fn a_new_table_of_another_length_is_refused_and_nothing_is_written() {
    for length in [0, 4, 36, 71, 73, 108] {
        let mut devices = vec![BEFORE; length];
        let outcome = carry_over(&[0, 3, 1, 1, FREE, FREE, FREE, FREE], &mut devices);
        assert_eq!(outcome, Outcome::NoRoom, "{length}");
        assert!(devices.iter().all(|&octet| octet == BEFORE));
    }
}

#[test]
fn what_was_bound_before_is_bound_after() {
    let mut binds = [FREE; BINDS_LENGTH];
    binds[..8].copy_from_slice(&[0, 3, 1, 0x82, 0, 0, 4, 1]);
    let (groups, members) = ([FREE; GROUPS_LENGTH], [FREE; MEMBERS_LENGTH]);
    let devices = old(&[[0, 3, 1, 1], [0, 4, 0, 1]]);
    let mut tables = Tables::carried_over(&devices, binds, groups, members).unwrap();
    assert_eq!(
        (tables.binds, tables.groups, tables.members),
        (binds, groups, members)
    );

    let pressed = [0, 3, 1, 0x7F, 0xFF, 0xFF, 0, 0, 8, 1, 0x82, 0, 1, 0, 0];
    let mut list = [0; LIST_LENGTH];
    let answer = tables.message(&pressed, &mut [0; LONGEST], &mut list);
    assert_eq!(answer, (Outcome::Forwarded, 1, None));
    assert!(recipients(&list, 1).eq([(4, 1)]));

    let twice = old(&[[0, 3, 1, 1], [0, 3, 0, 1]]);
    let refused = Tables::carried_over(&twice, binds, groups, members);
    assert_eq!(refused, Err(Outcome::Unsound));
}
