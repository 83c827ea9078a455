//! A bind: its octets, what they say, its words, and the hub's binds compared with a sheet.
use gneissfold::{any, compare, Address, Bind, Role, BIND_SIZE};

/// Octets without a pattern: the same ones in every run.
fn scattered() -> impl Iterator<Item = [u8; BIND_SIZE]> {
    let mut state = 0x9E37_79B9_7F4A_7C15_u64;
    (0..2000).map(move |_| {
        state ^= state << 13;
        state ^= state >> 7;
        state ^= state << 17;
        state.to_be_bytes()
    })
}

/// The octets, scattered ones and these with each place at the ends of its range.
fn octets() -> impl Iterator<Item = [u8; BIND_SIZE]> {
    scattered().flat_map(|octets| {
        let ends = [0x00, 0x01, 0x7F, 0x80, 0xFE, 0xFF].into_iter();
        let at_ends = ends.flat_map(move |end| {
            (0..BIND_SIZE).map(move |place| {
                let mut changed = octets;
                changed[place] = end;
                changed
            })
        });
        at_ends.chain([octets, [octets[0]; BIND_SIZE]])
    })
}

#[test]
fn every_eight_octets_come_back() {
    for octets in octets().chain([[0x00; BIND_SIZE], [0xFF; BIND_SIZE]]) {
        let bind = Bind::from_octets(octets);
        assert_eq!(bind.to_octets(), octets);
        let made = Bind::new(
            bind.source_device().unwrap_or(any::DEVICE),
            bind.source_unit().unwrap_or(any::UNIT),
            bind.role(),
            bind.uid().unwrap_or(any::INTERFACE),
            bind.destination(),
            bind.destination_unit(),
        );
        // The one bit that is no field: the top bit of the source.
        let mut without_top = octets;
        without_top[0] &= 0x7F;
        assert_eq!(made, Some(Bind::from_octets(without_top)));
    }
}

#[test]
fn no_two_binds_read_the_same() {
    for octets in scattered() {
        // Near "any", and near a group of unit 0, where words change most.
        let [a, b, _, d, e, f, g, _] = octets;
        let near_any = [a | 0x7F, 0xFF, 0xFF, d | 0x7F, 0xFF, f | 0x80, g, 0];
        for octets in [octets, near_any, [a, b, 0xFF, d, e, 0x80, 0x01, 0]] {
            let words = Bind::from_octets(octets).to_string();
            for bit in 0..64 {
                let mut other = octets;
                other[bit / 8] ^= 1 << (bit % 8);
                assert_ne!(Bind::from_octets(other).to_string(), words);
            }
        }
    }
}

#[test]
fn a_number_of_more_than_15_bits_makes_no_bind() {
    let made = |device, uid, to| Bind::new(device, 1, Role::Client, uid, to, 2);
    assert!(made(0x7FFF, 0x7FFF, Address::Group(0x7FFF)).is_some());
    for bad in [0x8000, 0x8003, 0xFFFF] {
        assert_eq!(made(bad, 0x0200, Address::Device(4)), None);
        assert_eq!(made(3, bad, Address::Device(4)), None);
        assert_eq!(made(3, 0x0200, Address::Device(bad)), None);
        assert_eq!(made(3, 0x0200, Address::Group(bad)), None);
    }
}

#[test]
fn binds_read_in_words() {
    for (octets, words) in [
        (
            [0x00, 0x03, 0x01, 0x82, 0x00, 0x00, 0x04, 0x02],
            "0003:01 to 0004:02 at server interface 0x0200",
        ),
        (
            [0x7F, 0xFF, 0x07, 0x82, 0x00, 0x80, 0x01, 0x00],
            "unit 07 of any device to group 0001 at server interface 0x0200",
        ),
        (
            [0x01, 0x0A, 0xFF, 0x02, 0x00, 0x80, 0x01, 0x05],
            "any unit of 010A to group 0001 (unit 05) at client interface 0x0200",
        ),
        (
            [0x7F, 0xFF, 0xFF, 0xFF, 0xFF, 0x00, 0x06, 0x09],
            "any unit of any device to 0006:09 at any server interface",
        ),
        (
            [0x80, 0x03, 0x01, 0x7F, 0xFF, 0x00, 0x04, 0x02],
            "0003:01 (top bit set) to 0004:02 at any client interface",
        ),
    ] {
        let bind = Bind::from_octets(octets);
        assert_eq!(bind.to_string(), words);
        assert_eq!(format!("{bind:?}"), format!("Bind({words})"));
    }
}

/// From 3:01 to this unit of device 4.
fn to(unit: u8) -> Bind {
    Bind::new(3, 1, Role::Server, 0x0200, Address::Device(4), unit).unwrap()
}

/// Missing, and too many, as the units that the binds lead to.
fn compared(hub: &[u8], sheet: &[u8]) -> (Vec<u8>, Vec<u8>) {
    let [hub, sheet] = [hub, sheet].map(|units| units.iter().copied().map(to).collect::<Vec<_>>());
    let comparison = compare(&hub, &sheet);
    let missing: Vec<u8> = comparison.missing().map(|b| b.destination_unit()).collect();
    let too_many: Vec<u8> = comparison
        .too_many()
        .map(|b| b.destination_unit())
        .collect();
    let agrees = missing.is_empty() && too_many.is_empty();
    assert_eq!(comparison.agrees(), agrees);
    assert_eq!(comparison.to_string().is_empty(), agrees);
    (missing, too_many)
}

#[test]
fn a_sheet_is_compared_in_any_order_and_by_how_often_a_bind_stands() {
    assert_eq!(compared(&[], &[]), (vec![], vec![]));
    assert_eq!(compared(&[1, 2, 3], &[3, 1, 2]), (vec![], vec![]));
    assert_eq!(compared(&[1, 2, 3], &[3, 4, 1]), (vec![4], vec![2]));
    assert_eq!(compared(&[], &[2, 1]), (vec![2, 1], vec![]));
    assert_eq!(compared(&[2, 1], &[]), (vec![], vec![2, 1]));
    assert_eq!(compared(&[1], &[1, 1, 2, 1]), (vec![1, 2, 1], vec![]));
    assert_eq!(compared(&[5, 1, 5, 5], &[5]), (vec![], vec![1, 5, 5]));
    assert_eq!(compared(&[1, 1, 2], &[2, 2, 1]), (vec![2], vec![1]));
    assert_eq!(compared(&[1, 2, 1], &[2, 1, 1]), (vec![], vec![]));
    assert_eq!(compared(&[1, 1, 1], &[1, 1]), (vec![], vec![1]));
}

#[test]
fn a_comparison_reads_line_by_line() {
    let (hub, sheet) = ([to(1), to(2)], [to(2), to(5)]);
    assert_eq!(
        compare(&hub, &sheet).to_string(),
        "missing: 0003:01 to 0004:05 at server interface 0x0200\n\
         too many: 0003:01 to 0004:01 at server interface 0x0200\n"
    );
}
