//! Old device tables carried over ("CR 2").

use crate::world::{device, units};
use other_reading::carry_over;

/// A refusal leaves the new table as lent; "every octet of new" is written else.
fn carried(old: &[u8], length: usize) -> (u8, Vec<u8>) {
    let mut new = vec![0xA5; length];
    let outcome = carry_over(old, &mut new);
    if outcome != 0 {
        assert!(new.iter().all(|&octet| octet == 0xA5));
    }
    let mut other = vec![0x5A; length];
    assert_eq!(carry_over(old, &mut other), outcome);
    if outcome == 0 {
        assert_eq!(other, new);
    }
    (outcome, new)
}

#[test]
fn record_by_record() {
    let old = [
        [0, 3, 1, 2],
        [0xFF; 4],
        [0, 4, 0, 0],
        [1, 0, 0, 7],
        [0, 1, 1, 8],
        [0x7F, 0xFE, 0, 254],
        [0xFF; 4],
    ];
    let mut every = [0xFF; 32];
    every[31] = 0x7F;
    let new = [
        device(3, 1, units(&[0x07])),
        [0xFF; 36],
        device(4, 0, units(&[0x01])),
        device(0x100, 0, units(&[0xFF])),
        device(1, 1, units(&[0xFF, 0x01])),
        device(0x7FFE, 0, every),
        [0xFF; 36],
    ];
    assert_eq!(carried(&old.concat(), 7 * 36), (0, new.concat()));
}

#[test]
fn lengths() {
    assert_eq!(carried(&[], 0).0, 0);
    assert_eq!(carried(&[], 1).0, 17);
    let old = [0xFF; 8];
    for length in [0, 8, 36, 71, 73, 108] {
        assert_eq!(carried(&old, length).0, 17);
    }
    assert_eq!(carried(&old, 72), (0, vec![0xFF; 72]));
    assert_eq!(carried(&[0xFF; 256], 2304).0, 0);
    // Past the limit, and no multiple of four.
    assert_eq!(carried(&[0xFF; 260], 2340).0, 16);
    for length in [1, 7, 9, 255] {
        assert_eq!(carried(&[0xFF; 256][..length], 9 * length).0, 16);
    }
}

#[test]
fn old_tables_that_are_not_sound() {
    let good = [0, 3, 1, 2];
    for bad in [
        [0, 0, 1, 2],
        [0x7F, 0xFF, 1, 2],
        [0x80, 3, 1, 2],
        [0, 4, 2, 2],
        [0, 4, 1, 255],
        [0xFF, 0xFF, 0xFF, 0],
        [0, 0xFF, 0xFF, 0xFF],
        [0, 3, 0, 9],
        good,
    ] {
        let old = [good, [0xFF; 4], bad].concat();
        assert_eq!(carried(&old, 108).0, 16, "{bad:?}");
        // "16 for an unsound old table, then 17".
        assert_eq!(carried(&old, 107).0, 16, "{bad:?}");
    }
    assert_eq!(carried(&[good, [0xFF; 4], [0, 4, 0, 9]].concat(), 108).0, 0);
}
