//! Sets of units, one bit each ("CR 2"): sets that a device may have, with gaps or without, and units that are in a set or only just are not.

use crate::rng::Rng;

/// "32 octets with one bit per unit, the lowest bit of the first octet for unit 0".
pub type UnitSet = [u8; 32];

/// Units at the ends of octets and of the set, and some between.
const FAR: [u8; 12] = [7, 8, 9, 15, 16, 63, 127, 128, 247, 248, 253, 254];

pub fn has(units: &[u8], unit: u8) -> bool {
    units[usize::from(unit / 8)] >> (unit % 8) & 1 == 1
}

pub fn put(units: &mut [u8], unit: u8, there: bool) {
    let octet = &mut units[usize::from(unit / 8)];
    *octet = *octet & !(1 << (unit % 8)) | u8::from(there) << (unit % 8);
}

pub fn set_of(there: impl IntoIterator<Item = u8>) -> UnitSet {
    let mut units = [0; 32];
    for unit in there {
        put(&mut units, unit, true);
    }
    units
}

/// A set that a device may have: unit 0 in it and unit 255 not.
pub fn some_set(rng: &mut Rng) -> UnitSet {
    let mut units = match rng.below(20) {
        0..=7 => set_of(0..=rng.weighted(&[(40, 2), (20, 0), (20, 1), (10, 9), (10, 254)])),
        // The three-motor valance.
        8..=11 => set_of([1, 2, 9]),
        12..=15 => set_of([FAR[rng.below(FAR.len())]]),
        16 => set_of((0..3).map(|_| rng.octet())),
        // All but a few.
        17 => set_of((0..3).map(|_| rng.octet())).map(|octet| !octet),
        // One octet throughout, which is another with its bits counted from the top.
        18 => [rng.weighted(&[(1, 0x55), (1, 0xAA), (1, 0x0F), (1, 0xF0)]); 32],
        _ => [(); 32].map(|()| rng.octet()),
    };
    put(&mut units, 0, true);
    put(&mut units, 255, false);
    units
}

/// A set to admit a device with, now and then one that no device may have.
pub fn perhaps_set(rng: &mut Rng) -> UnitSet {
    let mut units = some_set(rng);
    match rng.below(40) {
        0 => put(&mut units, 0, false),
        1 => put(&mut units, 255, true),
        2 => units = [rng.weighted(&[(1, 0x00), (1, 0xFF), (1, 0x80), (1, 0x01)]); 32],
        _ => (),
    }
    units
}

/// A unit of the set, the highest and the lowest ones often; 0 if it has none.
pub fn some_unit(rng: &mut Rng, units: &[u8]) -> u8 {
    let count: usize = units.iter().map(|octet| octet.count_ones() as usize).sum();
    let at = match rng.below(3) {
        0 => count.max(1) - 1,
        1 => rng.below(count.min(3)),
        _ => rng.below(count),
    };
    let mut there = (0..=255).filter(|&unit| has(units, unit));
    there.nth(at).unwrap_or(0)
}

/// A unit whose bit could be taken for this one's: beside it, at its place in the octet beside, or where it would stand if the bits of an octet, the
/// octets, or both were counted from the other end.
pub fn near(rng: &mut Rng, unit: u8) -> u8 {
    match rng.below(7) {
        0 => unit.wrapping_add(1),
        1 => unit.wrapping_sub(1),
        2 => unit.wrapping_add(8),
        3 => unit.wrapping_sub(8),
        4 => unit ^ 0x07,
        5 => unit ^ 0xF8,
        _ => unit ^ 0xFF,
    }
}
