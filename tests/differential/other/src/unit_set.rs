//! Which units a device has ("CR 2"): "32 octets with one bit per unit, the
//! lowest bit of the first octet for unit 0".

use crate::NO_UNIT;

/// Octets of a set.
pub const UNIT_SET: usize = 32;

pub type UnitSet = [u8; UNIT_SET];

pub fn has(units: &UnitSet, unit: u8) -> bool {
    units[usize::from(unit / 8)] & 1 << (unit % 8) != 0
}

/// "Unit 0 is always set and unit 255 never."
pub fn in_range(units: &UnitSet) -> bool {
    has(units, 0) && !has(units, NO_UNIT)
}

/// "units 0 to the highest", as an old table means them.
pub fn up_to(highest: u8) -> UnitSet {
    let mut units = [0; UNIT_SET];
    for unit in 0..=highest {
        units[usize::from(unit / 8)] |= 1 << (unit % 8);
    }
    units
}
