//! A set of units, as [`admit`](crate::admit) takes it.

use core::fmt;

use crate::lengths::UNITS_LENGTH;

/// The units of a device, in whichever numbers: one bit per unit, the lowest bit of the first octet for unit 0.
///
/// A valance with three motors:
///
/// ```
/// use gneissfold::Units;
///
/// let valance = Units::new().with(1).with(2).with(9);
/// assert!(valance.has(9) && !valance.has(8));
/// ```
///
/// Every device has unit 0, and none has unit 255. A set can hold 255, and [from octets](Units::from_octets) it can lack 0: nothing is taken
/// out or put in on the way, and `admit` answers [`Outcome::OutOfRange`](crate::Outcome::OutOfRange).
#[derive(Clone, Copy, PartialEq, Eq, Hash)]
pub struct Units([u8; UNITS_LENGTH]);

impl Units {
    /// Unit 0 alone, which every device has.
    pub const fn new() -> Units {
        Units([0; UNITS_LENGTH]).with(0)
    }

    /// Units 0 to `highest`.
    pub const fn up_to(highest: u8) -> Units {
        let mut units = Units::new();
        let mut unit = highest;
        while unit > 0 {
            units = units.with(unit);
            unit -= 1;
        }
        units
    }

    /// This set and `unit`. Unit 255 is held too, so that `admit` can refuse it: a wrong number from a device is no panic, and is not lost.
    #[must_use = "the set itself stays as it is"]
    pub const fn with(mut self, unit: u8) -> Units {
        self.0[unit as usize / 8] |= 1 << (unit % 8);
        self
    }

    /// Whether `unit` is in the set.
    pub const fn has(&self, unit: u8) -> bool {
        self.0[unit as usize / 8] >> (unit % 8) & 1 == 1
    }

    /// The set that these octets are: the last 32 of a device's record.
    pub const fn from_octets(octets: [u8; UNITS_LENGTH]) -> Units {
        Units(octets)
    }

    /// The set as octets.
    pub const fn octets(&self) -> &[u8; UNITS_LENGTH] {
        &self.0
    }
}

impl Default for Units {
    fn default() -> Units {
        Units::new()
    }
}

/// The numbers of the units, rising: `{0, 1, 2, 9}`.
impl fmt::Debug for Units {
    fn fmt(&self, f: &mut fmt::Formatter<'_>) -> fmt::Result {
        let units = (0..=255).filter(|&unit| self.has(unit));
        f.debug_set().entries(units).finish()
    }
}
