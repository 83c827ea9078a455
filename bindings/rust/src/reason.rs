//! What is wrong with the bind of an Add Bind that is answered 0x02.

use core::fmt;

/// What is wrong with a bind, with the paper's numbers: `reason as u8` is the number. Of several that hold it is the first.
///
/// Of a source of [any](crate::any) device nothing is asked; of any unit of a device that is written out, only that the device exists.
#[derive(Clone, Copy, Debug, PartialEq, Eq, Hash)]
#[repr(u8)]
pub enum Reason {
    /// Payload length not 8.
    Length = 1,
    /// Source device written out that does not exist.
    SourceDevice = 2,
    /// Source unit written out that the source device, written out, has not.
    SourceUnit = 3,
    /// Destination unit 0xFF, behind a group too.
    UnitFf = 4,
    /// Individual destination whose device does not exist.
    DestinationDevice = 5,
    /// Individual destination whose device has not that unit. D'0000 has unit 0 only.
    DestinationUnit = 6,
    /// Group does not exist.
    Group = 7,
    /// Individual destination is the source unit itself.
    Itself = 8,
    /// Same bind present.
    Present = 9,
}

impl Reason {
    /// The reason of a number, or `None` where the paper has no such reason; 0 says that there is none.
    pub const fn from_number(number: u8) -> Option<Reason> {
        Some(match number {
            1 => Reason::Length,
            2 => Reason::SourceDevice,
            3 => Reason::SourceUnit,
            4 => Reason::UnitFf,
            5 => Reason::DestinationDevice,
            6 => Reason::DestinationUnit,
            7 => Reason::Group,
            8 => Reason::Itself,
            9 => Reason::Present,
            _ => return None,
        })
    }

    /// The paper's number.
    pub const fn number(self) -> u8 {
        self as u8
    }

    /// The first octet concerned of the payload, counted from 1, and 0 for the length. Octet o of the payload is octet 15 + o of the message.
    pub const fn octet(self) -> u8 {
        match self {
            Reason::Length => 0,
            Reason::SourceDevice | Reason::Present => 1,
            Reason::SourceUnit => 3,
            Reason::DestinationDevice | Reason::Group | Reason::Itself => 6,
            Reason::UnitFf | Reason::DestinationUnit => 8,
        }
    }
}

/// In words, for the fitter.
impl fmt::Display for Reason {
    fn fmt(&self, f: &mut fmt::Formatter<'_>) -> fmt::Result {
        f.write_str(match self {
            Reason::Length => "the bind is not eight octets long",
            Reason::SourceDevice => "the source device is not admitted",
            Reason::SourceUnit => "the source unit is not one of that device's",
            Reason::UnitFf => "the destination unit is 0xFF, which is no unit",
            Reason::DestinationDevice => "the destination device is not admitted",
            Reason::DestinationUnit => "the destination unit is not one of that device's",
            Reason::Group => "there is no such group",
            Reason::Itself => "the unit is bound to itself",
            Reason::Present => "this bind is there already",
        })
    }
}

impl core::error::Error for Reason {}

// The contract of `message` names these reasons, each with its octet, or 0 and 0.
pub(crate) fn told(number: u8, octet: u8) -> Option<Reason> {
    let reason = Reason::from_number(number);
    let numbers = reason.map_or((0, 0), |reason| (reason.number(), reason.octet()));
    debug_assert_eq!(numbers, (number, octet), "a reason of the paper");
    reason
}
