//! A bind as the hub keeps it, and what its 8 octets say.

use core::fmt;

use crate::any;
use crate::lengths::BIND_SIZE;

/// The bit above the 15 of a number: the role before a UID, the kind of address before a destination, and before a source nothing.
const FLAG: u16 = 0x8000;

/// Of which type the interface is, at which a bind is used. It is always compared: there is no value for any.
#[derive(Clone, Copy, Debug, PartialEq, Eq, Hash, PartialOrd, Ord)]
pub enum Role {
    Client,
    Server,
}

/// Where a bind leads: to a device, and there to a unit, or to a group.
#[derive(Clone, Copy, Debug, PartialEq, Eq, Hash, PartialOrd, Ord)]
pub enum Address {
    Device(u16),
    Group(u16),
}

impl Address {
    /// The two octets of a destination, the flag of a group among them. `None` where the number needs more than 15 bits.
    pub const fn to_octets(self) -> Option<[u8; 2]> {
        let (flag, number) = match self {
            Address::Device(number) => (0, number),
            Address::Group(number) => (FLAG, number),
        };
        if number & FLAG != 0 {
            return None;
        }
        Some((flag | number).to_be_bytes())
    }
}

/// One bind: from a unit, at an interface, to a unit or a group. Source device, source unit and interface may say [any](crate::any).
///
/// ```
/// use gneissfold::{any, Address, Bind, Role};
///
/// let key = Bind::new(3, 1, Role::Server, 0x0200, Address::Device(4), 2).unwrap();
/// assert_eq!(key.to_octets(), [0x00, 0x03, 0x01, 0x82, 0x00, 0x00, 0x04, 0x02]);
/// assert_eq!(key.to_string(), "0003:01 to 0004:02 at server interface 0x0200");
///
/// let scene = Bind::new(any::DEVICE, 7, Role::Server, 0x0200, Address::Group(1), 0).unwrap();
/// assert_eq!(scene.source_device(), None);
/// assert_eq!(scene.to_string(), "unit 07 of any device to group 0001 at server interface 0x0200");
/// ```
///
/// It is its 8 octets, and two are equal where these are, as the hub itself compares them: every 8 octets are a `Bind`, and come back as
/// they were. That holds for the octets that mean nothing too: the unit behind a group, which a bind keeps and nobody asks for, and the top bit of the
/// source, which a hub keeps as 0.
#[derive(Clone, Copy, PartialEq, Eq, Hash, PartialOrd, Ord)]
pub struct Bind([u8; BIND_SIZE]);

impl Bind {
    /// The bind of these numbers; [`any::DEVICE`], [`any::UNIT`] and [`any::INTERFACE`] are numbers as well. Behind a group the unit plays no part, and
    /// is best 0. `None` where device, UID or destination needs more than 15 bits: no bit of a sheet is lost. Whether the hub takes the bind Add Bind says.
    pub const fn new(
        device: u16,
        unit: u8,
        role: Role,
        uid: u16,
        destination: Address,
        destination_unit: u8,
    ) -> Option<Bind> {
        let Some([f, g]) = destination.to_octets() else {
            return None;
        };
        if (device | uid) & FLAG != 0 {
            return None;
        }
        let interface = match role {
            Role::Client => uid,
            Role::Server => FLAG | uid,
        };
        let ([a, b], [d, e]) = (device.to_be_bytes(), interface.to_be_bytes());
        Some(Bind([a, b, unit, d, e, f, g, destination_unit]))
    }

    /// The bind that these octets are: a record of the bind table, an entry of a read, or the payload of Add Bind.
    pub const fn from_octets(octets: [u8; BIND_SIZE]) -> Bind {
        Bind(octets)
    }

    /// The bind as octets.
    pub const fn to_octets(&self) -> [u8; BIND_SIZE] {
        self.0
    }

    /// The source device; `None` is any device. The top bit is no part of the number.
    pub const fn source_device(&self) -> Option<u16> {
        match self.word(0) & !FLAG {
            any::DEVICE => None,
            device => Some(device),
        }
    }

    /// The source unit; `None` is any unit.
    pub const fn source_unit(&self) -> Option<u8> {
        match self.0[2] {
            any::UNIT => None,
            unit => Some(unit),
        }
    }

    /// The type of the interface.
    pub const fn role(&self) -> Role {
        if self.word(3) & FLAG == 0 {
            Role::Client
        } else {
            Role::Server
        }
    }

    /// The UID of the interface; `None` is any interface of this type.
    pub const fn uid(&self) -> Option<u16> {
        match self.word(3) & !FLAG {
            any::INTERFACE => None,
            uid => Some(uid),
        }
    }

    /// The device or the group that it leads to.
    pub const fn destination(&self) -> Address {
        let number = self.word(5) & !FLAG;
        if self.word(5) & FLAG == 0 {
            Address::Device(number)
        } else {
            Address::Group(number)
        }
    }

    /// The unit of the device that it leads to; behind a group an octet that plays no part.
    pub const fn destination_unit(&self) -> u8 {
        self.0[7]
    }

    const fn word(&self, place: usize) -> u16 {
        u16::from_be_bytes([self.0[place], self.0[place + 1]])
    }
}

/// In words, with numbers as `links` prints them: `unit 07 of any device to group 0001 at any server interface`. Different binds read differently.
impl fmt::Display for Bind {
    fn fmt(&self, f: &mut fmt::Formatter<'_>) -> fmt::Result {
        match (self.source_device(), self.source_unit()) {
            (Some(device), Some(unit)) => write!(f, "{device:04X}:{unit:02X}")?,
            (Some(device), None) => write!(f, "any unit of {device:04X}")?,
            (None, Some(unit)) => write!(f, "unit {unit:02X} of any device")?,
            (None, None) => f.write_str("any unit of any device")?,
        }
        if self.word(0) & FLAG != 0 {
            f.write_str(" (top bit set)")?;
        }
        match (self.destination(), self.destination_unit()) {
            (Address::Device(device), unit) => write!(f, " to {device:04X}:{unit:02X}")?,
            (Address::Group(group), 0) => write!(f, " to group {group:04X}")?,
            (Address::Group(group), unit) => write!(f, " to group {group:04X} (unit {unit:02X})")?,
        }
        let role = match self.role() {
            Role::Client => "client",
            Role::Server => "server",
        };
        match self.uid() {
            Some(uid) => write!(f, " at {role} interface 0x{uid:04X}"),
            None => write!(f, " at any {role} interface"),
        }
    }
}

/// The words, in brackets behind the type's name.
impl fmt::Debug for Bind {
    fn fmt(&self, f: &mut fmt::Formatter<'_>) -> fmt::Result {
        write!(f, "Bind({self})")
    }
}
