//! A call as it passes by: what was lent, what was answered, and what a fault asks of it.

pub const MESSAGE: u8 = 1;
pub const ADMIT: u8 = 2;
pub const RELEASE: u8 = 3;
pub const COPY: u8 = 4;
pub const READ: u8 = 5;
const CARRY_OVER: u8 = 6;

/// Places among the slices.
pub const DEVICES: usize = 0;
pub const BINDS: usize = 1;
pub const GROUPS: usize = 2;
pub const MEMBERS: usize = 3;
pub const SESSIONS: usize = 4;
pub const SENT: usize = 5;
pub const REPLY: usize = 6;
pub const LIST: usize = 7;
pub const UNITS: usize = 5;
pub const OLD: usize = 0;
pub const NEW: usize = 1;

/// Octets of a device's record, and those before its units.
const DEVICE: usize = 36;
const HEAD: usize = 4;

/// A call and what it came to. The slices are devices, binds, groups, members, sessions, for a message also the message, the reply and the list, and for
/// an admission the units; for a copy the message and the room; for reading the message and its fields; for a carry-over the old devices and the new.
pub struct Exchange {
    pub call: u8,
    pub before: Vec<Vec<u8>>,
    pub outcome: u8,
    pub count: u64,
    /// Reason and octet; and those of the message before, as the part gave them.
    pub why: (u8, u8),
    pub last: (u8, u8),
    pub after: Vec<Vec<u8>>,
}

impl Exchange {
    /// Interface and member of a command that was answered with this code.
    pub fn served(&self, interface: u8, member: u8, code: u8) -> bool {
        self.call == MESSAGE
            && self.outcome == 0
            && self.before[SENT][11..13] == [interface, member]
            && self.after[REPLY][15] == code
    }

    pub fn forwarded(&self) -> bool {
        self.call == MESSAGE && self.outcome == 1
    }

    /// The record that the call stored in a table.
    fn stored(&mut self, table: usize, size: usize) -> Option<&mut [u8]> {
        let mut both = self.before[table].iter().zip(&self.after[table]);
        let at = both.position(|(before, after)| before != after)? / size * size;
        Some(&mut self.after[table][at..at + size])
    }

    /// The bind that an Add Bind stored.
    pub fn added_bind(&mut self) -> Option<&mut [u8]> {
        if self.served(2, 1, 0) {
            self.stored(BINDS, 8)
        } else {
            None
        }
    }

    /// The record of a device that was admitted.
    pub fn admitted(&mut self) -> Option<&mut [u8]> {
        if self.call == ADMIT && self.outcome == 0 {
            self.stored(DEVICES, DEVICE)
        } else {
            None
        }
    }

    /// Rights of the device whose address stands first here.
    pub fn has_rights(&self, named: &[u8]) -> bool {
        let mut devices = self.before[DEVICES].chunks_exact(DEVICE);
        named[..2] == [0, 0] || devices.any(|device| device[..2] == named[..2] && device[2] == 1)
    }

    /// The device that was released.
    pub fn released(&self) -> Option<[u8; 2]> {
        if self.call != RELEASE || self.outcome != 0 {
            return None;
        }
        let before = self.before[DEVICES].chunks_exact(DEVICE);
        let mut both = before.zip(self.after[DEVICES].chunks_exact(DEVICE));
        let (device, _) = both.find(|(before, after)| before != after)?;
        Some([device[0], device[1]])
    }

    /// Whether a device has the address that stands first here.
    pub fn is_device(&self, named: &[u8]) -> bool {
        let mut devices = self.before[DEVICES].chunks_exact(DEVICE);
        named[..2] == [0, 0] || devices.any(|device| device[..2] == named[..2])
    }

    /// Whether the message names, from this place on, a unit that its device has not, though it has a higher one. A word of group type names no device.
    pub fn in_gap(&self, at: usize) -> bool {
        let Some(&[high, low, unit]) = self.before[SENT]
            .get(at..at + 3)
            .and_then(<[u8]>::first_chunk)
        else {
            return false;
        };
        let mut devices = self.before[DEVICES].chunks_exact(DEVICE);
        devices.any(|device| {
            device[..2] == [high, low] && !has(device, unit) && highest(device) > unit
        })
    }

    /// Spoils the records that were carried over, each by its old one and by what had stood in its place.
    pub fn each_carried(&mut self, spoil: fn(&[u8], &[u8], &mut [u8])) {
        if self.call == CARRY_OVER && self.outcome == 0 {
            let old = self.before[OLD].chunks(4);
            let lent = self.before[NEW].chunks(DEVICE);
            let new = self.after[NEW].chunks_mut(DEVICE);
            for ((old, lent), new) in old.zip(lent).zip(new) {
                spoil(old, lent, new);
            }
        }
    }

    pub fn refused_carry_over(&self) -> bool {
        self.call == CARRY_OVER && self.outcome != 0
    }
}

/// Whether a device's record has a unit.
fn has(device: &[u8], unit: u8) -> bool {
    device[HEAD + usize::from(unit / 8)] & 1 << (unit % 8) != 0
}

/// The highest unit of a device's record.
pub fn highest(device: &[u8]) -> u8 {
    (0..=255).rev().find(|&unit| has(device, unit)).unwrap_or(0)
}

/// Takes a unit that the record has from it, or gives it one that it has not.
pub fn flip(device: &mut [u8], unit: u8) {
    device[HEAD + usize::from(unit / 8)] ^= 1 << (unit % 8);
}
