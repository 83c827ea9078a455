//! The seven commands by which binds are read back ("CR 1"): what they ask for, and who sends them.

use super::any::put_uid;
use super::records::{word, BIND, UNITS};
use super::units::some_unit;
use super::view::View;
use crate::rng::Rng;

/// How often each of the seven is tried among themselves.
const READING: [(usize, (u8, u8)); 7] = [
    (25, (2, 7)),
    (4, (2, 8)),
    (17, (2, 9)),
    (13, (2, 10)),
    (13, (2, 11)),
    (13, (2, 12)),
    (13, (2, 13)),
];

impl View {
    /// One of the seven, more often a read than not.
    pub fn reading_command(&self, rng: &mut Rng) -> Vec<u8> {
        let command = rng.weighted(&READING);
        self.command_of(rng, command)
    }

    /// The payload of a read by index: from the first bind, around the last, or past it, and a number around those that fit and that are there.
    pub(super) fn index(&self, rng: &mut Rng) -> Vec<u8> {
        let there = self.binds.len() as u16;
        let first = match rng.below(16) {
            0..=4 => 0,
            5 => there.saturating_sub(1),
            6 => there,
            7 => there + 1,
            // From here on 59 to 61 are there.
            8 | 9 => there.saturating_sub(59 + rng.word() % 3),
            // An index whose octets were exchanged, or of which one alone is looked at.
            10 => rng.weighted(&[(1, 0x0100), (1, 0x0101), (1, 0xFF00), (1, 0xFFFF)]),
            11 => rng.word(),
            _ => rng.word() % (there + 1),
        };
        let left = there.saturating_sub(first) as u8;
        let number = match rng.below(13) {
            0 | 12 => 0,
            1 => 1,
            2 => 59,
            3 | 4 => 60,
            5 | 6 => 61,
            7 | 8 => 255,
            9 => left,
            10 => left.saturating_sub(1),
            _ => rng.octet(),
        };
        let [f1, f2] = first.to_be_bytes();
        vec![f1, f2, number]
    }

    /// Who sends a command: to read or to end, mostly a device in session; to start a session, now and then a device that has one, and often one that has
    /// none and may. Which unit of a device sends makes no difference.
    pub(super) fn sender_of(&self, rng: &mut Rng, command: (u8, u8)) -> (u16, u8) {
        let (in_session, outside) = match command {
            (2, 7) => (15, 50),
            (2, 8) => (60, 0),
            (2, 9..=13) => (75, 0),
            _ => (0, 0),
        };
        let device = if rng.percent(in_session) {
            rng.pick(&self.sessions)
        } else if rng.percent(outside) {
            let devices = self.devices.iter().filter(|device| device[2] == 1);
            let addresses = devices.map(|device| [device[0], device[1]]);
            let without: Vec<_> = addresses
                .filter(|address| !self.sessions.contains(address))
                .collect();
            rng.pick(&without)
        } else {
            None
        };
        match device {
            Some(address) => self.unit_of(rng, word(&address, 0)),
            None => self.sender(rng),
        }
    }

    /// A unit of this device; unit 0 if it is not there.
    fn unit_of(&self, rng: &mut Rng, address: u16) -> (u16, u8) {
        let mut devices = self.devices.iter();
        let device = devices.find(|device| word(*device, 0) == address);
        let unit = device.map_or(0, |device| some_unit(rng, &device[UNITS..]));
        (address, unit)
    }

    /// A bind like the first one that is there but for its UID, so that a read by either of its ends matches many; any bind if there is none.
    pub(super) fn one_of_many(&self, rng: &mut Rng) -> [u8; BIND] {
        match self.binds.first() {
            Some(first) if !rng.percent(3) => {
                let mut bind = *first;
                put_uid(&mut bind, rng.word() & 0x7FFF);
                bind
            }
            _ => self.bind(rng),
        }
    }
}
