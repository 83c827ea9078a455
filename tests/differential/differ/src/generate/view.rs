//! What stands in the tables, to aim calls at: units, groups, binds and members that are there, or only just are not.

use super::any::{perhaps_any, ANY_INTERFACE};
use super::records::{used, word, BIND, DEVICE, GROUP, MEMBER, SESSION, UNITS};
use super::units::{near, some_unit};
use crate::case::World;
use crate::rng::Rng;

pub const UIDS: [u16; 5] = [0x0200, 0x0201, 0x0000, 0x7FFE, 0x00FF];

/// What stands in the tables, to aim calls at. No check relies on it.
pub struct View {
    pub(super) devices: Vec<[u8; DEVICE]>,
    pub(super) binds: Vec<[u8; BIND]>,
    pub(super) groups: Vec<[u8; GROUP]>,
    pub(super) members: Vec<[u8; MEMBER]>,
    pub(super) sessions: Vec<[u8; SESSION]>,
}

impl View {
    pub fn of(world: &World) -> View {
        View {
            devices: used(&world.devices),
            binds: used(&world.binds),
            groups: used(&world.groups),
            members: used(&world.members),
            sessions: used(&world.sessions),
        }
    }

    pub fn bind_count(&self) -> usize {
        self.binds.len()
    }

    /// A unit that exists; D'0:U'0 if there is none.
    pub(super) fn unit(&self, rng: &mut Rng) -> (u16, u8) {
        match rng.pick(&self.devices) {
            Some(device) if !rng.percent(8) => (word(&device, 0), some_unit(rng, &device[UNITS..])),
            _ => (0, 0),
        }
    }

    /// A unit that often exists and often only just does not.
    pub(super) fn perhaps_unit(&self, rng: &mut Rng) -> (u16, u8) {
        let (device, unit) = self.unit(rng);
        match rng.below(100) {
            0..=75 => (device, unit),
            76..=85 => (device, near(rng, unit)),
            86..=88 => (0, rng.octet() % 3),
            89..=93 => (some_address(rng), unit),
            94..=95 => (0x7FFF, 0xFF),
            96 => (0x7FFF, unit),
            97 => (device, 0xFF),
            _ => (rng.word() & 0x7FFF, rng.octet()),
        }
    }

    /// A sender; one with rights more often than not.
    pub fn sender(&self, rng: &mut Rng) -> (u16, u8) {
        match rng.below(100) {
            0..=29 => (0, 0),
            30..=69 => {
                let with_rights: Vec<_> = self
                    .devices
                    .iter()
                    .filter(|device| device[2] == 1)
                    .copied()
                    .collect();
                match rng.pick(&with_rights) {
                    Some(device) => (word(&device, 0), some_unit(rng, &device[UNITS..])),
                    None => (0, 0),
                }
            }
            70..=92 => self.unit(rng),
            _ => self.perhaps_unit(rng),
        }
    }

    /// Whom to release: a device, one that reads, one that a bind names, one that only has the number of a group, or nobody.
    pub fn to_release(&self, rng: &mut Rng) -> u16 {
        let address = match rng.below(12) {
            0 => Some(some_address(rng)),
            1 => Some(rng.weighted(&[(1, 0), (1, 0xFFFF), (1, 0x7FFF), (1, 0x8001)])),
            2 | 3 => rng.pick(&self.sessions).map(|session| word(&session, 0)),
            4 => rng
                .pick(&self.binds)
                .map(|bind| word(&bind, 5 * rng.below(2)) & 0x7FFF),
            5 => rng.pick(&self.groups).map(|group| word(&group, 0)),
            _ => rng.pick(&self.devices).map(|device| word(&device, 0)),
        };
        address.unwrap_or(1)
    }

    pub(super) fn group(&self, rng: &mut Rng) -> u16 {
        match rng.below(100) {
            0..=84 => rng.pick(&self.groups).map_or(1, |group| word(&group, 0)),
            85..=92 => 1 + rng.below(18) as u16,
            // The number of a device, which no place may take for a group's.
            93..=95 => self.unit(rng).0,
            96 => 0x7FFF,
            97 => 0,
            98 => 0x7FFE,
            _ => rng.word() & 0x7FFF,
        }
    }

    pub(super) fn bind(&self, rng: &mut Rng) -> [u8; BIND] {
        match rng.pick(&self.binds) {
            Some(bind) if rng.percent(12) => bind,
            Some(mut bind) if rng.percent(12) => {
                bind[rng.below(BIND)] ^= 1 << rng.below(8);
                bind
            }
            Some(bind) if rng.percent(20) => self.said_otherwise(rng, bind),
            Some(bind) if rng.percent(30) => self.new_bind(rng, (word(&bind, 0), bind[2])),
            _ => {
                let source = self.perhaps_unit(rng);
                let bind = self.new_bind(rng, source);
                perhaps_any(rng, bind)
            }
        }
    }

    pub(super) fn new_bind(&self, rng: &mut Rng, source: (u16, u8)) -> [u8; BIND] {
        let uid = match rng.below(50) {
            0 => ANY_INTERFACE,
            1 => rng.word() & 0x7FFF,
            _ => rng.weighted(&[
                (60, UIDS[0]),
                (20, UIDS[1]),
                (7, UIDS[2]),
                (7, UIDS[3]),
                (6, UIDS[4]),
            ]),
        };
        let interface = uid | if rng.percent(70) { 0x8000 } else { 0 };
        let (destination, unit) = if rng.percent(40) {
            let unit = rng.weighted(&[(60, 0), (20, 1), (10, 0xFE), (5, 0xFF), (5, 7)]);
            (0x8000 | self.group(rng), unit)
        } else if rng.percent(3) {
            source
        } else {
            self.perhaps_unit(rng)
        };
        let [s1, s2] = source.0.to_be_bytes();
        let [i1, i2] = interface.to_be_bytes();
        let [d1, d2] = destination.to_be_bytes();
        [s1, s2, source.1, i1, i2, d1, d2, unit]
    }

    pub(super) fn member(&self, rng: &mut Rng) -> [u8; MEMBER] {
        match rng.pick(&self.members) {
            Some(member) if rng.percent(15) => member,
            Some(mut member) if rng.percent(8) => {
                member[rng.below(MEMBER)] ^= 1 << rng.below(8);
                member
            }
            _ => {
                let [g1, g2] = self.group(rng).to_be_bytes();
                let (device, unit) = self.perhaps_unit(rng);
                let [d1, d2] = device.to_be_bytes();
                [g1, g2, d1, d2, unit]
            }
        }
    }
}

pub fn some_address(rng: &mut Rng) -> u16 {
    match rng.below(20) {
        0 => 0x7FFE,
        1 => 0x0100 + rng.word() % 3,
        2 => 0x00FF,
        3 => 1 + rng.word() % 0x7FFE,
        _ => 1 + rng.word() % 12,
    }
}
