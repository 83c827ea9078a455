//! What a history says at one moment: who exists, who is linked and who is in a group.

use super::entry::{Bind, Member};
use super::matching::matches;
use super::History;
use crate::generate::{has, word, UnitSet};

pub type Unit = (u16, u8);

/// What the history says at one moment, worked out once.
pub struct Standing<'a> {
    pub devices: Vec<(u16, UnitSet)>,
    pub binds: Vec<Bind>,
    pub members: Vec<Member>,
    pub groups: Vec<(u16, &'a [u8])>,
}

impl Standing<'_> {
    pub fn of(history: &History) -> Standing<'_> {
        Standing {
            devices: history.devices(),
            binds: history.binds(),
            members: history.members(),
            groups: history.groups(),
        }
    }

    pub fn exists(&self, (device, unit): Unit) -> bool {
        (device, unit) == (0, 0)
            || self
                .devices
                .iter()
                .any(|(address, units)| *address == device && has(units, unit))
    }

    /// A group's members, each once, by rising device and unit.
    fn members_of(&self, group: u16) -> Vec<Unit> {
        let members = self
            .members
            .iter()
            .filter(|member| word(*member, 0) == group);
        rising(members.map(|member| (word(member, 2), member[4])).collect())
    }

    /// The units that the history links to this sender and interface, by the binds that match.
    pub fn linked(&self, sender: Unit, interface: u16) -> Vec<Unit> {
        let mut units = Vec::new();
        for bind in &self.binds {
            if !matches(bind, sender, interface) {
                continue;
            }
            match word(bind, 5) {
                device @ 0..=0x7FFF => units.push((device, bind[7])),
                group => units.extend(self.members_of(group & 0x7FFF)),
            }
        }
        units.retain(|&unit| unit != sender);
        rising(units)
    }

    pub fn in_group(&self, sender: Unit, group: u16) -> Vec<Unit> {
        let mut units = self.members_of(group);
        units.retain(|&unit| unit != sender);
        units
    }

    /// The whole payload that Get Group Info answers.
    pub fn info(&self, group: u16) -> Vec<u8> {
        let Some((_, name)) = self.groups.iter().find(|there| there.0 == group) else {
            return vec![0x02];
        };
        let members = self.members_of(group);
        let mut payload = vec![0x00];
        payload.extend_from_slice(name);
        payload.extend_from_slice(&(members.len() as u16).to_be_bytes());
        payload.extend(octets(&members));
        payload
    }
}

fn rising(mut units: Vec<Unit>) -> Vec<Unit> {
    units.sort();
    units.dedup();
    units
}

/// Three octets for each unit.
pub fn octets(units: &[Unit]) -> Vec<u8> {
    let three = |&(device, unit): &Unit| [(device >> 8) as u8, device as u8, unit];
    units.iter().flat_map(three).collect()
}
