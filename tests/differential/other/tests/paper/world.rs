//! The tables of "Rows to try", and the calls that the tests make on them.

use other_reading::{admit, message, release};

/// The interfaces of the commands, by their UID.
pub const BIND: u8 = 2;
pub const GROUP: u8 = 3;
/// The binds of the rows.
pub const P1: [u8; 8] = [0x00, 0x03, 0x01, 0x82, 0x00, 0x00, 0x04, 0x02];
pub const P2: [u8; 8] = [0x00, 0x03, 0x01, 0x82, 0x00, 0x80, 0x01, 0x00];

/// The set of units whose first octets these are; the rest is 0.
pub fn units(first: &[u8]) -> [u8; 32] {
    let mut units = [0; 32];
    units[..first.len()].copy_from_slice(first);
    units
}

/// "address 2, rights 1, one octet 0, then 32 octets with one bit per unit".
pub fn device(address: u16, rights: u8, units: [u8; 32]) -> [u8; 36] {
    let [high, low] = address.to_be_bytes();
    let mut device = [0; 36];
    device[..3].copy_from_slice(&[high, low, rights]);
    device[4..].copy_from_slice(&units);
    device
}

#[derive(Clone, PartialEq, Debug)]
pub struct World {
    pub devices: Vec<u8>,
    pub binds: Vec<u8>,
    pub groups: Vec<u8>,
    pub members: Vec<u8>,
    pub sessions: Vec<u8>,
}

/// One answer: outcome, then the octets that the count speaks of.
#[derive(PartialEq, Debug)]
pub struct Answer(pub u8, pub Vec<u8>);

impl World {
    fn free() -> World {
        World {
            devices: vec![0xFF; 2304],
            binds: vec![0xFF; 512],
            groups: vec![0xFF; 256],
            members: vec![0xFF; 640],
            sessions: vec![0xFF; 16],
        }
    }

    /// "Devices 3 (rights 1, highest 2), 4 (0, 2), 5 (0, 1); group 1 named
    /// "S"; members 5:01, 4:02, 3:01 in that order".
    pub fn of_the_rows() -> World {
        let mut world = World::free();
        let devices = [(3, 1, 0x07), (4, 0, 0x07), (5, 0, 0x03)];
        let devices = devices.map(|(address, rights, set)| device(address, rights, units(&[set])));
        world.devices[..108].copy_from_slice(&devices.concat());
        world.groups[..16].fill(0);
        world.groups[..4].copy_from_slice(&[0, 1, 1, b'S']);
        world.members[..15].copy_from_slice(&[0, 1, 0, 5, 1, 0, 1, 0, 4, 2, 0, 1, 0, 3, 1]);
        world
    }

    pub fn send(&mut self, msg: &[u8]) -> Answer {
        self.told(msg).0
    }

    /// The answer, and reason with octet.
    pub fn told(&mut self, msg: &[u8]) -> (Answer, (u8, u8)) {
        let mut reply = [0xA5; 500];
        let mut list = [0x5A; 576];
        let (mut count, mut reason, mut octet) = (77, 77, 77);
        let before = self.clone();
        let outcome = message(
            &mut self.devices,
            &mut self.binds,
            &mut self.groups,
            &mut self.members,
            &mut self.sessions,
            msg,
            &mut reply,
            &mut list,
            &mut count,
            &mut reason,
            &mut octet,
        );
        let why = (reason, octet);
        let (in_reply, in_list) = match outcome {
            0 => (count, 0),
            1 => (0, 3 * count),
            _ => {
                assert_eq!(count, 0);
                (0, 0)
            }
        };
        assert!(reply[in_reply..].iter().all(|&octet| octet == 0xA5));
        assert!(list[in_list..].iter().all(|&octet| octet == 0x5A));
        if outcome != 0 || reply[15] != 0 {
            assert_eq!(*self, before);
        }
        // "With any other code or outcome reason and octet are 0" ("CR 6").
        let wrong = outcome == 0 && msg[11..13] == [BIND, 1] && reply[15] == 2;
        assert_eq!(why != (0, 0), wrong);
        match outcome {
            0 => (Answer(0, reply[..count].to_vec()), why),
            _ => (Answer(outcome, list[..in_list].to_vec()), why),
        }
    }

    /// The payload of the reply to a command.
    pub fn command(&mut self, from: (u16, u8), uid: u8, member: u8, payload: &[u8]) -> Vec<u8> {
        let Answer(outcome, reply) = self.send(&to_concentrator(from, uid, member, payload));
        assert_eq!(outcome, 0);
        let [high, low] = from.0.to_be_bytes();
        let length = (reply.len() - 15) as u16;
        let head = [0, 0, 0, high, low, from.1, 0, 0, 7, 3, 0x80, uid, member];
        assert_eq!(reply[..13], head);
        assert_eq!(reply[13..15], length.to_be_bytes());
        reply[15..].to_vec()
    }

    pub fn add_bind(&mut self, bind: &[u8]) -> Vec<u8> {
        self.command((3, 1), BIND, 1, bind)
    }

    pub fn admit(&mut self, address: u16, rights: u8, units: [u8; 32]) -> u8 {
        let before = self.clone();
        let World {
            devices,
            binds,
            groups,
            members,
            sessions,
        } = self;
        let outcome = admit(
            devices, binds, groups, members, sessions, address, rights, &units,
        );
        if outcome != 0 {
            assert_eq!(*self, before);
        }
        outcome
    }

    pub fn release(&mut self, address: u16) -> u8 {
        let World {
            devices,
            binds,
            groups,
            members,
            sessions,
        } = self;
        release(devices, binds, groups, members, sessions, address)
    }
}

/// A command to D'0:U'0, of type 0x01 and to a server interface.
pub fn to_concentrator(from: (u16, u8), uid: u8, member: u8, payload: &[u8]) -> Vec<u8> {
    let [high, low] = from.0.to_be_bytes();
    let mut msg = vec![high, low, from.1, 0, 0, 0, 0, 0, 7, 1, 0x80, uid, member];
    msg.extend_from_slice(&(payload.len() as u16).to_be_bytes());
    msg.extend_from_slice(payload);
    msg
}
