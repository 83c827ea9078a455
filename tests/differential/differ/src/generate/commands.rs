//! The commands to D'0:U'0, with their payloads ("Commands and codes"; "CR 1").

use super::message::{header, with_payload};
use super::records::MEMBER;
use super::view::View;
use crate::rng::Rng;

/// UID and member of each command, in the order of document 000.
pub const COMMANDS: [(u8, u8); 18] = [
    (2, 1),
    (2, 2),
    (2, 3),
    (2, 4),
    (2, 5),
    (2, 6),
    (2, 7),
    (2, 8),
    (2, 9),
    (2, 10),
    (2, 11),
    (2, 12),
    (2, 13),
    (3, 1),
    (3, 2),
    (3, 3),
    (3, 4),
    (3, 5),
];

/// How often each command is tried. In a run additions must outweigh the
/// forms that take many records at once, or no table ever fills.
const WEIGHTS: [usize; 18] = [32, 6, 1, 2, 2, 2, 8, 2, 5, 3, 3, 3, 3, 9, 3, 30, 6, 8];

impl View {
    /// The payload of a command, mostly of the right length, the ignored top
    /// bits set now and then.
    fn payload(&self, rng: &mut Rng, command: (u8, u8)) -> Vec<u8> {
        let stored = if rng.percent(85) {
            rng.pick(&self.binds)
        } else {
            None
        };
        let mut bind = stored.unwrap_or_else(|| self.bind(rng));
        if rng.percent(12) {
            bind = self.said_otherwise(rng, bind);
        }
        let mut payload = match command {
            (2, 1) if rng.percent(10) => self.wrong_bind(rng).to_vec(),
            (2, 1) => self.bind(rng).to_vec(),
            (2, 2) => bind.to_vec(),
            (2, 3 | 10) => bind[..2].to_vec(),
            (2, 4 | 11) => bind[..3].to_vec(),
            (2, 5 | 12) => bind[5..7].to_vec(),
            (2, 6 | 13) => bind[5..].to_vec(),
            (2, 7 | 8) => Vec::new(),
            (2, 9) => self.index(rng),
            (3, 1) => return name(rng),
            (3, 3) => self.member(rng).to_vec(),
            (3, 4) => match rng.pick(&self.members) {
                Some(member) if rng.percent(80) => member.to_vec(),
                _ => self.member(rng).to_vec(),
            },
            _ => self.group(rng).to_be_bytes().to_vec(),
        };
        if rng.percent(2) {
            payload.fill(0xFF);
        }
        if !payload.is_empty() && rng.percent(12) {
            payload[0] ^= 0x80;
        }
        if payload.len() == MEMBER && rng.percent(12) {
            payload[2] ^= 0x80;
        }
        let reads = command.0 == 2 && command.1 >= 7;
        if rng.percent(if reads { 8 } else { 5 }) {
            match rng.below(2) {
                0 if !payload.is_empty() => payload.truncate(rng.below(payload.len())),
                _ => payload.push(rng.octet()),
            }
        }
        payload
    }

    /// A command to D'0:U'0 with its payload.
    pub fn command(&self, rng: &mut Rng) -> Vec<u8> {
        let choices: Vec<_> = WEIGHTS.into_iter().zip(COMMANDS).collect();
        let command = rng.weighted(&choices);
        self.command_of(rng, command)
    }

    /// As `command`, but each command as likely as any other.
    pub fn any_command(&self, rng: &mut Rng) -> Vec<u8> {
        let command = COMMANDS[rng.below(COMMANDS.len())];
        self.command_of(rng, command)
    }

    /// This command, mostly with a payload that suits it.
    pub fn command_of(&self, rng: &mut Rng, command: (u8, u8)) -> Vec<u8> {
        let payload = self.payload(rng, command);
        let sender = self.sender_of(rng, command);
        self.sent(rng, command, sender, &payload)
    }

    /// An Add Bind sent by D'0:U'0, which has rights: like the first bind that is there but for its UID, or any.
    pub fn addition(&self, rng: &mut Rng, alike: bool) -> Vec<u8> {
        let bind = if alike {
            self.one_of_many(rng)
        } else {
            self.bind(rng)
        };
        self.sent(rng, (2, 1), (0, 0), &bind)
    }

    fn sent(&self, rng: &mut Rng, command: (u8, u8), sender: (u16, u8), payload: &[u8]) -> Vec<u8> {
        let kind = 1 + rng.octet() % 2;
        let interface = 0x8000 | u16::from(command.0);
        let mut msg = header(rng, sender, 0, 0, kind, interface, command.1);
        if rng.percent(3) {
            // Towards outcome 18: another type, role, UID or member. Or a
            // destination that is D'0:U'0 but for one thing.
            match rng.below(7) {
                0 => msg[9] = 1 + rng.octet() % 16,
                1 => msg[10] ^= 0x80,
                2 => msg[11] = rng.octet() % 6,
                3 => msg[12] = rng.octet() % 16,
                4 => msg[3] = 0x80,
                5 => msg[4] = 1,
                _ => msg[5] = 1 + rng.octet() % 2 * 254,
            }
        }
        with_payload(rng, msg, payload)
    }
}

/// Name length and name; over 13 octets, or wrongly counted, now and then.
fn name(rng: &mut Rng) -> Vec<u8> {
    let length = rng.weighted(&[
        (60, 3),
        (10, 0),
        (10, 13),
        (6, 14),
        (2, 33),
        (2, 255),
        (10, 7),
    ]);
    let mut payload = vec![length as u8];
    payload.extend(rng.octets(length));
    match rng.below(25) {
        0 => payload.truncate(rng.below(payload.len() + 1)),
        1 => payload.push(rng.octet()),
        _ => (),
    }
    payload
}
