//! One call and its answer, and what they add, create, withdraw, delete or release.

use crate::case::{hexadecimal, Answer, Call};
use crate::generate::{word, UnitSet};
use std::fmt;

pub type Bind = [u8; 8];
pub type Member = [u8; 5];

/// A call that was made and what came back of it.
pub enum Entry {
    /// A message with its outcome and, for outcome 0, the reply's payload.
    Message {
        msg: Vec<u8>,
        outcome: u8,
        payload: Vec<u8>,
    },
    Admit {
        address: u16,
        rights: u8,
        units: UnitSet,
        outcome: u8,
    },
    Release {
        address: u16,
        outcome: u8,
    },
}

impl Entry {
    /// The entry for a call as it was made and its answer.
    pub fn of(call: &Call, answer: &Answer) -> Option<Entry> {
        let outcome = answer.outcome;
        match (call, &answer.call) {
            (Call::Message { msg, .. }, Call::Message { reply, .. }) => {
                let end = if outcome == 0 {
                    answer.count.clamp(15, reply.len())
                } else {
                    15
                };
                let payload = reply.get(15..end).unwrap_or(&[]).to_vec();
                Some(Entry::Message {
                    msg: msg.clone(),
                    outcome,
                    payload,
                })
            }
            (
                &Call::Admit {
                    address,
                    rights,
                    units,
                },
                _,
            ) => Some(Entry::Admit {
                address,
                rights,
                units,
                outcome,
            }),
            (&Call::Release { address }, _) => Some(Entry::Release { address, outcome }),
            _ => None,
        }
    }

    /// The payload of the reply; nothing unless it was a command that was served.
    pub fn reply(&self) -> &[u8] {
        match self {
            Entry::Message { payload, .. } => payload,
            _ => &[],
        }
    }

    /// The device that sent a message.
    pub(super) fn sender(&self) -> Option<u16> {
        match self {
            Entry::Message { msg, .. } => Some(word(msg.get(..2)?, 0) & 0x7FFF),
            _ => None,
        }
    }

    /// Member and payload of a command by which binds are read back, Start and End among them, that was served.
    pub(super) fn reading(&self) -> Option<(u8, &[u8])> {
        match self {
            Entry::Message {
                msg, outcome: 0, ..
            } if msg[11] == 2 && (0x07..=0x0D).contains(&msg[12]) => Some((msg[12], &msg[15..])),
            _ => None,
        }
    }

    /// UID, member and payload of a command that was answered with 0x00.
    fn done(&self) -> Option<(u8, u8, &[u8])> {
        match self {
            Entry::Message {
                msg,
                outcome: 0,
                payload,
            } if payload.first() == Some(&0x00) => Some((msg[11], msg[12], &msg[15..])),
            _ => None,
        }
    }

    /// A device that was admitted, with its units.
    pub(super) fn admitted(&self) -> Option<(u16, UnitSet)> {
        match *self {
            Entry::Admit {
                address,
                units,
                outcome: 0,
                ..
            } => Some((address, units)),
            _ => None,
        }
    }

    /// A device that was admitted with rights.
    pub(super) fn admitted_with_rights(&self) -> Option<u16> {
        match *self {
            Entry::Admit {
                address,
                rights: 1,
                outcome: 0,
                ..
            } => Some(address),
            _ => None,
        }
    }

    pub(super) fn released(&self) -> Option<u16> {
        match *self {
            Entry::Release {
                address,
                outcome: 0,
            } => Some(address),
            _ => None,
        }
    }

    pub(super) fn deleted(&self) -> Option<u16> {
        match self.done() {
            Some((3, 2, group)) => Some(word(group, 0) & 0x7FFF),
            _ => None,
        }
    }

    pub(super) fn added_bind(&self) -> Option<Bind> {
        match self.done() {
            Some((2, 1, payload)) => Some(plain_bind(payload)),
            _ => None,
        }
    }

    pub(super) fn added_member(&self) -> Option<Member> {
        match self.done() {
            Some((3, 3, payload)) => Some(plain_member(payload)),
            _ => None,
        }
    }

    /// Address and name (its length first) of a group that was created.
    pub(super) fn created(&self) -> Option<(u16, &[u8])> {
        match (self.done(), self) {
            (Some((3, 1, name)), Entry::Message { payload, .. }) if payload.len() == 3 => {
                Some((word(payload, 1), name))
            }
            _ => None,
        }
    }

    /// A removal compares octets, "so any matches only any" ("CR 4").
    pub(super) fn withdraws_bind(&self, bind: &Bind) -> bool {
        let source = word(bind, 0);
        let destination = word(bind, 5);
        // Any device ("CR 4") is the address of none that was released.
        if let Some(address) = self.released() {
            return source == address || destination == address;
        }
        match self.done() {
            Some((2, 2, payload)) => plain_bind(payload) == *bind,
            Some((2, member @ 3..=6, payload)) => named(member, payload, bind),
            Some((3, 2, payload)) => word(payload, 0) | 0x8000 == destination,
            _ => false,
        }
    }

    pub(super) fn withdraws_member(&self, member: &Member) -> bool {
        self.released() == Some(word(member, 2))
            || self.deleted() == Some(word(member, 0))
            || matches!(self.done(), Some((3, 4, payload)) if plain_member(payload) == *member)
    }
}

/// Whether the payload of a removal by one end, whose member this is, names the bind. A source's top bit is ignored, a destination's flag counts.
pub(super) fn named(member: u8, payload: &[u8], bind: &Bind) -> bool {
    let (source, destination) = (word(bind, 0), word(bind, 5));
    match member {
        3 => word(payload, 0) & 0x7FFF == source,
        4 => word(payload, 0) & 0x7FFF == source && payload[2] == bind[2],
        5 => word(payload, 0) == destination,
        _ => word(payload, 0) == destination && payload[2] == bind[7],
    }
}

/// The bind as stored: the top bit of octet 1 is 0.
fn plain_bind(payload: &[u8]) -> Bind {
    let mut bind: Bind = payload.try_into().unwrap_or_default();
    bind[0] &= 0x7F;
    bind
}

/// The member as stored: the top bits of group and device are 0.
fn plain_member(payload: &[u8]) -> Member {
    let mut member: Member = payload.try_into().unwrap_or_default();
    member[0] &= 0x7F;
    member[2] &= 0x7F;
    member
}

/// One line: the call, and what came back of it.
impl fmt::Display for Entry {
    fn fmt(&self, to: &mut fmt::Formatter) -> fmt::Result {
        match self {
            Entry::Message {
                msg,
                outcome,
                payload,
            } => writeln!(
                to,
                "  message {} -> {outcome} {}",
                hexadecimal(msg),
                hexadecimal(payload)
            ),
            Entry::Admit {
                address,
                rights,
                units,
                outcome,
            } => writeln!(
                to,
                "  admit {address:04X} rights {rights:02X} units {} -> {outcome}",
                hexadecimal(units)
            ),
            Entry::Release { address, outcome } => {
                writeln!(to, "  release {address:04X} -> {outcome}")
            }
        }
    }
}
