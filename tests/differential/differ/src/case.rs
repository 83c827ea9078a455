//! One call with everything lent to it, made by the part and by the other
//! reading, and the comparison of all that they leave ("For each public call
//! the contract determines outcome, count or length and every octet lent").

mod print;

pub use print::hexadecimal;

use crate::generate::UnitSet;
use crate::part;

#[derive(Clone, PartialEq, Default)]
pub struct World {
    pub devices: Vec<u8>,
    pub binds: Vec<u8>,
    pub groups: Vec<u8>,
    pub members: Vec<u8>,
    pub sessions: Vec<u8>,
}

#[derive(Clone, PartialEq)]
pub enum Call {
    Message {
        msg: Vec<u8>,
        reply: Vec<u8>,
        list: Vec<u8>,
    },
    Admit {
        address: u16,
        rights: u8,
        units: UnitSet,
    },
    Release {
        address: u16,
    },
    Copy {
        msg: Vec<u8>,
        room: Vec<u8>,
        device: u16,
        unit: u8,
    },
    Read {
        msg: Vec<u8>,
        fields: [u16; 12],
    },
    /// Old devices and new ones; the tables play no part.
    CarryOver {
        old: Vec<u8>,
        new: Vec<u8>,
    },
}

#[derive(Clone)]
pub struct Case {
    pub world: World,
    pub call: Call,
}

/// What a call leaves: the outcome, the count or length, reason and octet, and
/// every lent octet, also those that the call may not change.
#[derive(PartialEq)]
pub struct Answer {
    pub outcome: u8,
    pub count: usize,
    pub reason: u8,
    pub octet: u8,
    pub world: World,
    pub call: Call,
}

impl Answer {
    /// Whether octets just outside a slice lent to the part changed; never so.
    pub fn outside(&self) -> bool {
        self.outcome == part::WRITTEN
    }
}

/// A case's call as `$side` answers it. The part and the other reading have
/// the same six calls. A call without a count or length, or without reason and
/// octet, has 0 here; that the part writes the others shows in `part.c`, which
/// has stale ones for it.
macro_rules! answer {
    ($side:ident, $case:expr) => {{
        let Case {
            mut world,
            mut call,
        } = $case.clone();
        let (mut count, mut reason, mut octet) = (0, 0, 0);
        let World {
            devices,
            binds,
            groups,
            members,
            sessions,
        } = &mut world;
        let outcome = match &mut call {
            Call::Message { msg, reply, list } => $side::message(
                devices,
                binds,
                groups,
                members,
                sessions,
                msg,
                reply,
                list,
                &mut count,
                &mut reason,
                &mut octet,
            ),
            &mut Call::Admit {
                address,
                rights,
                ref units,
            } => $side::admit(
                devices, binds, groups, members, sessions, address, rights, units,
            ),
            &mut Call::Release { address } => {
                $side::release(devices, binds, groups, members, sessions, address)
            }
            Call::Copy {
                msg,
                room,
                device,
                unit,
            } => $side::copy(msg, room, *device, *unit, &mut count),
            Call::Read { msg, fields } => $side::read(msg, fields),
            Call::CarryOver { old, new } => $side::carry_over(old, new),
        };
        Answer {
            outcome,
            count,
            reason,
            octet,
            world,
            call,
        }
    }};
}

impl Case {
    pub fn by_part(&self) -> Answer {
        answer!(part, self)
    }

    fn by_reading(&self) -> Answer {
        answer!(other_reading, self)
    }

    /// Whether the tables are not sound even without sessions, as the other reading has it.
    pub fn unsound_without_sessions(&self) -> bool {
        let mut case = self.clone();
        case.world.sessions.clear();
        case.by_reading().outcome == 16
    }

    /// The part's answer, or all of the case if the two answers differ.
    pub fn compared(&self) -> Result<Answer, String> {
        let part = self.by_part();
        let reading = self.by_reading();
        if part == reading {
            Ok(part)
        } else {
            Err(format!(
                "the two answers differ\nCASE\n{self}PART\n{part}OTHER READING\n{reading}"
            ))
        }
    }
}
