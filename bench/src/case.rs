//! The cases that are measured: tables, a call, and the outcome that it must have, so that no figure is of a call that went another way.

use gneissfold::{Units, SESSIONS_LENGTH};

/// What is lent to every call.
#[derive(Clone)]
pub struct State {
    pub devices: Vec<u8>,
    pub binds: Vec<u8>,
    pub groups: Vec<u8>,
    pub members: Vec<u8>,
    pub sessions: Vec<u8>,
    pub reply: Vec<u8>,
    pub list: Vec<u8>,
}

pub enum Call {
    Message(Vec<u8>),
    Release(u16),
    /// Of this old device table, into the devices that are lent.
    CarryOver(Vec<u8>),
}

pub struct Case {
    pub name: String,
    pub call: Call,
    pub state: State,
    /// Outcome, and count or length.
    pub answer: (u8, usize),
}

const DEVICES: u16 = 64;
/// Of every device.
const HIGHEST_UNIT: u8 = 3;
/// The interface of the switch's messages and binds: server, UID 0x0200.
const INTERFACE: u16 = 0x8200;
const GROUP: u16 = 1;
const BIND_MANAGEMENT: u16 = 0x8002;
const GROUP_MANAGEMENT: u16 = 0x8003;
const CONCENTRATOR: (u16, u8) = (0, 0);
const BIND_ADDRESS: (u16, u8) = (0x7FFF, 0xFF);
/// The group, of group type.
const GROUP_ADDRESS: (u16, u8) = (0x8000 | GROUP, 0);
const SWITCH: (u16, u8) = (1, 0);

fn word(octets: &mut Vec<u8>, number: u16) {
    octets.extend_from_slice(&number.to_be_bytes());
}

fn filled(mut used: Vec<u8>, size: usize, records: usize) -> Vec<u8> {
    used.resize(size * records, 0xFF);
    used
}

fn message(from: (u16, u8), to: (u16, u8), interface: u16, member: u8, payload: &[u8]) -> Vec<u8> {
    let mut octets = Vec::new();
    word(&mut octets, from.0);
    octets.push(from.1);
    word(&mut octets, to.0);
    octets.push(to.1);
    octets.extend_from_slice(&[0, 0, 7, 1]);
    word(&mut octets, interface);
    octets.push(member);
    word(&mut octets, payload.len() as u16);
    octets.extend_from_slice(payload);
    octets
}

/// The n-th unit that is neither of the switch's device nor there before: devices 2 to 64, one unit after the other.
fn unit(n: usize) -> (u16, u8) {
    let others = usize::from(DEVICES) - 1;
    ((2 + n % others) as u16, (n / others) as u8)
}

fn bind(from: (u16, u8), to: (u16, u8)) -> Vec<u8> {
    let mut octets = Vec::new();
    word(&mut octets, from.0);
    octets.push(from.1);
    word(&mut octets, INTERFACE);
    word(&mut octets, to.0);
    octets.push(to.1);
    octets
}

/// 64 device records: address, rights 1, and what says that there are units 0 to the highest.
fn devices(units: &[u8]) -> Vec<u8> {
    let mut octets = Vec::new();
    for address in 1..=DEVICES {
        word(&mut octets, address);
        octets.push(1);
        octets.extend_from_slice(units);
    }
    octets
}

fn new_devices() -> Vec<u8> {
    let mut units = vec![0];
    units.extend_from_slice(Units::up_to(HIGHEST_UNIT).octets());
    devices(&units)
}

/// 64 devices; `binds` binds, of which the first `matching` are the switch's; 16 groups; `members` members, all of the first group.
fn state(binds: usize, matching: usize, members: usize, room: (usize, usize)) -> State {
    let mut bound = Vec::new();
    for n in 0..binds {
        let from = if n < matching {
            SWITCH
        } else {
            (SWITCH.0, SWITCH.1 + 1)
        };
        bound.extend(bind(from, unit(n)));
    }
    let mut groups = Vec::new();
    for address in 1..=16 {
        word(&mut groups, address);
        groups.push(7);
        groups.extend_from_slice(b"Bedroom\0\0\0\0\0\0");
    }
    let mut group = Vec::new();
    for n in 0..members {
        word(&mut group, GROUP);
        // From the highest unit down, so that putting them in order is work.
        let (device, unit) = unit(members - 1 - n);
        word(&mut group, device);
        group.push(unit);
    }
    State {
        devices: new_devices(),
        binds: filled(bound, 8, room.0),
        groups,
        members: filled(group, 5, room.1),
        // Nobody reads; no call here starts a session, or ends one.
        sessions: vec![0xFF; SESSIONS_LENGTH],
        reply: vec![0; 500],
        list: vec![0; 3 * (room.0 + room.1).max(1)],
    }
}

const FULL: (usize, usize) = (64, 128);

/// A scene switch's tables: each bind of any device, any unit and any interface.
fn of_any(mut state: State) -> State {
    for bind in state.binds.chunks_exact_mut(8) {
        bind[..3].copy_from_slice(&[0x7F, 0xFF, 0xFF]);
        bind[3] |= 0x7F;
        bind[4] = 0xFF;
    }
    state
}

/// How the members of the group are stored.
#[derive(Clone, Copy)]
enum Stored {
    Rising,
    Falling,
    /// In no order.
    Mixed,
    /// The lowest first, the others falling: each of them goes between the first and all others.
    LowestFirst,
}

const ORDERS: [(&str, Stored); 4] = [
    ("rising", Stored::Rising),
    ("falling", Stored::Falling),
    ("mixed", Stored::Mixed),
    ("lowest first", Stored::LowestFirst),
];

/// The same tables with the members, all of one group, in an order by device, then unit.
fn stored(order: Stored, mut state: State) -> State {
    let mut records: Vec<Vec<u8>> = state.members.chunks_exact(5).map(<[u8]>::to_vec).collect();
    records.sort();
    match order {
        Stored::Rising => {}
        Stored::Falling => records.reverse(),
        // Each record once, since 53 and 128 have no common factor; of two records the later is the lower about every other time.
        Stored::Mixed => {
            records = (0..records.len())
                .map(|n| records[53 * n % records.len()].clone())
                .collect();
        }
        Stored::LowestFirst => records[1..].reverse(),
    }
    state.members = records.concat();
    state
}

/// The same tables with the switch in session.
fn reading(mut state: State) -> State {
    state.sessions[..2].copy_from_slice(&SWITCH.0.to_be_bytes());
    state
}

/// The switch's message to an address, and to how many it goes.
fn delivery(name: &str, to: (u16, u8), state: State, recipients: usize) -> Case {
    Case {
        name: name.into(),
        call: Call::Message(message(SWITCH, to, INTERFACE, 1, &[])),
        state,
        answer: (if recipients == 0 { 2 } else { 1 }, recipients),
    }
}

/// Get Group Info of the group, and how many members it has.
fn group_info(name: &str, state: State, members: usize) -> Case {
    Case {
        name: name.into(),
        call: Call::Message(message(
            SWITCH,
            CONCENTRATOR,
            GROUP_MANAGEMENT,
            5,
            &GROUP.to_be_bytes(),
        )),
        state,
        answer: (0, 15 + 1 + 1 + 7 + 2 + 3 * members),
    }
}

/// The cases of docs/FIGURES.md.
pub fn cases() -> Vec<Case> {
    let full = || state(64, 64, 128, FULL);
    vec![
        Case {
            name: "refused: no room for the answer (17)".into(),
            call: Call::Message(message(SWITCH, BIND_ADDRESS, INTERFACE, 1, &[])),
            state: State {
                reply: vec![0; 499],
                ..full()
            },
            answer: (17, 0),
        },
        Case {
            name: "refused: 14 octets (10)".into(),
            call: Call::Message(vec![0; 14]),
            state: full(),
            answer: (10, 0),
        },
        Case {
            name: "refused: no such sender (13)".into(),
            call: Call::Message(message((99, 0), BIND_ADDRESS, INTERFACE, 1, &[])),
            state: full(),
            answer: (13, 0),
        },
        Case {
            name: "Add Bind, one record free".into(),
            call: Call::Message(message(
                SWITCH,
                CONCENTRATOR,
                BIND_MANAGEMENT,
                1,
                &bind(SWITCH, unit(63)),
            )),
            state: state(63, 63, 128, FULL),
            answer: (0, 16),
        },
        delivery(
            "delivery, 1 matching bind of 64",
            BIND_ADDRESS,
            state(64, 1, 128, FULL),
            1,
        ),
        delivery(
            "delivery, 16 matching binds of 64",
            BIND_ADDRESS,
            state(64, 16, 128, FULL),
            16,
        ),
        delivery(
            "delivery, 64 matching binds of 64",
            BIND_ADDRESS,
            full(),
            64,
        ),
        delivery(
            "delivery, 64 binds of a scene switch",
            BIND_ADDRESS,
            of_any(full()),
            64,
        ),
        delivery("delivery, group of 128", GROUP_ADDRESS, full(), 128),
        group_info("Get Group Info, 128 members", full(), 128),
        Case {
            name: "60 of 64 binds read back by index".into(),
            call: Call::Message(message(
                SWITCH,
                CONCENTRATOR,
                BIND_MANAGEMENT,
                0x09,
                &[0, 0, 0xFF],
            )),
            state: reading(full()),
            answer: (0, 15 + 1 + 1 + 8 * 60),
        },
        Case {
            name: "60 of 64 binds read back by source".into(),
            call: Call::Message(message(
                SWITCH,
                CONCENTRATOR,
                BIND_MANAGEMENT,
                0x0A,
                &SWITCH.0.to_be_bytes(),
            )),
            state: reading(full()),
            answer: (0, 15 + 1 + 1 + 8 * 60),
        },
        Case {
            name: "release".into(),
            call: Call::Release(2),
            state: full(),
            answer: (0, 0),
        },
        Case {
            name: "carry-over of 64 devices".into(),
            call: Call::CarryOver(devices(&[HIGHEST_UNIT])),
            state: full(),
            answer: (0, 0),
        },
    ]
}

/// Putting units in order: the same 128 members, as they may be stored.
pub fn orders() -> Vec<Case> {
    let tables = |order| stored(order, state(64, 64, 128, FULL));
    let delivered = ORDERS.map(|(name, order)| {
        let name = format!("delivery, group of 128 stored {name}");
        delivery(&name, GROUP_ADDRESS, tables(order), 128)
    });
    let told = ORDERS.map(|(name, order)| {
        let name = format!("Get Group Info, 128 stored {name}");
        group_info(&name, tables(order), 128)
    });
    delivered.into_iter().chain(told).collect()
}

/// How cost grows with records: a message to a group whose members fill their table, or which has none, and no binds.
pub fn growth() -> Vec<Case> {
    let records = [0, 8, 16, 32, 64, 128];
    let filled = records.map(|n| {
        let name = format!("group of {n}, {n} member records");
        delivery(&name, GROUP_ADDRESS, state(0, 0, n, (0, n)), n)
    });
    let free = records.map(|n| {
        let name = format!("group of 0, {n} free member records");
        delivery(&name, GROUP_ADDRESS, state(0, 0, 0, (0, n)), 0)
    });
    filled.into_iter().chain(free).collect()
}
