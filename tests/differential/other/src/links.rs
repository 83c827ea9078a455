//! The program `links` ("Rows to try"), as a function of its input.

use crate::sessions::{MOST_SESSIONS, SESSION};
use crate::tables::{
    BIND, DEVICE, GROUP, MEMBER, MOST_BINDS, MOST_DEVICES, MOST_GROUPS, MOST_MEMBERS,
};
use crate::{message, outcome, LONGEST};
use std::fmt::Write;

const DEVICES: usize = DEVICE * MOST_DEVICES;
const BINDS: usize = BIND * MOST_BINDS;
const GROUPS: usize = GROUP * MOST_GROUPS;
const MEMBERS: usize = MEMBER * MOST_MEMBERS;

/// What the program prints for this standard input, every line ended.
pub fn links(input: &[u8]) -> String {
    if input.len() < DEVICES + BINDS + GROUPS + MEMBERS {
        return "short input\n".to_string();
    }
    let mut tables = input.to_vec();
    let msg = tables.split_off(DEVICES + BINDS + GROUPS + MEMBERS);
    // "at most 501 octets are read", so any longer message is one of 501.
    let msg = &msg[..msg.len().min(LONGEST + 1)];
    let (devices, rest) = tables.split_at_mut(DEVICES);
    let (binds, rest) = rest.split_at_mut(BINDS);
    let (groups, members) = rest.split_at_mut(GROUPS);
    // They are no part of the input: nobody has a session.
    let mut sessions = [0xFF; SESSION * MOST_SESSIONS];
    let mut reply = [0; LONGEST];
    let mut list = [0; 3 * (MOST_BINDS + MOST_MEMBERS)];
    let mut count = 0;
    // Neither is printed.
    let (mut reason, mut octet) = (0, 0);
    let result = message(
        devices,
        binds,
        groups,
        members,
        &mut sessions,
        msg,
        &mut reply,
        &mut list,
        &mut count,
        &mut reason,
        &mut octet,
    );
    match result {
        outcome::DONE => format!("outcome 0 count 0\n{}\n", hexadecimal(&reply[..count])),
        outcome::FORWARDED => {
            let mut printed = format!("outcome 1 count {count}\n");
            for unit in list[..3 * count].chunks_exact(3) {
                let _ = writeln!(printed, "{:02X}{:02X}:{:02X}", unit[0], unit[1], unit[2]);
            }
            printed
        }
        refusal => format!("outcome {refusal} count 0\n"),
    }
}

fn hexadecimal(octets: &[u8]) -> String {
    octets.iter().fold(String::new(), |mut printed, octet| {
        let _ = write!(printed, "{octet:02X}");
        printed
    })
}
