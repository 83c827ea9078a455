//! What was met of reading binds back ("CR 1"): each command with each of its codes, the limits of a reply and of the session table, and what closed
//! sessions and what did not.

use crate::case::{Answer, Call, Case, World};
use crate::generate::{used, word, BIND, SESSION};

/// Member, name, length of the payload and codes of each command.
const COMMANDS: [(u8, &str, usize, &[u8]); 7] = [
    (0x07, "Start", 0, &[0x00, 0x01, 0x02, 0xFE]),
    (0x08, "End", 0, &[0x00, 0x02, 0xFF]),
    (0x09, "Get by index", 3, &[0x00, 0x02, 0x20]),
    (0x0A, "Get by source", 2, &[0x00, 0x02, 0x20]),
    (0x0B, "Get by source with unit", 3, &[0x00, 0x02, 0x20]),
    (0x0C, "Get by destination", 2, &[0x00, 0x02, 0x20]),
    (0x0D, "Get by destination with unit", 3, &[0x00, 0x02, 0x20]),
];

/// UID, member and name of each command that can change binds.
const CHANGES: [((u8, u8), &str); 7] = [
    ((2, 1), "Add Bind"),
    ((2, 2), "Remove Bind"),
    ((2, 3), "Remove by source"),
    ((2, 4), "Remove by source with unit"),
    ((2, 5), "Remove by destination"),
    ((2, 6), "Remove by destination with unit"),
    ((3, 2), "Delete Group"),
];

/// Most entries that a reply holds.
const MOST_ENTRIES: usize = 60;

const START_AGAIN: &str = "Start by a device in session";
const EIGHT: &str = "Start refused where eight read";
const NO_RECORD: &str = "Start refused where no record is lent";
const ALL_BUT_LAST: &str = "Get by index that ends before the last entry";
const LAST: &str = "Get by index that ends with the last entry";
const PAST: &str = "Get by index past the last entry";
const NONE_ASKED: &str = "Get by index of no entry";
const DELETE_LEAVES: &str = "Delete Group that leaves sessions open";
const RELEASE_CLOSES: &str = "release that closes sessions of others";
const RELEASE_LEAVES: &str = "release that closes its own session alone";
const RELEASE_OF_OTHER: &str = "release of a device without session that leaves sessions open";
const REFUSED_LEAVES: &str = "refused change that leaves sessions open";

/// All that must come up, in single calls as in runs.
pub fn all() -> Vec<String> {
    let mut all = Vec::from(
        [
            START_AGAIN,
            EIGHT,
            NO_RECORD,
            ALL_BUT_LAST,
            LAST,
            PAST,
            NONE_ASKED,
            DELETE_LEAVES,
            RELEASE_CLOSES,
            RELEASE_LEAVES,
            RELEASE_OF_OTHER,
            REFUSED_LEAVES,
        ]
        .map(String::from),
    );
    for (member, name, _, codes) in COMMANDS {
        all.extend(codes.iter().map(|code| answered(name, *code)));
        if member >= 0x09 {
            all.push(cut_off(name));
        }
        if member >= 0x0A {
            all.extend([all_that_match(name), none_that_match(name)]);
        }
    }
    all.extend(CHANGES.map(|(_, name)| closed_by(name)));
    all
}

fn answered(name: &str, code: u8) -> String {
    format!("{name} code {code:02X}")
}

fn cut_off(name: &str) -> String {
    format!("{name}, 60 entries of more")
}

fn all_that_match(name: &str) -> String {
    format!("{name}, all that match")
}

fn none_that_match(name: &str) -> String {
    format!("{name}, none that match")
}

fn closed_by(name: &str) -> String {
    format!("sessions closed by {name}")
}

/// What this case and its answer met.
pub fn met(case: &Case, answer: &Answer) -> Vec<String> {
    let before: Vec<[u8; SESSION]> = used(&case.world.sessions);
    let after: Vec<[u8; SESSION]> = used(&answer.world.sessions);
    match (&answer.call, answer.outcome) {
        (Call::Message { msg, reply, .. }, 0) => {
            let (command, code) = ((msg[11], msg[12]), reply[15]);
            let mut commands = COMMANDS.iter();
            let Some(&(member, name, length, _)) = commands.find(|there| (2, there.0) == command)
            else {
                return Vec::from_iter(by_change(command, code, &before, &after));
            };
            let mut met = vec![answered(name, code)];
            match (member, code) {
                (0x07, _) => met.extend(by_start(&case.world, &before, &after, code)),
                // A part with a fault may grant another length.
                _ if msg.len() != 15 + length => (),
                (0x09, 0) => met.extend(by_index(&case.world, &msg[15..], reply[16], name)),
                (0x0A.., 0) => met.push(by_end(&case.world, msg, reply[16], name)),
                _ => (),
            }
            met
        }
        (&Call::Release { address }, 0) => {
            Vec::from_iter(by_release(address, &before, &after).map(String::from))
        }
        _ => Vec::new(),
    }
}

fn by_start(
    world: &World,
    before: &[[u8; SESSION]],
    after: &[[u8; SESSION]],
    code: u8,
) -> Option<String> {
    let met = match code {
        0x00 if before == after => START_AGAIN,
        0xFE if world.sessions.is_empty() => NO_RECORD,
        0xFE if before.len() == 8 => EIGHT,
        _ => return None,
    };
    Some(met.into())
}

/// A read by index that was granted so many entries.
fn by_index(world: &World, payload: &[u8], given: u8, name: &str) -> Vec<String> {
    let there = used::<BIND>(&world.binds).len();
    let (first, asked) = (usize::from(word(payload, 0)), usize::from(payload[2]));
    let left = there.saturating_sub(first);
    let mut met = Vec::new();
    if usize::from(given) == MOST_ENTRIES && asked.min(left) > MOST_ENTRIES {
        met.push(cut_off(name));
    }
    let place = match usize::from(given) {
        0 if asked == 0 => NONE_ASKED,
        0 => PAST,
        given if given == left => LAST,
        _ => ALL_BUT_LAST,
    };
    met.push(place.into());
    met
}

/// A read by one end of binds that was granted so many entries.
fn by_end(world: &World, msg: &[u8], given: u8, name: &str) -> String {
    let payload = &msg[15..];
    let source = [payload[0] & 0x7F, payload[1]];
    let mut binds: Vec<[u8; BIND]> = used(&world.binds);
    binds.retain(|bind| match msg[12] {
        0x0A => bind[..2] == source,
        0x0B => bind[..2] == source && bind[2] == payload[2],
        0x0C => bind[5..7] == *payload,
        _ => bind[5..] == *payload,
    });
    match usize::from(given) {
        0 => none_that_match(name),
        MOST_ENTRIES if binds.len() > MOST_ENTRIES => cut_off(name),
        _ => all_that_match(name),
    }
}

/// A command that can change binds, where somebody read before it.
fn by_change(
    command: (u8, u8),
    code: u8,
    before: &[[u8; SESSION]],
    after: &[[u8; SESSION]],
) -> Option<String> {
    let (_, name) = CHANGES.iter().find(|there| there.0 == command)?;
    match (before.is_empty(), after.is_empty()) {
        (true, _) => None,
        (false, true) => Some(closed_by(name)),
        (false, false) if code != 0x00 => Some(REFUSED_LEAVES.into()),
        (false, false) => Some(DELETE_LEAVES.into()),
    }
}

/// A release that was done, where others read before it.
fn by_release(
    address: u16,
    before: &[[u8; SESSION]],
    after: &[[u8; SESSION]],
) -> Option<&'static str> {
    let own = before.contains(&address.to_be_bytes());
    match (before.len() - usize::from(own), after.len()) {
        (0, _) => None,
        (_, 0) => Some(RELEASE_CLOSES),
        _ if own => Some(RELEASE_LEAVES),
        _ => Some(RELEASE_OF_OTHER),
    }
}
