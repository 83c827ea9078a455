//! Session tables that are not sound ("CR 1"): each way alone, beside tables that are sound, in each call that asks.

use crate::case::{Answer, Call, Case};
use crate::generate::{used, word, DEVICE, SESSION};

const CALLS: [&str; 3] = ["message", "admit", "release"];
const WAYS: [&str; 5] = [
    "an odd length",
    "nine records or more",
    "a device twice",
    "a device that is not there",
    "the top bit of a device that is there",
];

/// All that must come up in single calls; no run has such a table.
pub fn all() -> Vec<String> {
    let calls = CALLS.iter();
    calls
        .flat_map(|call| WAYS.map(|way| refused(call, way)))
        .collect()
}

fn refused(call: &str, way: &str) -> String {
    format!("{call} refused for {way} in the sessions")
}

/// What this case met: sessions that are not sound in one way, and are all that is not.
pub fn met(case: &Case, answer: &Answer) -> Option<String> {
    let call = match (&case.call, answer.outcome) {
        (Call::Message { .. }, 16) => CALLS[0],
        (Call::Admit { .. }, 16) => CALLS[1],
        (Call::Release { .. }, 16) => CALLS[2],
        _ => return None,
    };
    let ways = ways(case);
    let mut met = WAYS.into_iter().zip(ways).filter(|(_, holds)| *holds);
    let (way, _) = met.next()?;
    let alone = met.next().is_none() && !case.unsound_without_sessions();
    alone.then(|| refused(call, way))
}

/// Which of the ways the sessions are not sound in.
fn ways(case: &Case) -> [bool; 5] {
    let sessions = &case.world.sessions;
    let devices: Vec<[u8; DEVICE]> = used(&case.world.devices);
    let is_device = |address: u16| {
        let mut devices = devices.iter();
        address == 0 || devices.any(|device| word(device, 0) == address)
    };
    let mut readers: Vec<[u8; SESSION]> = used(sessions);
    let addresses: Vec<u16> = readers.iter().map(|reader| word(reader, 0)).collect();
    readers.sort();
    readers.dedup();
    let top = |address: &u16| *address >= 0x8000 && is_device(*address & 0x7FFF);
    [
        !sessions.len().is_multiple_of(SESSION),
        sessions.len() / SESSION > 8,
        readers.len() < addresses.len(),
        addresses
            .iter()
            .any(|address| !is_device(*address) && !top(address)),
        addresses.iter().any(top),
    ]
}
