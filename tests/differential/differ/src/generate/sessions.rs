//! Session tables ("CR 1"): who reads in tables that are built, and records that are not sound or only just are.

use super::records::{some_record, MOST, SESSION};
use super::sound::construct;
use super::view::{some_address, View};
use crate::case::World;
use crate::rng::Rng;

/// Devices of these tables read, D'0000 among them: none, some, or as many as there are records. Rights are asked when a session starts, so a device
/// without them may have one in a table that is lent.
pub(super) fn open_sessions(rng: &mut Rng, world: &mut World) {
    let view = View::of(world);
    construct(rng, &mut world.sessions, SESSION, |rng| {
        Some(view.unit(rng).0.to_be_bytes())
    });
}

/// Breaks, or nearly breaks, one rule of the session table: nine records, a device in two places, its top bit, or another device in the place of one that
/// reads, which need not be there, or D'0000, which is.
pub(super) fn spoil_sessions(rng: &mut Rng, sessions: &mut Vec<u8>) {
    if rng.percent(15) {
        return sessions.resize(SESSION * (MOST[4] + 1), 0xFF);
    }
    let to = rng.below(sessions.len() / SESSION) * SESSION;
    let Some(record) = some_record(rng, sessions, SESSION) else {
        return;
    };
    match rng.below(6) {
        0 | 1 => record[0] ^= 0x80,
        2 => record.copy_from_slice(&some_address(rng).to_be_bytes()),
        3 => record.fill(0),
        _ => {
            let device = [record[0], record[1]];
            sessions[to..to + SESSION].copy_from_slice(&device);
        }
    }
}
