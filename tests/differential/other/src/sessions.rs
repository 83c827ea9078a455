//! Read sessions, and the binds that are read back in one ("CR 1"; sections
//! 6.2.5.7 to 6.2.5.13 of document 000).

use crate::binds::Form;
use crate::codes::{alone, NOT_ENOUGH_RESOURCES, NO_SESSION, OK, UNKNOWN_REASON};
use crate::tables::{
    device_exists, fits, free_where, no_two_equal, present, put, store, used, word, Tables, BIND,
};
use crate::{HEADER, LONGEST};

/// Octets of one record, "device address, 2 octets", and most records: "at
/// most 8".
pub const SESSION: usize = 2;
pub const MOST_SESSIONS: usize = 8;

/// "as many whole ones as a payload of 485 octets holds", behind the code and
/// the number of entries.
const MOST_ENTRIES: usize = (LONGEST - HEADER - 2) / BIND;

/// "free ones 0xFF, none twice, each admitted or D'0000". No device has an
/// address with the top bit, so a record that has it is free or not sound.
pub fn sound(devices: &[u8], sessions: &[u8]) -> bool {
    fits(sessions, SESSION, MOST_SESSIONS)
        && used(sessions, SESSION).all(|session| device_exists(devices, word(session, 0)))
        && no_two_equal(sessions, SESSION, SESSION)
}

/// Whether the device reads. The session is the device's, not one unit's.
fn open(sessions: &[u8], device: u16) -> bool {
    present(sessions, &device.to_be_bytes())
}

/// Frees the device's record; says whether there was one.
pub fn close(sessions: &mut [u8], device: u16) -> bool {
    free_where(sessions, SESSION, |session| word(session, 0) == device)
}

/// "any change to the bind table closes all sessions".
pub fn close_all(sessions: &mut [u8]) {
    sessions.fill(0xFF);
}

/// Start Session Read Bind Info: the code and "Number of bind entries currently
/// set on D'0:U'0". "0xFE at Start exactly when no session record is free and
/// the device has none".
pub fn start(device: u16, tables: Tables, out: &mut [u8]) -> usize {
    if !open(tables.sessions, device) && !store(tables.sessions, &device.to_be_bytes()) {
        return alone(NOT_ENOUGH_RESOURCES, out);
    }
    out[0] = OK;
    put(out, 1, used(tables.binds, BIND).count() as u16);
    3
}

/// End Session Read Bind Info: Table 48 has one code for all that is not well.
pub fn end(device: u16, sessions: &mut [u8]) -> u8 {
    if close(sessions, device) {
        OK
    } else {
        UNKNOWN_REASON
    }
}

/// What a Get Bind Entries command asks for.
#[derive(Clone, Copy, PartialEq, Eq)]
pub enum Get {
    ByIndex,
    By(Form),
}

impl Get {
    /// Octets of the payload: Tables 50, 54, 58, 62 and 66.
    pub fn length(self) -> usize {
        match self {
            Get::ByIndex => 3,
            Get::By(form) => form.length(),
        }
    }
}

/// The five Get Bind Entries commands: "Read session not established", or the
/// entries. "Entries table was modified" is never answered: the change closed
/// the session, and a read "in a closed session gets the code that its section
/// gives without one".
pub fn get(what: Get, device: u16, payload: &[u8], tables: Tables, out: &mut [u8]) -> usize {
    if !open(tables.sessions, device) {
        return alone(NO_SESSION, out);
    }
    let binds = used(tables.binds, BIND);
    match what {
        // "the index of the first rule entry and the number of entries to read",
        // the entries counted from 0.
        Get::ByIndex => {
            let (first, number) = (word(payload, 0).into(), payload[2].into());
            write(binds.skip(first).take(number), out)
        }
        Get::By(form) => write(binds.filter(|bind| form.names(payload, bind)), out),
    }
}

/// Code, "Total number of entries present on the response payload data", and the
/// entries, "in table order".
fn write<'a>(binds: impl Iterator<Item = &'a [u8]>, out: &mut [u8]) -> usize {
    let mut number = 0;
    for bind in binds.take(MOST_ENTRIES) {
        out[2 + BIND * number..][..BIND].copy_from_slice(bind);
        number += 1;
    }
    out[0] = OK;
    out[1] = number as u8;
    2 + BIND * number
}
