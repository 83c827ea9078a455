//! Add Bind and the five Remove forms ("Commands and codes"), and what closes
//! the sessions in which binds are read back ("CR 1").

use crate::codes::{ok_if, ok_if_room, INVALID_ARGUMENT};
use crate::sessions::close_all;
use crate::tables::{bind_fields_hold, free_where, number, present, store, word, Tables, BIND};

/// By which octets of theirs a command names binds.
#[derive(Clone, Copy, PartialEq, Eq)]
pub enum Form {
    Whole,
    Source,
    SourceUnit,
    Destination,
    DestinationUnit,
}

impl Form {
    /// Octets of the payload: "bind 8; by source device or by destination 2;
    /// with unit 3".
    pub fn length(self) -> usize {
        match self {
            Form::Whole => BIND,
            Form::Source | Form::Destination => 2,
            Form::SourceUnit | Form::DestinationUnit => 3,
        }
    }

    /// Whether a payload of that length names the bind. The two forms by
    /// destination carry octets 6-7, flag included. "Remove compares the stored
    /// octets, so any matches only any" ("CR 4").
    pub fn names(self, payload: &[u8], bind: &[u8]) -> bool {
        let first = word(payload, 0);
        match self {
            Form::Whole => bind == bind_of(payload),
            Form::Source => word(bind, 0) == number(first),
            Form::SourceUnit => word(bind, 0) == number(first) && bind[2] == payload[2],
            Form::Destination => word(bind, 5) == first,
            Form::DestinationUnit => word(bind, 5) == first && bind[7] == payload[2],
        }
    }
}

/// "Octet 1's top bit .. is ignored in a command and stored as 0" ("Tables").
pub fn bind_of(payload: &[u8]) -> [u8; BIND] {
    let mut bind = [0; BIND];
    bind.copy_from_slice(payload);
    bind[0] &= 0x7F;
    bind
}

pub fn add(payload: &[u8], tables: Tables) -> u8 {
    let bind = bind_of(payload);
    if !bind_fields_hold(tables.devices, tables.groups, &bind) || present(tables.binds, &bind) {
        return INVALID_ARGUMENT;
    }
    let stored = store(tables.binds, &bind);
    if stored {
        close_all(tables.sessions);
    }
    ok_if_room(stored)
}

/// "0x02 if nothing matches, else all matches become free".
pub fn remove(form: Form, payload: &[u8], tables: Tables) -> u8 {
    ok_if(free(tables.binds, tables.sessions, |bind| {
        form.names(payload, bind)
    }))
}

/// Frees every bind that matches; says whether there was one. "any change to the
/// bind table closes all sessions", and where none matches there is no change.
pub fn free(binds: &mut [u8], sessions: &mut [u8], matches: impl Fn(&[u8]) -> bool) -> bool {
    let found = free_where(binds, BIND, matches);
    if found {
        close_all(sessions);
    }
    found
}
