//! Which command a message is, what every command asks first, and the reply
//! ("Commands and codes").

use crate::binds::{self, Form};
use crate::codes::{alone, INVALID_ARGUMENT, NOT_AUTHORIZED};
use crate::groups;
use crate::header::Header;
use crate::sessions::{self, Get};
use crate::tables::{self, put, Tables, BIND};
use crate::HEADER;

const BIND_MANAGEMENT: u16 = 0x0002;
const GROUP_MANAGEMENT: u16 = 0x0003;

/// The type of a reply ("The message").
const COMMAND_RESPONSE: u8 = 0x03;

#[derive(Clone, Copy, PartialEq, Eq)]
pub enum Command {
    AddBind,
    Remove(Form),
    StartSession,
    EndSession,
    Get(Get),
    CreateGroup,
    DeleteGroup,
    AddToGroup,
    RemoveFromGroup,
    GetGroupInfo,
}

/// The command, unless it is outcome 18: "not one of the eleven commands as
/// type 0x01 or 0x02 to a server interface", and of the seven by which binds are
/// read back: "outcome 18 shrinks by these commands" ("CR 1"). Member numbers
/// follow the order of the sections 6.2.5 and 6.3.5 of document 000.
pub fn named_by(header: &Header) -> Option<Command> {
    use sessions::Get::{By, ByIndex};
    use Command::*;
    if !matches!(header.kind, 0x01 | 0x02) || !header.server {
        return None;
    }
    match (header.uid, header.member) {
        (BIND_MANAGEMENT, 0x01) => Some(AddBind),
        (BIND_MANAGEMENT, 0x02) => Some(Remove(Form::Whole)),
        (BIND_MANAGEMENT, 0x03) => Some(Remove(Form::Source)),
        (BIND_MANAGEMENT, 0x04) => Some(Remove(Form::SourceUnit)),
        (BIND_MANAGEMENT, 0x05) => Some(Remove(Form::Destination)),
        (BIND_MANAGEMENT, 0x06) => Some(Remove(Form::DestinationUnit)),
        (BIND_MANAGEMENT, 0x07) => Some(StartSession),
        (BIND_MANAGEMENT, 0x08) => Some(EndSession),
        (BIND_MANAGEMENT, 0x09) => Some(Get(ByIndex)),
        (BIND_MANAGEMENT, 0x0A) => Some(Get(By(Form::Source))),
        (BIND_MANAGEMENT, 0x0B) => Some(Get(By(Form::SourceUnit))),
        (BIND_MANAGEMENT, 0x0C) => Some(Get(By(Form::Destination))),
        (BIND_MANAGEMENT, 0x0D) => Some(Get(By(Form::DestinationUnit))),
        (GROUP_MANAGEMENT, 0x01) => Some(CreateGroup),
        (GROUP_MANAGEMENT, 0x02) => Some(DeleteGroup),
        (GROUP_MANAGEMENT, 0x03) => Some(AddToGroup),
        (GROUP_MANAGEMENT, 0x04) => Some(RemoveFromGroup),
        (GROUP_MANAGEMENT, 0x05) => Some(GetGroupInfo),
        _ => None,
    }
}

/// Serves the command, writes the reply and returns the reply's length.
pub fn serve(
    command: Command,
    header: &Header,
    payload: &[u8],
    tables: Tables,
    reply: &mut [u8],
) -> usize {
    let written = answer(command, header, payload, tables, &mut reply[HEADER..]);
    write_header(header, written, reply);
    HEADER + written
}

/// "A reply comes from D'0:U'0 to the sender" ("The message").
fn write_header(request: &Header, data_length: usize, reply: &mut [u8]) {
    reply[..HEADER].fill(0);
    put(reply, 3, request.source);
    reply[5] = request.source_unit;
    reply[8] = request.app_ref;
    reply[9] = COMMAND_RESPONSE;
    put(reply, 10, u16::from(request.server) << 15 | request.uid);
    reply[12] = request.member;
    put(reply, 13, data_length as u16);
}

/// Writes the reply's payload and returns its length. The checks come in the
/// paper's order.
fn answer(
    command: Command,
    header: &Header,
    payload: &[u8],
    tables: Tables,
    out: &mut [u8],
) -> usize {
    if asks_rights(command) && tables::rights(tables.devices, header.source) != 1 {
        return alone(NOT_AUTHORIZED, out);
    }
    if !length_fits(command, payload) {
        return alone(INVALID_ARGUMENT, out);
    }
    match command {
        Command::AddBind => alone(binds::add(payload, tables), out),
        Command::Remove(form) => alone(binds::remove(form, payload, tables), out),
        Command::StartSession => sessions::start(header.source, tables, out),
        Command::EndSession => alone(sessions::end(header.source, tables.sessions), out),
        Command::Get(what) => sessions::get(what, header.source, payload, tables, out),
        Command::CreateGroup => groups::create(&payload[1..], tables.groups, out),
        Command::DeleteGroup => alone(groups::delete(payload, tables), out),
        Command::AddToGroup => alone(groups::add_member(payload, tables), out),
        Command::RemoveFromGroup => alone(groups::remove_member(payload, tables.members), out),
        Command::GetGroupInfo => groups::info(payload, tables.groups, tables.members, out),
    }
}

/// "Not applied to Get Group Info." Of the seven by which binds are read back,
/// the section of Start Session alone lists 0x01.
fn asks_rights(command: Command) -> bool {
    !matches!(
        command,
        Command::GetGroupInfo | Command::EndSession | Command::Get(_)
    )
}

fn length_fits(command: Command, payload: &[u8]) -> bool {
    use Command::*;
    match command {
        AddBind => payload.len() == BIND,
        Remove(form) => payload.len() == form.length(),
        StartSession | EndSession => payload.is_empty(),
        Get(what) => payload.len() == what.length(),
        DeleteGroup | GetGroupInfo => payload.len() == 2,
        AddToGroup | RemoveFromGroup => payload.len() == 5,
        CreateGroup => match payload.first() {
            None => false,
            Some(&length) => payload.len() == 1 + usize::from(length),
        },
    }
}
