//! The five group commands ("Commands and codes").

use crate::binds;
use crate::codes::{alone, ok_if, ok_if_room, INVALID_ARGUMENT, NOT_ENOUGH_RESOURCES, OK};
use crate::recipients::Units;
use crate::tables::{
    free_where, group_exists, group_record, member_holds, number, present, put, store, word,
    Tables, GROUP, LONGEST_NAME, MEMBER, NAME,
};

/// The member named, the top bits of group and device ignored.
fn member_of(payload: &[u8]) -> [u8; MEMBER] {
    let mut member = [0; MEMBER];
    member.copy_from_slice(payload);
    member[0] &= 0x7F;
    member[2] &= 0x7F;
    member
}

pub fn create(name: &[u8], groups: &mut [u8], out: &mut [u8]) -> usize {
    if name.len() > LONGEST_NAME {
        return alone(NOT_ENOUGH_RESOURCES, out);
    }
    let address = smallest_unused(groups);
    let mut group = [0; GROUP];
    put(&mut group, 0, address);
    group[2] = name.len() as u8;
    group[NAME..NAME + name.len()].copy_from_slice(name);
    out[0] = ok_if_room(store(groups, &group));
    if out[0] != OK {
        return 1;
    }
    put(out, 1, address);
    3
}

/// "The address is the smallest from 0x0001 not in use." With at most 16
/// groups the search ends at 17 or before.
fn smallest_unused(groups: &[u8]) -> u16 {
    let mut address = 1;
    while group_exists(groups, address) {
        address += 1;
    }
    address
}

pub fn delete(payload: &[u8], tables: Tables) -> u8 {
    let group = number(word(payload, 0));
    if !free_where(tables.groups, GROUP, |there| word(there, 0) == group) {
        return INVALID_ARGUMENT;
    }
    free_where(tables.members, MEMBER, |member| word(member, 0) == group);
    // Of group type only: D' with the same number is a different thing.
    binds::free(tables.binds, tables.sessions, |bind| {
        word(bind, 5) == 0x8000 | group
    });
    OK
}

pub fn add_member(payload: &[u8], tables: Tables) -> u8 {
    let member = member_of(payload);
    if !member_holds(tables.devices, tables.groups, &member) || present(tables.members, &member) {
        return INVALID_ARGUMENT;
    }
    ok_if_room(store(tables.members, &member))
}

pub fn remove_member(payload: &[u8], members: &mut [u8]) -> u8 {
    let wanted = member_of(payload);
    ok_if(free_where(members, MEMBER, |member| member == wanted))
}

/// "0x00, name length, name, number of members (16 bits), members (device,
/// unit) by rising device and unit".
pub fn info(payload: &[u8], groups: &[u8], members: &[u8], out: &mut [u8]) -> usize {
    let address = number(word(payload, 0));
    let group = match group_record(groups, address) {
        None => return alone(INVALID_ARGUMENT, out),
        Some(group) => group,
    };
    let named = 1 + usize::from(group[2]);
    let mut units = Units::none();
    units.add_members(members, address);
    out[0] = OK;
    out[1..1 + named].copy_from_slice(&group[2..2 + named]);
    put(out, 1 + named, units.count() as u16);
    1 + named + 2 + 3 * units.write(&mut out[1 + named + 2..])
}
