//! What a read gives ("CR 1"): which entries, in which order, and how many.

use super::*;

/// Six binds, free records before, between and behind them. Two are of device 3
/// written out, two of any device, and D'0001 and G'0001 are among the
/// destinations.
const A: [u8; 8] = [0, 3, 1, 0x82, 0, 0, 4, 2];
const B: [u8; 8] = [0x7F, 0xFF, 1, 0x82, 0, 0x80, 1, 2];
const C: [u8; 8] = [0, 3, 2, 0x02, 0, 0x80, 1, 0];
const D: [u8; 8] = [0, 4, 1, 0xFF, 0xFF, 0, 1, 2];
const E: [u8; 8] = [0x7F, 0xFF, 0xFF, 0x82, 1, 0, 4, 1];
const F: [u8; 8] = [0, 0, 0, 0x82, 0, 0, 1, 0];
const ALL: [[u8; 8]; 6] = [A, B, C, D, E, F];
const NONE: [[u8; 8]; 0] = [];

/// The rows' tables with device 1, and these binds in records 1, 2, 4, 5, 7
/// and 9; device 5, which has no rights, is in session.
fn with_six() -> World {
    let mut world = World::of_the_rows();
    assert_eq!(world.admit(1, 0, units(&[0x07])), 0);
    for (at, bind) in [1, 2, 4, 5, 7, 9].into_iter().zip(ALL) {
        world.binds[8 * at..][..8].copy_from_slice(&bind);
    }
    world.sessions[6..8].copy_from_slice(&[0, 5]);
    world
}

/// The entries of a read answered with 0x00; it changes nothing.
fn read(world: &mut World, member: u8, payload: &[u8]) -> Vec<[u8; 8]> {
    let before = world.clone();
    let reply = world.command((5, 1), BIND, member, payload);
    assert_eq!(*world, before);
    let entries: Vec<[u8; 8]> = reply[2..]
        .chunks(8)
        .map(|entry| entry.try_into().unwrap())
        .collect();
    assert_eq!(reply[..2], [0, entries.len() as u8]);
    entries
}

/// "the index of the first rule entry and the number of entries to read": free
/// records have no index.
#[test]
fn by_index() {
    let mut world = with_six();
    for first in 0..=8 {
        for number in (0..=8).chain([60, 61, 255]) {
            let entries = read(&mut world, BY_INDEX, &[0, first as u8, number]);
            let from = &ALL[first.min(6)..];
            assert_eq!(entries, from[..from.len().min(number.into())]);
        }
    }
    // 16 bits: neither octet alone is the index.
    for first in [[1, 0], [0xFF, 0], [0xFF, 0xFF], [0x80, 0], [0, 0xFF]] {
        let payload = [first[0], first[1], 9];
        assert_eq!(read(&mut world, BY_INDEX, &payload), NONE);
    }
}

/// "a source's top bit is ignored"; any matches only any, as in a removal.
#[test]
fn by_source() {
    let mut world = with_six();
    for (device, there) in [
        ([0, 3], &[A, C][..]),
        ([0x80, 3], &[A, C]),
        ([0x7F, 0xFF], &[B, E]),
        ([0xFF, 0xFF], &[B, E]),
        ([0, 4], &[D]),
        ([0, 0], &[F]),
        ([0x80, 0], &[F]),
        ([0, 1], &[]),
        ([3, 0], &[]),
        ([0x7F, 0xFE], &[]),
    ] {
        assert_eq!(read(&mut world, BY_SOURCE, &device), there);
    }
    for (unit, there) in [
        ([0, 3, 1], &[A][..]),
        ([0x80, 3, 2], &[C]),
        ([0, 3, 0], &[]),
        ([0, 3, 0xFF], &[]),
        ([0x7F, 0xFF, 1], &[B]),
        ([0xFF, 0xFF, 0xFF], &[E]),
        ([0x7F, 0xFF, 0], &[]),
        ([0, 0, 0], &[F]),
        ([0, 4, 1], &[D]),
        ([0, 4, 2], &[]),
    ] {
        assert_eq!(read(&mut world, BY_SOURCE_UNIT, &unit), there);
    }
}

/// A destination's flag counts: D'0001 and G'0001 are different things.
#[test]
fn by_destination() {
    let mut world = with_six();
    for (to, there) in [
        ([0, 4], &[A, E][..]),
        ([0x80, 4], &[]),
        ([0, 1], &[D, F]),
        ([0x80, 1], &[B, C]),
        ([0xFF, 0xFF], &[]),
        ([0x7F, 0xFF], &[]),
        ([0, 0], &[]),
    ] {
        assert_eq!(read(&mut world, BY_DESTINATION, &to), there);
    }
    for (to, there) in [
        ([0, 4, 2], &[A][..]),
        ([0, 4, 1], &[E]),
        ([0, 4, 0], &[]),
        ([0, 1, 2], &[D]),
        ([0x80, 1, 2], &[B]),
        ([0x80, 1, 0], &[C]),
        ([0, 1, 0], &[F]),
        ([0x80, 1, 1], &[]),
        ([0xFF, 0xFF, 0xFF], &[]),
    ] {
        assert_eq!(read(&mut world, BY_DESTINATION_UNIT, &to), there);
    }
}

/// The bind that differs from the others by its UID alone.
fn one_of_many(uid: u8) -> [u8; 8] {
    [0, 3, 1, 0x82, uid, 0, 4, 2]
}

/// "as many whole ones as a payload of 485 octets holds": 60, and 3 octets of it
/// stay as they were lent (`command` sees to it).
#[test]
fn sixty_at_most() {
    let mut world = World::of_the_rows();
    let all: Vec<_> = (0..64).map(one_of_many).collect();
    world.binds = all.concat();
    world.sessions[..2].copy_from_slice(&[0, 5]);
    for (payload, from, to) in [
        ([0, 0, 255], 0, 60),
        ([0, 0, 61], 0, 60),
        ([0, 0, 60], 0, 60),
        ([0, 0, 59], 0, 59),
        ([0, 3, 61], 3, 63),
        ([0, 4, 255], 4, 64),
        ([0, 4, 60], 4, 64),
        ([0, 5, 60], 5, 64),
        ([0, 60, 60], 60, 64),
        ([0, 63, 1], 63, 64),
        ([0, 63, 255], 63, 64),
        ([0, 64, 1], 64, 64),
        ([1, 0, 1], 64, 64),
        ([0, 9, 0], 9, 9),
    ] {
        assert_eq!(read(&mut world, BY_INDEX, &payload), all[from..to]);
    }
    for (member, payload) in &READS[1..] {
        assert_eq!(read(&mut world, *member, payload), all[..60]);
    }
    // Of 61 that match the last is left out, of 60 none, free ones between.
    world.binds[8 * 10..8 * 13].fill(0xFF);
    let left: Vec<_> = [&all[..10], &all[13..]].concat();
    for (member, payload) in &READS[1..] {
        assert_eq!(read(&mut world, *member, payload), left[..60]);
    }
    assert_eq!(read(&mut world, BY_INDEX, &[0, 0, 255]), left[..60]);
    assert_eq!(read(&mut world, BY_INDEX, &[0, 1, 255]), left[1..]);
    world.binds[..8].fill(0xFF);
    for (member, payload) in &READS[1..] {
        assert_eq!(read(&mut world, *member, payload), left[1..]);
    }
    assert_eq!(read(&mut world, BY_INDEX, &[0, 0, 255]), left[1..]);
}

/// A table of no records has no entries; a free record is never one.
#[test]
fn nothing_to_read() {
    let mut world = World::of_the_rows();
    world.sessions[..2].copy_from_slice(&[0, 5]);
    for length in [512, 8, 0] {
        world.binds.truncate(length);
        for (member, payload) in READS {
            assert_eq!(read(&mut world, member, payload), NONE);
            let all_ff = vec![0xFF; payload.len()];
            assert_eq!(read(&mut world, member, &all_ff), NONE);
        }
    }
}
