//! Session tables that are sound and that are not ("CR 1"): "16 also for an
//! unsound session table".

use super::*;

/// What a message, an admission and a release come to, of which each is done in
/// sound tables, and that a refusal changes nothing.
fn outcomes(sessions: &[u8]) -> [u8; 3] {
    let mut world = with_readers();
    world.sessions = sessions.to_vec();
    let before = world.clone();
    let msg = to_concentrator((3, 1), 3, 5, &[0, 1]);
    let message = world.send(&msg).0;
    let mut admitting = before.clone();
    let admitted = admitting.admit(9, 0, units(&[0x01]));
    assert_eq!(admitting.sessions, before.sessions);
    let mut releasing = before.clone();
    let released = releasing.release(5);
    if released != 0 {
        assert_eq!(releasing, before);
    }
    [message, admitted, released]
}

const SOUND: [u8; 3] = [0; 3];
const NOT_SOUND: [u8; 3] = [16; 3];

/// "device address, 2 octets, at most 8".
#[test]
fn lengths() {
    for length in 0..=40 {
        let due = if length % 2 == 0 && length <= 16 {
            SOUND
        } else {
            NOT_SOUND
        };
        assert_eq!(outcomes(&vec![0xFF; length]), due, "{length}");
    }
    assert_eq!(outcomes(&[0xFF; 0x1_0000]), NOT_SOUND);
    assert_eq!(outcomes(&[0xFF; 0x1_0010]), NOT_SOUND);
}

/// "free ones 0xFF, none twice, each admitted or D'0000".
#[test]
fn records() {
    for (record, sound) in [
        ([0, 3], true),
        ([0, 4], true),
        ([0, 0], true),
        ([1, 9], true),
        ([0xFF, 0xFF], true),
        // Nobody's address.
        ([0, 9], false),
        ([0, 1], false),
        ([3, 0], false),
        ([0x7F, 0xFE], false),
        ([0x7F, 0xFF], false),
        // With the top bit, and nearly free.
        ([0x80, 3], false),
        ([0x80, 0], false),
        ([0xFF, 0xFE], false),
        ([0xFF, 0], false),
        ([0xFE, 0xFF], false),
        ([0, 0xFF], false),
        // There already.
        ([1, 1], false),
    ] {
        for at in [0, 2, 3, 7] {
            let mut sessions = [0xFF; 16];
            sessions[2..4].copy_from_slice(&[1, 1]);
            sessions[2 * at..][..2].copy_from_slice(&record);
            let due = if sound { SOUND } else { NOT_SOUND };
            assert_eq!(outcomes(&sessions), due, "{record:02X?} {at}");
        }
    }
    let twice = [0, 0, 0xFF, 0xFF, 0, 0];
    assert_eq!(outcomes(&twice), NOT_SOUND);
    let full = [0, 0, 0, 3, 0, 4, 0, 5, 1, 1, 1, 2, 1, 3, 1, 4];
    assert_eq!(outcomes(&full), SOUND);
    let mut once_more = full;
    once_more[14..].copy_from_slice(&[0, 0]);
    assert_eq!(outcomes(&once_more), NOT_SOUND);
}

/// 17 comes before 16, and 16 before all else.
#[test]
fn the_order() {
    let mut world = World::of_the_rows();
    world.sessions[..2].copy_from_slice(&[0, 9]);
    assert_eq!(world.send(&[]).0, 16);
    assert_eq!(world.admit(0, 2, units(&[])), 16);
    assert_eq!(world.release(9), 16);
    let World {
        devices,
        binds,
        groups,
        members,
        sessions,
    } = &mut world;
    let (mut reply, mut list) = ([0; 499], [0; 576]);
    let (mut count, mut reason, mut octet) = (1, 1, 1);
    let outcome = other_reading::message(
        devices,
        binds,
        groups,
        members,
        sessions,
        &[],
        &mut reply,
        &mut list,
        &mut count,
        &mut reason,
        &mut octet,
    );
    assert_eq!((outcome, count, reason, octet), (17, 0, 0, 0));
}
