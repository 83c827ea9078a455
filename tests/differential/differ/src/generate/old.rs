//! Old device tables, four octets a record, sound and not, and new ones to carry them over into ("CR 2").

use super::records::{some_record, DEVICE, MOST};
use super::sound::{construct, device_address, records};
use super::unsound::spoil_table;
use crate::case::World;
use crate::rng::Rng;

/// Octets of an old record: address 2, rights 1, highest unit 1.
const OLD: usize = 4;

/// An old table: sound, or with one rule broken or nearly so.
pub fn old_devices(rng: &mut Rng) -> Vec<u8> {
    let mut old = vec![0xFF; OLD * records(rng, MOST[0])];
    let wide = rng.percent(50);
    construct(rng, &mut old, 2, |rng| {
        let [a1, a2] = device_address(rng, wide).to_be_bytes();
        let highest = match rng.below(3) {
            0 => rng.weighted(&[(1, 0), (1, 6), (1, 7), (1, 8), (1, 247), (1, 248), (1, 254)]),
            1 => rng.octet() % 255,
            _ => rng.octet() % 17,
        };
        Some([a1, a2, u8::from(rng.percent(50)), highest])
    });
    match rng.below(10) {
        0..=4 => (),
        5..=7 => spoil_table(rng, &mut old, OLD, MOST[0]),
        _ => spoil_field(rng, &mut old),
    }
    old
}

/// Puts one field of a record out of range, or only just not.
fn spoil_field(rng: &mut Rng, old: &mut [u8]) {
    let Some(record) = some_record(rng, old, OLD) else {
        return;
    };
    match rng.below(5) {
        0 => record[2] = rng.octet() % 4,
        1 => record[3] = 0xFF - rng.octet() % 2,
        2 => record[0] ^= 0x80,
        _ => {
            let address = rng.weighted(&[(2, 0), (2, 0x7FFF), (1, 0x7FFE), (1, 0xFFFF)]);
            record[..2].copy_from_slice(&u16::to_be_bytes(address));
        }
    }
}

/// A new table for it, mostly nine times as long, of any content.
pub fn new_devices(rng: &mut Rng, old: &[u8], world: &World) -> Vec<u8> {
    let right = 9 * old.len();
    let length = match rng.below(24) {
        0 => right.saturating_sub(1),
        1 => right + 1,
        2 => 0,
        3 => old.len(),
        4 => right + DEVICE,
        5 => right.saturating_sub(DEVICE),
        6 => rng.below(right + 40),
        // As long as it should be, if only 8 or 16 bits are looked at.
        7 => right + rng.weighted(&[(1, 0x100), (1, 0x1_0000)]),
        _ => right,
    };
    let mut new = match rng.below(4) {
        0 => vec![0x00; length],
        1 => world.devices.clone(),
        _ => rng.octets(length),
    };
    new.resize(length, 0xFF);
    new
}
