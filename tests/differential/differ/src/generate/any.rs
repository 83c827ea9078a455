//! The special values of a bind ("CR 4"): any device, any unit and any interface, in
//! the place of what is written out and the other way about, and requests that match.

use super::records::{word, BIND, DEVICE, UNITS};
use super::units::{has, set_of, some_unit, UnitSet};
use super::view::{View, UIDS};
use crate::rng::Rng;

/// As source device, as source unit, and as UID.
pub const ANY_DEVICE: u16 = 0x7FFF;
pub const ANY_UNIT: u8 = 0xFF;
pub const ANY_INTERFACE: u16 = 0x7FFF;

/// The bind as it is, or with special values in the place of what it had.
pub fn perhaps_any(rng: &mut Rng, mut bind: [u8; BIND]) -> [u8; BIND] {
    let (device, unit) = (word(&bind, 0), bind[2]);
    let (device, unit) = match rng.below(20) {
        0..=2 => (ANY_DEVICE, unit),
        3..=5 => (device, ANY_UNIT),
        6 => (ANY_DEVICE, ANY_UNIT),
        // "0 to 254": also a unit that no device has.
        7 => (ANY_DEVICE, rng.weighted(&[(1, 254), (1, 253), (1, 3)])),
        _ => (device, unit),
    };
    bind[..2].copy_from_slice(&device.to_be_bytes());
    bind[2] = unit;
    if rng.percent(20) {
        put_uid(&mut bind, ANY_INTERFACE);
    }
    bind
}

/// Sender and interface of a request that matches the bind, or only just does not.
pub fn request_for(
    rng: &mut Rng,
    bind: [u8; BIND],
    devices: &[(u16, UnitSet)],
) -> ((u16, u8), u16) {
    let way = rng.below(20);
    let mut request = match way {
        // A special value that is left as it is names no sender.
        0 => bind,
        _ => written_out(rng, bind, devices),
    };
    match way {
        1 => put_uid(&mut request, ANY_INTERFACE),
        2 => put_uid(&mut request, UIDS[rng.below(UIDS.len())]),
        3 => request[3] ^= 0x80,
        4 | 5 => request[rng.below(5)] ^= 1 << rng.below(8),
        _ => (),
    }
    let sender = (word(&request, 0) & 0x7FFF, request[2]);
    (sender, word(&request, 3))
}

/// The bind with what it takes in in the place of each special value: a unit of these
/// devices or D'0:U'0, and a UID. Its source stays if there is no such unit.
fn written_out(rng: &mut Rng, mut bind: [u8; BIND], devices: &[(u16, UnitSet)]) -> [u8; BIND] {
    let (device, unit) = (word(&bind, 0), bind[2]);
    // More than once, or it hardly sends beside many devices.
    let concentrator = (0, set_of([0]));
    let senders: Vec<_> = devices
        .iter()
        .chain([&concentrator; 3])
        .filter(|(address, _)| device == ANY_DEVICE || device == *address)
        .filter(|(_, units)| unit == ANY_UNIT || has(units, unit))
        .collect();
    if let Some((address, units)) = rng.pick(&senders) {
        bind[..2].copy_from_slice(&address.to_be_bytes());
        if unit == ANY_UNIT {
            bind[2] = some_unit(rng, units);
        }
    }
    if word(&bind, 3) & 0x7FFF == ANY_INTERFACE {
        let uid = match rng.below(10) {
            0..=6 => UIDS[rng.below(UIDS.len())],
            // In a message it is a UID as others are.
            7 => ANY_INTERFACE,
            _ => rng.word() & 0x7FFF,
        };
        put_uid(&mut bind, uid);
    }
    bind
}

/// Puts a UID into a bind; the interface type stays.
pub(super) fn put_uid(bind: &mut [u8], uid: u16) {
    let interface = word(bind, 3) & 0x8000 | uid;
    bind[3..5].copy_from_slice(&interface.to_be_bytes());
}

impl View {
    /// As `request_for`, of the devices that are there.
    pub(super) fn request_for(&self, rng: &mut Rng, bind: [u8; BIND]) -> ((u16, u8), u16) {
        let units = |device: &[u8; DEVICE]| device[UNITS..].try_into().unwrap();
        let devices = self.devices.iter();
        let devices: Vec<_> = devices
            .map(|device| (word(device, 0), units(device)))
            .collect();
        request_for(rng, bind, &devices)
    }

    /// The bind, but that it says any of one of the three that was written out, or has
    /// one written out that it said any of. To a removal it is another bind.
    pub(super) fn said_otherwise(&self, rng: &mut Rng, mut bind: [u8; BIND]) -> [u8; BIND] {
        let (device, unit) = self.unit(rng);
        match rng.below(3) {
            0 => {
                let any = word(&bind, 0) == ANY_DEVICE;
                let device = if any { device } else { ANY_DEVICE };
                bind[..2].copy_from_slice(&device.to_be_bytes());
            }
            1 => bind[2] = if bind[2] == ANY_UNIT { unit } else { ANY_UNIT },
            _ => {
                let any = word(&bind, 3) & 0x7FFF == ANY_INTERFACE;
                put_uid(&mut bind, if any { UIDS[0] } else { ANY_INTERFACE });
            }
        }
        bind
    }
}
