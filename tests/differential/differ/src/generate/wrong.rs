//! Binds that Add Bind refuses ("CR 6"): one thing is wrong with them, or several, of which the first is told.

use super::records::BIND;
use super::units::near;
use super::view::View;
use crate::rng::Rng;

/// As octets 6 and 7, before the number of a group.
const GROUP_TYPE: u16 = 0x8000;

impl View {
    /// A bind of a unit that exists, with some things put wrong in it. Now and then a later one puts an earlier one right.
    pub(super) fn wrong_bind(&self, rng: &mut Rng) -> [u8; BIND] {
        let source = self.unit(rng);
        let mut bind = self.new_bind(rng, source);
        for _ in 0..=rng.below(3) {
            put_wrong(rng, &mut bind);
        }
        // Last, so that it stands beside what is wrong with the source.
        if rng.percent(20) {
            bind.copy_within(..3, 5);
        }
        bind
    }
}

fn put_wrong(rng: &mut Rng, bind: &mut [u8; BIND]) {
    match rng.below(8) {
        0 => bind[..2].copy_from_slice(&absent(rng).to_be_bytes()),
        1 => bind[2] = near(rng, bind[2]),
        2 => bind[7] = 0xFF,
        3 => bind[5..7].copy_from_slice(&absent(rng).to_be_bytes()),
        4 => bind[7] = near(rng, bind[7]),
        5 => bind[5..7].copy_from_slice(&(GROUP_TYPE | absent(rng)).to_be_bytes()),
        // Of D'0000 it is the unit that is wrong.
        6 => bind[..3].copy_from_slice(&[0, 0, 1 + rng.octet() % 2]),
        _ => bind[5..].copy_from_slice(&[0, 0, 1 + rng.octet() % 2]),
    }
}

/// A number that hardly ever a device or a group has.
fn absent(rng: &mut Rng) -> u16 {
    1 + rng.word() % 0x7FFE
}
