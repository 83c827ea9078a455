//! Old device tables carried over ("CR 2"). What an old record looks like
//! stands here alone.

use crate::tables::{
    address_in_range, device_of, fits, is_free, no_two_equal, used, word, DEVICE, MOST_DEVICES,
};
use crate::unit_set::up_to;
use crate::{outcome, NO_UNIT};

/// Octets of an old record: "address 2, rights 1 (0 or 1), highest unit 1
/// (0 to 254)" ("Tables").
const OLD: usize = 4;

/// "Old four-octet tables are carried over by a call that sets units 0 to the
/// highest"; "16 for an unsound old table, then 17 where the new one isn't nine
/// times its length".
pub fn carry_over(old: &[u8], new: &mut [u8]) -> u8 {
    if !sound(old) {
        return outcome::NOT_SOUND;
    }
    if new.len() != 9 * old.len() {
        return outcome::ROOM;
    }
    for (from, to) in old.chunks_exact(OLD).zip(new.chunks_exact_mut(DEVICE)) {
        if is_free(from) {
            to.fill(0xFF);
        } else {
            to.copy_from_slice(&device_of(word(from, 0), from[2], &up_to(from[3])));
        }
    }
    outcome::DONE
}

/// What "Tables are sound if" asks of the devices, by themselves.
fn sound(old: &[u8]) -> bool {
    fits(old, OLD, MOST_DEVICES) && used(old, OLD).all(in_range) && no_two_equal(old, OLD, 2)
}

fn in_range(record: &[u8]) -> bool {
    address_in_range(word(record, 0)) && record[2] <= 1 && record[3] != NO_UNIT
}
