//! Safe calls of the library: message, admit, release, carry-over and copy. What is lent is a slice, until the call returns.

use crate::lengths::RECIPIENT_SIZE;
use crate::outcome::{told, Outcome};
use crate::raw;
use crate::reason::{self, Reason};
use crate::units::Units;

/// Handles a message: serves a command to D'0:U'0, or lists the recipients of any other.
///
/// The number is the reply's length at [`Outcome::Done`], the number of recipients in `list` (see [`recipients`]) at
/// [`Outcome::Forwarded`], and else 0. `reply` needs [`LONGEST`](crate::LONGEST) octets, and `list` 3 × max(1, bind records + member records),
/// free ones counted; where they are shorter the outcome is [`Outcome::NoRoom`]. At any outcome but the first two nothing is written.
///
/// The reason is there for an Add Bind that is answered [`INVALID_ARGUMENT`](crate::code::INVALID_ARGUMENT), and for nothing else.
#[allow(clippy::too_many_arguments)]
pub fn message(
    devices: &mut [u8],
    binds: &mut [u8],
    groups: &mut [u8],
    members: &mut [u8],
    sessions: &mut [u8],
    message: &[u8],
    reply: &mut [u8],
    list: &mut [u8],
) -> (Outcome, usize, Option<Reason>) {
    let (mut count, mut reason, mut octet) = (0, 0, 0);
    // SAFETY: each pointer and length is a slice's, lent until the call returns, and no two slices to be written overlap.
    let number = unsafe {
        raw::gneissfold_message(
            devices.as_mut_ptr(),
            devices.len(),
            binds.as_mut_ptr(),
            binds.len(),
            groups.as_mut_ptr(),
            groups.len(),
            members.as_mut_ptr(),
            members.len(),
            sessions.as_mut_ptr(),
            sessions.len(),
            message.as_ptr(),
            message.len(),
            reply.as_mut_ptr(),
            reply.len(),
            list.as_mut_ptr(),
            list.len(),
            &mut count,
            &mut reason,
            &mut octet,
        )
    };
    (told(number), count, reason::told(reason, octet))
}

/// The recipients that [`message`] listed, device and unit: the first `count` of the list.
pub fn recipients(list: &[u8], count: usize) -> impl Iterator<Item = (u16, u8)> + '_ {
    list.chunks_exact(RECIPIENT_SIZE)
        .take(count)
        .map(|to| (u16::from_be_bytes([to[0], to[1]]), to[2]))
}

/// Admits a device with its rights (0 or 1) and its units; [`Units::up_to`] is the set of all up to a highest one. Only [`Outcome::Done`] changes the
/// devices.
#[allow(clippy::too_many_arguments)]
pub fn admit(
    devices: &mut [u8],
    binds: &[u8],
    groups: &[u8],
    members: &[u8],
    sessions: &[u8],
    address: u16,
    rights: u8,
    units: Units,
) -> Outcome {
    // SAFETY: as in `message`; the call reads 32 octets of units.
    told(unsafe {
        raw::gneissfold_admit(
            devices.as_mut_ptr(),
            devices.len(),
            binds.as_ptr(),
            binds.len(),
            groups.as_ptr(),
            groups.len(),
            members.as_ptr(),
            members.len(),
            sessions.as_ptr(),
            sessions.len(),
            address,
            rights,
            units.octets().as_ptr(),
        )
    })
}

/// Releases a device, with its members and all binds that name it as source or individual destination. Its session ends, and where a bind goes,
/// every session.
pub fn release(
    devices: &mut [u8],
    binds: &mut [u8],
    groups: &[u8],
    members: &mut [u8],
    sessions: &mut [u8],
    address: u16,
) -> Outcome {
    // SAFETY: as in `message`.
    told(unsafe {
        raw::gneissfold_release(
            devices.as_mut_ptr(),
            devices.len(),
            binds.as_mut_ptr(),
            binds.len(),
            groups.as_ptr(),
            groups.len(),
            members.as_mut_ptr(),
            members.len(),
            sessions.as_mut_ptr(),
            sessions.len(),
            address,
        )
    })
}

/// Carries devices of the old form (4 octets a record) over into `devices`, which is nine times as long: record i becomes record i, with its
/// address, its rights and units 0 to its highest, and a free one stays free. What `devices` held before plays no part.
///
/// A site is carried over once: stop all calls on its tables, carry over, and start again with the new devices; binds, groups and members
/// stay as they are, and sessions begin free. [`Outcome::Unsound`], then [`Outcome::NoRoom`], say why not; nothing is written then, and the
/// site can go on as it was.
pub fn carry_over(old: &[u8], devices: &mut [u8]) -> Outcome {
    // SAFETY: as in `message`.
    told(unsafe {
        raw::gneissfold_carry_over(old.as_ptr(), old.len(), devices.as_mut_ptr(), devices.len())
    })
}

/// Writes the copy of a message for one unit of a device into `room`: its length, or why not.
pub fn copy(message: &[u8], room: &mut [u8], device: u16, unit: u8) -> Result<usize, Outcome> {
    let mut length = 0;
    // SAFETY: as in `message`.
    let number = unsafe {
        raw::gneissfold_copy(
            message.as_ptr(),
            message.len(),
            room.as_mut_ptr(),
            room.len(),
            device,
            unit,
            &mut length,
        )
    };
    match told(number) {
        Outcome::Done => Ok(length),
        outcome => Err(outcome),
    }
}
