//! What is wrong with the bind of an Add Bind ("CR 6").

use crate::binds::bind_of;
use crate::tables::{
    device_exists, flag, group_exists, number, present, unit_exists, word, Tables, ANY_DEVICE,
    ANY_UNIT, BIND,
};
use crate::NO_UNIT;

/// Reason and "the first octet of the payload concerned".
pub type Reason = (u8, u8);

/// "With any other code or outcome reason and octet are 0."
pub const NONE: Reason = (0, 0);

/// "The first that holds is given."
pub fn first(payload: &[u8], tables: &Tables) -> Reason {
    let reasons = reasons(tables.devices, tables.binds, tables.groups, payload);
    reasons.first().copied().unwrap_or(NONE)
}

/// All that hold of a payload, in the order of the list. Of one of another length
/// nothing further is asked. A destination is individual or a group, so 5, 6 and 8
/// are of the one and 7 of the other.
pub fn reasons(devices: &[u8], binds: &[u8], groups: &[u8], payload: &[u8]) -> Vec<Reason> {
    if payload.len() != BIND {
        return vec![(1, 0)];
    }
    let bind = bind_of(payload);
    let source = word(&bind, 0);
    let source_unit = bind[2];
    let destination = word(&bind, 5);
    let unit = bind[7];

    let device_written_out = source != ANY_DEVICE;
    let both_written_out = device_written_out && source_unit != ANY_UNIT;
    let group = flag(destination);
    let individual = !group;

    let source_device_absent = device_written_out && !device_exists(devices, source);
    let source_unit_absent = both_written_out && !unit_exists(devices, source, source_unit);
    let device_absent = individual && !device_exists(devices, destination);
    let unit_absent = individual && !unit_exists(devices, destination, unit);
    let group_absent = group && !group_exists(groups, number(destination));
    let to_itself = both_written_out && (destination, unit) == (source, source_unit);

    let list = [
        (source_device_absent, (2, 1)),
        (source_unit_absent, (3, 3)),
        (unit == NO_UNIT, (4, 8)),
        (device_absent, (5, 6)),
        (unit_absent, (6, 8)),
        (group_absent, (7, 6)),
        (to_itself, (8, 6)),
        (present(binds, &bind), (9, 1)),
    ];
    let holding = list.into_iter().filter(|(holds, _)| *holds);
    holding.map(|(_, reason)| reason).collect()
}
