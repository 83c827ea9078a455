//! The fields of a message, and the call that reads them.

use crate::outcome::{told, Outcome};
use crate::raw;

/// The fields of a message, in its order.
#[derive(Clone, Copy, Debug, PartialEq, Eq)]
pub struct Fields {
    pub source: u16,
    pub source_unit: u16,
    /// 0 individual, 1 group.
    pub address_type: u16,
    pub destination: u16,
    pub destination_unit: u16,
    pub app_ref: u16,
    /// The message type, 0x01 to 0x10.
    pub kind: u16,
    /// 0 client, 1 server.
    pub interface_type: u16,
    pub uid: u16,
    pub member: u16,
    pub data_length: u16,
    /// The octet where the payload begins, counted from 1.
    pub payload: u16,
}

/// Reads a message: its fields, or why not.
pub fn read(message: &[u8]) -> Result<Fields, Outcome> {
    let mut fields = [0u16; 12];
    // SAFETY: as in `calls::message`; the call writes twelve numbers.
    let number =
        unsafe { raw::gneissfold_read(message.as_ptr(), message.len(), fields.as_mut_ptr()) };
    let [source, source_unit, address_type, destination, destination_unit, app_ref, kind, interface_type, uid, member, data_length, payload] =
        fields;
    match told(number) {
        Outcome::Done => Ok(Fields {
            source,
            source_unit,
            address_type,
            destination,
            destination_unit,
            app_ref,
            kind,
            interface_type,
            uid,
            member,
            data_length,
            payload,
        }),
        outcome => Err(outcome),
    }
}
