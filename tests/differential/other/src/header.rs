//! Reading a message's fields, and copying a message ("The message").

use crate::tables::{flag, number, put, word};
use crate::{outcome, BIND_DEVICE, HEADER, HIGHEST_ADDRESS, LONGEST, NO_UNIT};

/// "Response types are 0x03, 0x05, 0x08, 0x0A, 0x0D, 0x10".
const RESPONSES: [u8; 6] = [0x03, 0x05, 0x08, 0x0A, 0x0D, 0x10];

/// The fields of octets 1 to 15. Reserved bits and transport are not read.
pub struct Header {
    pub source: u16,
    pub source_unit: u8,
    pub to_group: bool,
    pub destination: u16,
    pub destination_unit: u8,
    pub app_ref: u8,
    pub kind: u8,
    pub server: bool,
    pub uid: u16,
    pub member: u8,
    pub data_length: u16,
}

impl Header {
    /// The fields, or outcome 10, 11 or 12, asked in that order.
    pub fn of(msg: &[u8]) -> Result<Header, u8> {
        if !(HEADER..=LONGEST).contains(&msg.len()) {
            return Err(outcome::LENGTH);
        }
        let data_length = word(msg, 13) & 0x01FF;
        if usize::from(data_length) != msg.len() - HEADER {
            return Err(outcome::DATA_LENGTH);
        }
        let kind = msg[9];
        if !(0x01..=0x10).contains(&kind) {
            return Err(outcome::TYPE);
        }
        Ok(Header {
            source: number(word(msg, 0)),
            source_unit: msg[2],
            to_group: flag(word(msg, 3)),
            destination: number(word(msg, 3)),
            destination_unit: msg[5],
            app_ref: msg[8],
            kind,
            server: flag(word(msg, 10)),
            uid: number(word(msg, 10)),
            member: msg[12],
            data_length,
        })
    }

    pub fn is_response(&self) -> bool {
        RESPONSES.contains(&self.kind)
    }

    fn to_unit(&self, device: u16, unit: u8) -> bool {
        !self.to_group && self.destination == device && self.destination_unit == unit
    }

    /// D'7FFF:U'FF of individual type.
    pub fn to_bind_address(&self) -> bool {
        self.to_unit(BIND_DEVICE, NO_UNIT)
    }

    /// D'0:U'0 of individual type.
    pub fn to_concentrator(&self) -> bool {
        self.to_unit(0, 0)
    }
}

/// Reads the fields: source, source unit, address type, destination,
/// destination unit, App Ref, type, interface type, UID, member, data length,
/// octet where the payload begins. All are 0 on a refusal.
pub fn read(msg: &[u8], fields: &mut [u16; 12]) -> u8 {
    match Header::of(msg) {
        Err(refusal) => {
            *fields = [0; 12];
            refusal
        }
        Ok(header) => {
            *fields = [
                header.source,
                u16::from(header.source_unit),
                u16::from(header.to_group),
                header.destination,
                u16::from(header.destination_unit),
                u16::from(header.app_ref),
                u16::from(header.kind),
                u16::from(header.server),
                header.uid,
                u16::from(header.member),
                header.data_length,
                HEADER as u16 + 1,
            ];
            outcome::DONE
        }
    }
}

/// Writes the copy for one recipient ("Recipients": "A copy equals the message
/// but for octets 4 to 6: type 0, device, unit").
pub fn copy(msg: &[u8], room: &mut [u8], device: u16, unit: u8, length: &mut usize) -> u8 {
    *length = 0;
    if let Err(refusal) = Header::of(msg) {
        return refusal;
    }
    if room.len() < msg.len() || device > HIGHEST_ADDRESS || unit == NO_UNIT {
        return outcome::COPY;
    }
    room[..msg.len()].copy_from_slice(msg);
    // The device is at most 0x7FFE, so the address type becomes 0 with it.
    put(room, 3, device);
    room[5] = unit;
    *length = msg.len();
    outcome::DONE
}
