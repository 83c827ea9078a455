//! The octets of a message ("The message"), sound and damaged.

use crate::rng::Rng;

/// The octets before the payload, with a data length of 0; transport and the reserved bit of the source are set now and then.
pub fn header(
    rng: &mut Rng,
    (source, source_unit): (u16, u8),
    destination: u16,
    unit: u8,
    kind: u8,
    interface: u16,
    member: u8,
) -> Vec<u8> {
    let reserved = if rng.percent(20) { 0x8000 } else { 0 };
    let [s1, s2] = (source | reserved).to_be_bytes();
    let [d1, d2] = destination.to_be_bytes();
    let [t1, t2] = if rng.percent(30) {
        rng.word().to_be_bytes()
    } else {
        [0, 0]
    };
    let [i1, i2] = interface.to_be_bytes();
    vec![
        s1,
        s2,
        source_unit,
        d1,
        d2,
        unit,
        t1,
        t2,
        rng.octet(),
        kind,
        i1,
        i2,
        member,
        0,
        0,
    ]
}

/// The message with its payload, reserved bits beside the data length now and then.
pub fn with_payload(rng: &mut Rng, mut msg: Vec<u8>, payload: &[u8]) -> Vec<u8> {
    msg.extend_from_slice(payload);
    set_data_length(&mut msg);
    if rng.percent(20) {
        msg[13] |= rng.octet() & 0xFE;
    }
    msg
}

/// Makes the data length fit the message, as far as nine bits go.
fn set_data_length(msg: &mut [u8]) {
    let length = (msg.len() - 15) as u16 & 0x01FF;
    msg[13] = msg[13] & 0xFE | (length >> 8) as u8;
    msg[14] = length as u8;
}

/// Damages a message: length, data length, type, flags or any octet.
pub fn damage(rng: &mut Rng, msg: &mut Vec<u8>) {
    if rng.percent(1) && msg.len() >= 15 {
        // As long as before if only 16 bits of the length are looked at.
        return msg.resize(msg.len() + 0x1_0000, 0);
    }
    match rng.below(12) {
        0 => msg.truncate(rng.below(msg.len() + 1)),
        1 => msg.truncate(rng.below(17)),
        2 => {
            let more = rng.below(4);
            msg.extend(rng.octets(more));
        }
        3 | 4 if msg.len() >= 15 => {
            let length =
                rng.weighted(&[(3, 500), (3, 501), (1, 499), (1, 502), (1, 526), (1, 527)]);
            let more = rng.octets(length);
            msg.extend(more);
            msg.truncate(length);
            set_data_length(msg);
        }
        5 => {
            let more = rng.below(700);
            msg.extend(rng.octets(more));
        }
        6 if msg.len() >= 15 => msg[14] = msg[14].wrapping_add(1 + rng.octet() % 2 * 254),
        7 if msg.len() >= 15 => msg[13] ^= 1,
        8 if msg.len() >= 15 => {
            msg[9] = rng.weighted(&[(2, 0x00), (2, 0x11), (1, 0x10), (1, 0xFF)])
        }
        9 if msg.len() >= 15 => msg[9] = rng.octet(),
        10 if msg.len() >= 15 => msg[3 + rng.below(3)] = rng.octet(),
        _ if !msg.is_empty() => {
            let at = rng.below(msg.len());
            msg[at] = rng.octet();
        }
        _ => (),
    }
}
