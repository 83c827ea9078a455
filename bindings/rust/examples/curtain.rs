//! A curtain: a wall switch and a motor are admitted, the switch is bound to the motor, and the switch's command finds who moves.
use gneissfold::{copy, read, recipients, Tables, Units, HEADER_LENGTH, LIST_LENGTH, LONGEST};

const SWITCH: u16 = 0x0003;
const MOTOR: u16 = 0x0004;

fn main() {
    // From 3:01 to D'0:U'0, Bind Management (server, UID 0x0002), Add Bind: 3:01, server, UID 0x0200, to D'4:U'01.
    let add_bind = [
        0x00, 0x03, 0x01, 0x00, 0x00, 0x00, 0x00, 0x00, 0x07, 0x01, 0x80, 0x02, 0x01, 0x00, 0x08,
        0x00, 0x03, 0x01, 0x82, 0x00, 0x00, 0x04, 0x01,
    ];
    // From 3:01 to the bind address, D'7FFF:U'FF: the switch's command, server, UID 0x0200, member 1, no payload.
    let command = [
        0x00, 0x03, 0x01, 0x7F, 0xFF, 0xFF, 0x00, 0x00, 0x08, 0x01, 0x82, 0x00, 0x01, 0x00, 0x00,
    ];
    let mut tables = Tables::new();
    let units = Units::up_to(1);
    let mut reply = [0; LONGEST];
    let mut list = [0; LIST_LENGTH];
    let mut room = [0; LONGEST];

    println!("admit the switch: {:?}", tables.admit(SWITCH, 1, units));
    println!("admit the motor: {:?}", tables.admit(MOTOR, 0, units));
    // Once, and once more, which is refused.
    for _ in 0..2 {
        let (outcome, length, reason) = tables.message(&add_bind, &mut reply, &mut list);
        println!(
            "bind the switch to the motor: {outcome:?}, reply of {length} octets, code 0x{:02X}",
            reply[HEADER_LENGTH]
        );
        if let Some(reason) = reason {
            println!("octet {} of the bind: {reason}", reason.octet());
        }
    }
    let (outcome, count, _) = tables.message(&command, &mut reply, &mut list);
    println!("the switch is pressed: {outcome:?}, recipients {count}");
    for (device, unit) in recipients(&list, count) {
        let length = copy(&command, &mut room, device, unit).expect("a recipient can be copied to");
        let fields = read(&room[..length]).expect("a copy can be read");
        println!(
            "who moves: {:04X}:{:02X}",
            fields.destination, fields.destination_unit
        );
    }
}
