//! Every call on tables and messages once, over the curtain of the example, and a refusal of each.
use gneissfold::{
    code, copy, read, recipients, Outcome, Tables, Units, HEADER_LENGTH, LIST_LENGTH, LONGEST,
};

#[test]
fn a_switch_moves_its_motor() {
    let add_bind = [
        0x00, 0x03, 0x01, 0x00, 0x00, 0x00, 0x00, 0x00, 0x07, 0x01, 0x80, 0x02, 0x01, 0x00, 0x08,
        0x00, 0x03, 0x01, 0x82, 0x00, 0x00, 0x04, 0x01,
    ];
    let command = [
        0x00, 0x03, 0x01, 0x7F, 0xFF, 0xFF, 0x00, 0x00, 0x08, 0x01, 0x82, 0x00, 0x01, 0x00, 0x00,
    ];
    let mut tables = Tables::new();
    let units = Units::up_to(1);
    let mut reply = [0xAA; LONGEST];
    let mut list = [0xAA; LIST_LENGTH];
    let mut room = [0xAA; LONGEST];

    assert_eq!(
        tables.message(&command, &mut reply, &mut list),
        (Outcome::NoSource, 0, None)
    );
    assert_eq!(tables.admit(3, 1, units), Outcome::Done);
    assert_eq!(tables.admit(4, 0, units), Outcome::Done);
    assert_eq!(tables.admit(4, 0, units), Outcome::AlreadyAdmitted);
    assert_eq!(tables.admit(0x7FFF, 0, units), Outcome::OutOfRange);
    assert_eq!(tables.devices[..5], [0, 3, 1, 0, 0b11]);
    assert_eq!(tables.devices[5..36], [0; 31]);
    assert_eq!(tables.devices[36..41], [0, 4, 0, 0, 0b11]);
    assert_eq!(tables.devices[72], 0xFF);

    assert_eq!(
        tables.message(&add_bind, &mut reply, &mut list),
        (Outcome::Done, 16, None)
    );
    assert_eq!(
        reply[..17],
        [
            0,
            0,
            0,
            0,
            3,
            1,
            0,
            0,
            7,
            3,
            0x80,
            2,
            1,
            0,
            1,
            code::OK,
            0xAA
        ]
    );
    assert_eq!(tables.binds[..8], add_bind[HEADER_LENGTH..]);

    assert_eq!(
        tables.message(&command, &mut reply, &mut list),
        (Outcome::Forwarded, 1, None)
    );
    assert!(recipients(&list, 1).eq([(4, 1)]));
    assert_eq!(list[3], 0xAA);
    assert_eq!(copy(&command, &mut room[..14], 4, 1), Err(Outcome::NoCopy));
    assert_eq!(copy(&command, &mut room, 4, 1), Ok(15));
    assert_eq!(room[3..6], [0, 4, 1]);
    let fields = read(&room[..15]).unwrap();
    assert_eq!((fields.source, fields.source_unit), (3, 1));
    assert_eq!(
        (
            fields.address_type,
            fields.destination,
            fields.destination_unit
        ),
        (0, 4, 1)
    );
    assert_eq!((fields.app_ref, fields.kind), (8, 1));
    assert_eq!(
        (fields.interface_type, fields.uid, fields.member),
        (1, 0x0200, 1)
    );
    assert_eq!((fields.data_length, fields.payload), (0, 16));
    assert_eq!(read(&room[..14]), Err(Outcome::WrongLength));

    assert_eq!(tables.release(4), Outcome::Done);
    assert_eq!(tables.release(4), Outcome::NotAdmitted);
    assert_eq!(
        tables.message(&command, &mut reply, &mut list),
        (Outcome::Nobody, 0, None)
    );
    assert_eq!(
        tables.message(&command, &mut reply[..499], &mut list),
        (Outcome::NoRoom, 0, None)
    );
}

#[test]
fn outcomes_have_the_papers_numbers() {
    let numbers = (0..=255).filter(|&n| Outcome::from_number(n).is_some_and(|o| o.number() == n));
    assert!(numbers.eq([0, 1, 2].into_iter().chain(10..=23)));
}
