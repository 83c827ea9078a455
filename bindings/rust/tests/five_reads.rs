//! The seven messages of reading back, as a hub answers them: a session started and ended once, and what each of the five reads names.
use gneissfold::reading::{
    by_destination, by_destination_unit, by_index, by_source, by_source_unit, end, ended, entries,
    start, started,
};
use gneissfold::{
    any, code, Address, Bind, Outcome, ReadError, Role, Tables, Units, LIST_LENGTH, LONGEST,
};

const FITTER: (u16, u8) = (0x0101, 1);
const SWITCH: u16 = 0x0102;
const MOTOR: Address = Address::Device(0x0201);
const GROUP: Address = Address::Group(1);

/// The fitter's device with rights, a switch and a motor, each with units 0 and 1; group 1, which has the name "S"; and these binds.
fn house(binds: &[Bind]) -> Tables {
    let mut tables = Tables::new();
    for (address, rights) in [(FITTER.0, 1), (SWITCH, 0), (0x0201, 0)] {
        let admitted = tables.admit(address, rights, Units::up_to(1));
        assert_eq!(admitted, Outcome::Done);
    }
    tables.groups[..16].copy_from_slice(b"\0\x01\x01S\0\0\0\0\0\0\0\0\0\0\0\0");
    let octets = binds.iter().flat_map(Bind::to_octets);
    for (place, octet) in tables.binds.iter_mut().zip(octets) {
        *place = octet;
    }
    tables
}

fn sent(tables: &mut Tables, message: &[u8]) -> (Outcome, Vec<u8>) {
    let mut reply = [0; LONGEST];
    let (outcome, length, _) = tables.message(message, &mut reply, &mut [0; LIST_LENGTH]);
    (outcome, reply[..length].to_vec())
}

#[test]
fn a_session_is_ended_once() {
    let mut tables = house(&[]);
    let (outcome, reply) = sent(&mut tables, &start(FITTER));
    assert_eq!(started(outcome, &reply), Ok(0));
    let (outcome, reply) = sent(&mut tables, &end(FITTER));
    assert_eq!(ended(outcome, &reply), Ok(()));
    let (outcome, reply) = sent(&mut tables, &end(FITTER));
    let none = ReadError::Code(code::UNKNOWN_REASON);
    assert_eq!(ended(outcome, &reply), Err(none));
}

#[test]
fn a_read_without_a_session_is_told() {
    let mut tables = house(&[]);
    let none = Some(ReadError::Code(code::NO_SESSION));
    for message in [
        &by_index(FITTER, 0, 1)[..],
        &by_source(FITTER, SWITCH).unwrap(),
        &by_source_unit(FITTER, SWITCH, 1).unwrap(),
        &by_destination(FITTER, MOTOR).unwrap(),
        &by_destination_unit(FITTER, GROUP, 0).unwrap(),
    ] {
        let (outcome, reply) = sent(&mut tables, message);
        assert_eq!(entries(outcome, &reply).err(), none);
    }
}

#[test]
fn each_read_gives_the_binds_that_it_names() {
    let bind = |device, unit, uid, to, to_unit| {
        Bind::new(device, unit, Role::Server, uid, to, to_unit).unwrap()
    };
    let all = [
        bind(FITTER.0, 1, 0x0200, MOTOR, 1),
        bind(any::DEVICE, 7, 0x0200, GROUP, 0),
        bind(any::DEVICE, 7, any::INTERFACE, MOTOR, 1),
        bind(any::DEVICE, any::UNIT, 0x0200, GROUP, 5),
        bind(SWITCH, 0, 0x0200, MOTOR, 0),
        bind(SWITCH, 1, 0x0200, GROUP, 0),
        bind(SWITCH, 1, 0x0201, MOTOR, 1),
        bind(SWITCH, any::UNIT, 0x0200, MOTOR, 1),
    ];
    let those = |test: &dyn Fn(&Bind) -> bool| -> Vec<Bind> {
        all.into_iter().filter(|bind| test(bind)).collect()
    };
    let mut tables = house(&all);
    let (outcome, reply) = sent(&mut tables, &start(FITTER));
    assert_eq!(started(outcome, &reply), Ok(8));
    let mut read = |message: &[u8]| -> Vec<Bind> {
        let (outcome, reply) = sent(&mut tables, message);
        entries(outcome, &reply).unwrap().collect()
    };
    for index in 0..10 {
        for number in 0..10 {
            let (from, until) = (index.min(8), (index + number).min(8));
            let page = read(&by_index(FITTER, index as u16, number as u8));
            assert_eq!(page, all[from..until]);
        }
    }
    for device in [FITTER.0, SWITCH, 0x0201, any::DEVICE] {
        let from = |bind: &Bind| bind.source_device().unwrap_or(any::DEVICE) == device;
        assert_eq!(read(&by_source(FITTER, device).unwrap()), those(&from));
        for unit in [0, 1, 7, any::UNIT] {
            let of = |bind: &Bind| bind.source_unit().unwrap_or(any::UNIT) == unit;
            let message = by_source_unit(FITTER, device, unit).unwrap();
            assert_eq!(read(&message), those(&|bind| from(bind) && of(bind)));
        }
    }
    for to in [MOTOR, GROUP, Address::Device(1), Address::Group(0x0201)] {
        let leads = |bind: &Bind| bind.destination() == to;
        assert_eq!(read(&by_destination(FITTER, to).unwrap()), those(&leads));
        for unit in [0, 1, 5] {
            let at = |bind: &Bind| bind.destination_unit() == unit;
            let message = by_destination_unit(FITTER, to, unit).unwrap();
            assert_eq!(read(&message), those(&|bind| leads(bind) && at(bind)));
        }
    }
}

#[test]
fn a_number_of_more_than_15_bits_makes_no_message() {
    for bad in [0x8000, 0x8101, 0xFFFF] {
        assert_eq!(by_source(FITTER, bad), None);
        assert_eq!(by_source_unit(FITTER, bad, 0), None);
        for to in [Address::Device(bad), Address::Group(bad)] {
            assert_eq!(by_destination(FITTER, to), None);
            assert_eq!(by_destination_unit(FITTER, to, 0), None);
        }
    }
}
