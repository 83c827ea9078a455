//! All binds in one call, from a hub that stays, from one that changes meanwhile, and from one that answers wrongly.
use gneissfold::reading::{read_all, start, started, MOST_STARTS};
use gneissfold::{
    code, compare, Address, Bind, Binds, Outcome, ReadError, Role, Tables, Units, FREE,
    HEADER_LENGTH, LIST_LENGTH, LONGEST, SESSIONS_LENGTH,
};

const FITTER: (u16, u8) = (0x0101, 1);
const OTHER: (u16, u8) = (0x0102, 0);
const MOTOR: (u16, u8) = (0x0201, 1);
/// Members of Bind Management.
const ADD: u8 = 0x01;
const REMOVE: u8 = 0x02;
const START: u8 = 0x07;
const END: u8 = 0x08;
const BY_INDEX: u8 = 0x09;

/// The fitter's device and eight more with rights, and a motor without.
fn house() -> Tables {
    let mut tables = Tables::new();
    for address in FITTER.0..FITTER.0 + 9 {
        assert_eq!(tables.admit(address, 1, Units::up_to(1)), Outcome::Done);
    }
    assert_eq!(tables.admit(MOTOR.0, 0, Units::up_to(1)), Outcome::Done);
    tables
}

fn sent(tables: &mut Tables, message: &[u8]) -> (Outcome, Vec<u8>) {
    let mut reply = [0; LONGEST];
    let (outcome, length, _) = tables.message(message, &mut reply, &mut [0; LIST_LENGTH]);
    (outcome, reply[..length].to_vec())
}

/// Adds or removes a bind, for the other device.
fn change(tables: &mut Tables, member: u8, bind: Bind) {
    let [a, b] = OTHER.0.to_be_bytes();
    let header = [a, b, OTHER.1, 0, 0, 0, 0, 0, 7, 1, 0x80, 2, member, 0, 8];
    let message = [&header[..], &bind.to_octets()].concat();
    let (outcome, reply) = sent(tables, &message);
    assert_eq!((outcome, reply[HEADER_LENGTH]), (Outcome::Done, code::OK));
}

/// From the fitter's unit to the motor, at this UID.
fn bind(uid: u16) -> Bind {
    let to = Address::Device(MOTOR.0);
    Bind::new(FITTER.0, FITTER.1, Role::Server, uid, to, MOTOR.1).unwrap()
}

fn house_of(number: u16) -> Tables {
    let mut tables = house();
    (0..number).for_each(|uid| change(&mut tables, ADD, bind(uid)));
    tables
}

/// The binds as they stand in the table, free records left out.
fn standing(tables: &Tables) -> Vec<Bind> {
    let records = tables.binds.chunks(8).filter(|record| record != &[FREE; 8]);
    records
        .map(|record| Bind::from_octets(record.try_into().unwrap()))
        .collect()
}

/// Reads all binds while `meanwhile` happens: it is told the number of each message, from 0, and its member, and comes before the message does.
/// The members of all messages are given too.
fn read_while(
    tables: &mut Tables,
    mut meanwhile: impl FnMut(&mut Tables, usize, u8),
) -> (Result<Binds, ReadError>, Vec<u8>) {
    let mut members = Vec::new();
    let read = read_all(FITTER, |message, reply| {
        meanwhile(tables, members.len(), message[12]);
        members.push(message[12]);
        let (outcome, length, _) = tables.message(message, reply, &mut [0; LIST_LENGTH]);
        (outcome, length)
    });
    (read, members)
}

#[test]
fn any_number_of_binds_is_read_in_table_order() {
    for (number, pages) in [(0, 0), (1, 1), (2, 1), (59, 1), (60, 1), (61, 2), (64, 2)] {
        let mut tables = house_of(number);
        let before = tables.clone();
        let (read, members) = read_while(&mut tables, |_, _, _| {});
        let read = read.unwrap();
        assert_eq!(read[..], standing(&tables));
        assert_eq!(read.len(), usize::from(number));
        let expected = [&[START][..], &vec![BY_INDEX; pages], &[END]].concat();
        assert_eq!(members, expected);
        assert_eq!(tables.read_binds(FITTER).as_ref(), Ok(&read));
        assert_eq!(tables, before);
    }
}

#[test]
fn the_order_is_the_tables_and_not_that_of_adding() {
    let mut tables = house_of(64);
    for uid in [0, 7, 62] {
        change(&mut tables, REMOVE, bind(uid));
    }
    change(&mut tables, ADD, bind(100));
    let read = tables.read_binds(FITTER).unwrap();
    assert_eq!(read.len(), 62);
    assert_eq!(read[0], bind(100));
    assert_eq!(read[..], standing(&tables));
    let sheet: Vec<Bind> = (1..=100).rev().map(bind).collect();
    let wanted = compare(&read, &sheet);
    assert!(wanted.too_many().next().is_none());
    let missing: Vec<Bind> = (64..100).rev().chain([62, 7]).map(bind).collect();
    assert_eq!(wanted.missing().collect::<Vec<_>>(), missing);
}

#[test]
fn one_missing_and_one_too_many_are_told() {
    let mut tables = house_of(64);
    let sheet = tables.read_binds(FITTER).unwrap();
    change(&mut tables, REMOVE, bind(63));
    change(&mut tables, ADD, bind(0x7FFF));
    let read = tables.read_binds(FITTER).unwrap();
    assert_ne!(read, sheet);
    assert!(compare(&read, &sheet).missing().eq([bind(63)]));
    assert!(compare(&read, &sheet).too_many().eq([bind(0x7FFF)]));
}

#[test]
fn a_change_before_any_message_is_seen_or_comes_too_late() {
    // 64 binds: Start, two pages, End. A change before a page closes the session, and all is read anew.
    let again = [START, BY_INDEX, BY_INDEX, END];
    for at in 0..4 {
        let mut tables = house_of(64);
        let old = standing(&tables);
        let (read, members) = read_while(&mut tables, |tables, number, _| {
            if number == at {
                change(tables, REMOVE, bind(0));
                change(tables, ADD, bind(0x0300));
            }
        });
        let new = standing(&tables);
        assert_ne!(new, old);
        let (expected, first) = match at {
            0 => (new, &[][..]),
            1 => (new, &[START, BY_INDEX][..]),
            2 => (new, &[START, BY_INDEX, BY_INDEX][..]),
            _ => (old, &[][..]),
        };
        assert_eq!(read.unwrap()[..], expected);
        assert_eq!(members, [first, &again].concat());
        assert_eq!(tables.sessions, [FREE; SESSIONS_LENGTH]);
    }
}

#[test]
fn binds_that_keep_changing_are_given_up() {
    for last in [MOST_STARTS - 1, MOST_STARTS] {
        let mut tables = house_of(61);
        let mut changes = 0;
        let (read, members) = read_while(&mut tables, |tables, _, member| {
            if member == BY_INDEX && changes < last {
                change(tables, [REMOVE, ADD][changes % 2], bind(5));
                changes += 1;
            }
        });
        let starts = members.iter().filter(|&&member| member == START).count();
        assert_eq!(starts, MOST_STARTS);
        if last < MOST_STARTS {
            assert_eq!(read.unwrap()[..], standing(&tables));
        } else {
            assert_eq!(read, Err(ReadError::KeepsChanging(MOST_STARTS)));
        }
        assert_eq!(tables.sessions, [FREE; SESSIONS_LENGTH]);
    }
}

#[test]
fn who_may_not_start_is_told_why() {
    let mut tables = house_of(3);
    let before = tables.clone();
    let refused = ReadError::Code(code::NOT_AUTHORIZED);
    assert_eq!(tables.read_binds(MOTOR), Err(refused));
    for nobody in [(0x0999, 0), (FITTER.0, 2)] {
        let refused = ReadError::Refused(Outcome::NoSource);
        assert_eq!(tables.read_binds(nobody), Err(refused));
    }
    assert_eq!(tables, before);
    for address in OTHER.0..OTHER.0 + 8 {
        let (outcome, reply) = sent(&mut tables, &start((address, 0)));
        assert_eq!(started(outcome, &reply), Ok(3));
    }
    let full = tables.clone();
    let refused = ReadError::Code(code::NOT_ENOUGH_RESOURCES);
    assert_eq!(tables.read_binds(FITTER), Err(refused));
    assert_eq!(tables, full);
    tables.binds[0] = 0x80;
    let refused = ReadError::Refused(Outcome::Unsound);
    assert_eq!(tables.read_binds(FITTER), Err(refused));
}

/// Reads 64 binds while the nth reply is spoilt on its way: what was read, the sessions behind it, and the members of all messages.
fn spoilt(
    nth: usize,
    spoil: impl Fn(&mut [u8], &mut (Outcome, usize)),
) -> (Result<Binds, ReadError>, bool, Vec<u8>) {
    let mut tables = house_of(64);
    let mut members = Vec::new();
    let read = read_all(FITTER, |message, reply| {
        let (outcome, length, _) = tables.message(message, reply, &mut [0; LIST_LENGTH]);
        let mut answer = (outcome, length);
        if members.len() == nth {
            spoil(reply, &mut answer);
        }
        members.push(message[12]);
        answer
    });
    let open = tables.sessions != [FREE; SESSIONS_LENGTH];
    (read, open, members)
}

#[test]
fn no_session_is_left_open_behind_an_error() {
    for nth in 0..3 {
        let whole = [18, 497, 49][nth];
        for cut in 0..whole {
            let (read, open, _) = spoilt(nth, |_, answer| answer.1 = cut);
            assert!(read.is_err());
            assert!(!open, "reply {nth} cut to {cut}");
        }
    }
    // Another code at a page: 0x20 starts again, all others are told.
    for code in 1..=255 {
        let (read, open, members) = spoilt(2, |reply, _| reply[HEADER_LENGTH] = code);
        assert!(!open);
        if code == code::NO_SESSION {
            assert_eq!(read.unwrap().len(), 64);
            assert_eq!(members[3], START);
        } else {
            assert_eq!(read, Err(ReadError::Code(code)));
            assert_eq!(members[3..], [END]);
        }
    }
    for outcome in [Outcome::Nobody, Outcome::NoRoom, Outcome::NotServed] {
        let (read, open, _) = spoilt(1, |_, answer| *answer = (outcome, 0));
        assert_eq!(read, Err(ReadError::Refused(outcome)));
        assert!(!open);
    }
    // What End is answered changes nothing of what was read.
    let (read, _, members) = spoilt(3, |_, answer| *answer = (Outcome::NoSource, 0));
    assert_eq!((read.unwrap().len(), members.len()), (64, 4));
}

#[test]
fn a_hub_that_gives_fewer_or_more_than_it_said_is_not_believed() {
    let said = |number: u16| {
        let (read, open, _) = spoilt(0, |reply, _| {
            reply[HEADER_LENGTH + 1..HEADER_LENGTH + 3].copy_from_slice(&number.to_be_bytes())
        });
        assert!(!open);
        read
    };
    assert_eq!(said(64).unwrap().len(), 64);
    for number in [65, 0x0100, 0xFFFF] {
        assert_eq!(said(number), Err(ReadError::TooMany(number)));
    }
    for (number, read) in [(1, 60), (59, 60), (61, 64), (63, 64)] {
        let error = ReadError::NotAsStarted { said: number, read };
        assert_eq!(said(number), Err(error));
    }
    let (read, open, _) = spoilt(2, |reply, answer| {
        reply[HEADER_LENGTH + 1] = 0;
        answer.1 = HEADER_LENGTH + 2;
    });
    assert_eq!(read, Err(ReadError::NotAsStarted { said: 64, read: 60 }));
    assert!(!open);
}

#[test]
fn any_octets_and_any_length_are_answered() {
    let mut state = 0x2545_F491_4F6C_DD1D_u64;
    let mut next = move || {
        state ^= state << 13;
        state ^= state >> 7;
        state ^= state << 17;
        state
    };
    for _ in 0..20_000 {
        let mut messages = 0;
        let read = read_all(FITTER, |_, reply| {
            messages += 1;
            reply.fill_with(|| next() as u8);
            // Often near what is looked for.
            reply[HEADER_LENGTH] = [0, 0, 0, 0, 0x20, 0xFE, next() as u8][next() as usize % 7];
            reply[HEADER_LENGTH + 1] = [0, 0, 1, 2, next() as u8][next() as usize % 5];
            let lengths = [0, 16, 17, 18, 18, 25, 33, 500, 501, next() as usize];
            (Outcome::Done, lengths[next() as usize % lengths.len()])
        });
        assert!(messages <= MOST_STARTS * 66);
        assert!(read.is_err() || messages > 1);
    }
}
