//! What the replies of reading back say: whole ones, ones cut at every length, every code, every outcome.
use gneissfold::reading::{ended, entries, started};
use gneissfold::{code, Bind, Outcome, ReadError, HEADER_LENGTH, LONGEST, MOST_ENTRIES};

/// A reply with this payload. Its header plays no part.
fn reply(payload: &[u8]) -> Vec<u8> {
    [&[0xA5; HEADER_LENGTH], payload].concat()
}

/// The reply of a read with so many entries, each other octets.
fn page(number: u8) -> Vec<u8> {
    let octets = (0..number).flat_map(|n| [n, 1, 2, 3, 4, 5, 6, !n]);
    reply(
        &[code::OK, number]
            .into_iter()
            .chain(octets)
            .collect::<Vec<_>>(),
    )
}

/// The error of each of the three, on these octets.
fn errors(outcome: Outcome, reply: &[u8]) -> [Option<ReadError>; 3] {
    [
        started(outcome, reply).err(),
        entries(outcome, reply).err(),
        ended(outcome, reply).err(),
    ]
}

#[test]
fn whole_replies_are_read() {
    assert_eq!(started(Outcome::Done, &reply(&[0, 0x12, 0x34])), Ok(0x1234));
    assert_eq!(ended(Outcome::Done, &reply(&[0])), Ok(()));
    for number in 0..=MOST_ENTRIES as u8 {
        let page = page(number);
        assert!(page.len() <= LONGEST);
        let read = entries(Outcome::Done, &page).unwrap();
        assert_eq!(read.len(), usize::from(number));
        let octets: Vec<u8> = read.flat_map(|bind: Bind| bind.to_octets()).collect();
        assert_eq!(octets, page[HEADER_LENGTH + 2..]);
    }
}

#[test]
fn a_reply_cut_at_any_length_is_an_error() {
    for number in [0, 1, 2, 59, 60] {
        let whole = page(number);
        for length in 0..whole.len() {
            let octets = length.saturating_sub(HEADER_LENGTH + 2);
            let error = if length < HEADER_LENGTH + 2 {
                ReadError::WrongLength(length)
            } else {
                ReadError::WrongNumber {
                    entries: number,
                    octets,
                }
            };
            assert_eq!(entries(Outcome::Done, &whole[..length]).err(), Some(error));
        }
        let longer = [&whole[..], &[0]].concat();
        assert!(entries(Outcome::Done, &longer).is_err());
    }
    let start = reply(&[0, 0, 64, 0]);
    for length in 0..=start.len() {
        let read = started(Outcome::Done, &start[..length]);
        let whole = length == HEADER_LENGTH + 3;
        let expected = if whole {
            Ok(64)
        } else {
            Err(ReadError::WrongLength(length))
        };
        assert_eq!(read, expected);
        let end = ended(Outcome::Done, &start[..length]);
        assert_eq!(end.is_ok(), length > HEADER_LENGTH);
    }
}

#[test]
fn a_number_that_does_not_fit_is_an_error() {
    for number in 0..=255 {
        let mut page = page(7);
        page[HEADER_LENGTH + 1] = number;
        assert_eq!(entries(Outcome::Done, &page).is_ok(), number == 7);
    }
}

#[test]
fn every_other_code_is_told_whatever_stands_behind_it() {
    for code in 1..=255 {
        for behind in [&[][..], &[0], &[0, 0], &[1, 2, 3, 4, 5, 6, 7, 8, 9]] {
            let octets = reply(&[&[code], behind].concat());
            let error = Some(ReadError::Code(code));
            assert_eq!(errors(Outcome::Done, &octets), [error; 3]);
        }
    }
}

#[test]
fn every_other_outcome_is_told_before_the_reply() {
    for outcome in (1..=255).filter_map(Outcome::from_number) {
        for octets in [page(1), reply(&[code::NO_SESSION]), vec![]] {
            let error = Some(ReadError::Refused(outcome));
            assert_eq!(errors(outcome, &octets), [error; 3]);
        }
    }
}

#[test]
fn errors_read_in_words() {
    for (error, words) in [
        (
            ReadError::Refused(Outcome::NoSource),
            "outcome 13 (NoSource)",
        ),
        (
            ReadError::Code(code::NOT_AUTHORIZED),
            "code 0x01: the device has no rights",
        ),
        (
            ReadError::Code(code::NOT_ENOUGH_RESOURCES),
            "code 0xFE: as many devices read already as the hub serves",
        ),
        (ReadError::Code(0x21), "code 0x21"),
        (
            ReadError::WrongLength(16),
            "a reply of 16 octets has a wrong length",
        ),
        (
            ReadError::NotAsStarted { said: 3, read: 2 },
            "the hub said 3 binds and gave 2",
        ),
        (
            ReadError::KeepsChanging(5),
            "the binds changed while they were read, 5 times",
        ),
    ] {
        let error: Box<dyn std::error::Error> = Box::new(error);
        assert_eq!(error.to_string(), words);
    }
}
