//! All binds in one call: open a session, read page by page, end it; and from the start again where somebody changed the binds in between.

use super::error::ReadError;
use super::messages::{by_index, end, start};
use super::replies::{entries, started};
use crate::binds::Binds;
use crate::code;
use crate::lengths::{LONGEST, MOST_BINDS, MOST_ENTRIES};
use crate::outcome::Outcome;

/// How often [`read_all`] starts before it gives up.
pub const MOST_STARTS: usize = 5;

/// Reads all binds, for a unit of a device that has rights.
///
/// `exchange` sends a message and writes the reply into the room, [`LONGEST`] octets, as [`message`](crate::message) does, and gives outcome and
/// length; no message here has a reason. Who sends by radio gives [`Outcome::Done`] and the length of what came back, 0 where nothing did: then an
/// end is sent too.
///
/// Where the binds change in between, the session is closed and what was read is dropped; it starts again, [`MOST_STARTS`] times at most, and
/// then answers [`ReadError::KeepsChanging`]. Whatever comes of it, it sends an end where the session may be open. A session is the device's: one
/// that another of its units has open goes on here, and ends here. So one unit of a device reads at a time; a second one that starts anew after
/// a change would hide the change from the first.
pub fn read_all(
    sender: (u16, u8),
    exchange: impl FnMut(&[u8], &mut [u8]) -> (Outcome, usize),
) -> Result<Binds, ReadError> {
    let mut line = Line {
        sender,
        exchange,
        room: [0; LONGEST],
    };
    for _ in 0..MOST_STARTS {
        if let Some(binds) = line.session()? {
            return Ok(binds);
        }
    }
    Err(ReadError::KeepsChanging(MOST_STARTS))
}

/// The sender, the way to the hub, and room for a reply.
struct Line<F> {
    sender: (u16, u8),
    exchange: F,
    room: [u8; LONGEST],
}

impl<F: FnMut(&[u8], &mut [u8]) -> (Outcome, usize)> Line<F> {
    fn ask(&mut self, message: &[u8]) -> (Outcome, &[u8]) {
        let (outcome, length) = (self.exchange)(message, &mut self.room);
        (outcome, &self.room[..length.min(LONGEST)])
    }

    /// One session, from its start to its end: the binds, or `None` where a change closed it.
    fn session(&mut self) -> Result<Option<Binds>, ReadError> {
        let (outcome, reply) = self.ask(&start(self.sender));
        let answer = match started(outcome, reply) {
            // Then this call opened none: a hub lets who has one go on.
            Err(refused @ (ReadError::Refused(_) | ReadError::Code(_))) => return Err(refused),
            Err(unclear) => Err(unclear),
            Ok(number) => self.pages(number),
        };
        if answer != Ok(None) {
            // What was read stays right, whatever the end is answered: at the last page the session was open.
            let _ = self.ask(&end(self.sender));
        }
        answer
    }

    /// The pages of a session, which has so many binds; `None` where a change closed it.
    fn pages(&mut self, number: u16) -> Result<Option<Binds>, ReadError> {
        let said = usize::from(number);
        if said > MOST_BINDS {
            return Err(ReadError::TooMany(number));
        }
        let mut binds = Binds::new();
        while binds.len() < said {
            let (outcome, reply) = self.ask(&by_index(
                self.sender,
                binds.len() as u16,
                MOST_ENTRIES as u8,
            ));
            let page = match entries(outcome, reply) {
                Err(ReadError::Code(code::NO_SESSION)) => return Ok(None),
                answer => answer?,
            };
            let read = binds.len() + page.len();
            if page.len() == 0 || read > said {
                return Err(ReadError::NotAsStarted { said: number, read });
            }
            page.for_each(|bind| binds.push(bind));
        }
        Ok(Some(binds))
    }
}
