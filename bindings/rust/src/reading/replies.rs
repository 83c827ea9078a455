//! What the replies say. Each takes the outcome of the message and the octets of the reply, header included, and answers on any octets.
//!
//! A code other than 0x00 is the whole answer, whatever stands behind it.

use core::slice::ChunksExact;

use super::error::ReadError;
use crate::bind::Bind;
use crate::code;
use crate::lengths::{BIND_SIZE, HEADER_LENGTH};
use crate::outcome::Outcome;

/// What the reply to [`start`](super::start) says: how many binds there are.
pub fn started(outcome: Outcome, reply: &[u8]) -> Result<u16, ReadError> {
    match *granted(outcome, reply)? {
        [a, b] => Ok(u16::from_be_bytes([a, b])),
        _ => Err(ReadError::WrongLength(reply.len())),
    }
}

/// What the reply to [`end`](super::end) says: that the session is closed.
pub fn ended(outcome: Outcome, reply: &[u8]) -> Result<(), ReadError> {
    granted(outcome, reply).map(|_| ())
}

/// What the reply to a read says: its entries, in the order of the table.
pub fn entries(outcome: Outcome, reply: &[u8]) -> Result<Entries<'_>, ReadError> {
    let Some((&entries, octets)) = granted(outcome, reply)?.split_first() else {
        return Err(ReadError::WrongLength(reply.len()));
    };
    if octets.len() != usize::from(entries) * BIND_SIZE {
        let octets = octets.len();
        return Err(ReadError::WrongNumber { entries, octets });
    }
    Ok(Entries(octets.chunks_exact(BIND_SIZE)))
}

/// The entries of a reply, one after the other: `len()` says how many are left.
#[derive(Clone, Debug)]
pub struct Entries<'a>(ChunksExact<'a, u8>);

impl Iterator for Entries<'_> {
    type Item = Bind;

    fn next(&mut self) -> Option<Bind> {
        let octets = self.0.next()?;
        octets.try_into().ok().map(Bind::from_octets)
    }

    fn size_hint(&self) -> (usize, Option<usize>) {
        self.0.size_hint()
    }
}

impl ExactSizeIterator for Entries<'_> {}

/// The payload behind the code, where this is 0x00.
fn granted(outcome: Outcome, reply: &[u8]) -> Result<&[u8], ReadError> {
    if outcome != Outcome::Done {
        return Err(ReadError::Refused(outcome));
    }
    match reply.get(HEADER_LENGTH..).and_then(<[u8]>::split_first) {
        Some((&code::OK, behind)) => Ok(behind),
        Some((&code, _)) => Err(ReadError::Code(code)),
        None => Err(ReadError::WrongLength(reply.len())),
    }
}
