//! Why binds could not be read back.

use core::fmt;

use crate::code;
use crate::outcome::Outcome;

/// Why binds could not be read back.
#[derive(Clone, Copy, Debug, PartialEq, Eq, Hash)]
pub enum ReadError {
    /// The message itself was refused, or went elsewhere: there is no reply. [`Outcome::NoSource`]: the hub does not know the sender.
    Refused(Outcome),
    /// The hub answered this [code](crate::code) in place of 0x00.
    Code(u8),
    /// The reply, of so many octets, has not the length of what it should say.
    WrongLength(usize),
    /// The reply says how many entries it has, and the octets behind are not as many entries.
    WrongNumber { entries: u8, octets: usize },
    /// The hub said that it has so many binds, and a table has [`MOST_BINDS`](crate::MOST_BINDS) at most.
    TooMany(u16),
    /// The hub said at the start how many binds it has, and the pages gave fewer, or more.
    NotAsStarted { said: u16, read: usize },
    /// Somebody changed the binds while they were read, each of so many times. Reading them later may do.
    KeepsChanging(usize),
}

impl fmt::Display for ReadError {
    fn fmt(&self, f: &mut fmt::Formatter<'_>) -> fmt::Result {
        match *self {
            ReadError::Refused(outcome) => {
                write!(f, "outcome {} ({outcome:?})", outcome.number())
            }
            ReadError::Code(code) => match words(code) {
                Some(words) => write!(f, "code 0x{code:02X}: {words}"),
                None => write!(f, "code 0x{code:02X}"),
            },
            ReadError::WrongLength(octets) => {
                write!(f, "a reply of {octets} octets has a wrong length")
            }
            ReadError::WrongNumber { entries, octets } => {
                write!(
                    f,
                    "the reply says {entries} entries and has {octets} octets of them"
                )
            }
            ReadError::TooMany(said) => {
                write!(f, "the hub said {said} binds, more than a table has")
            }
            ReadError::NotAsStarted { said, read } => {
                write!(f, "the hub said {said} binds and gave {read}")
            }
            ReadError::KeepsChanging(times) => {
                write!(f, "the binds changed while they were read, {times} times")
            }
        }
    }
}

impl core::error::Error for ReadError {}

/// What a code says of a message of reading binds back.
fn words(code: u8) -> Option<&'static str> {
    Some(match code {
        code::NOT_AUTHORIZED => "the device has no rights",
        code::INVALID_ARGUMENT => "the payload has a wrong length",
        code::NO_SESSION => "there is no session, or a change of the binds closed it",
        code::NOT_ENOUGH_RESOURCES => "as many devices read already as the hub serves",
        code::UNKNOWN_REASON => "there is no session to end",
        _ => return None,
    })
}
