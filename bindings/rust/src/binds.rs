//! Binds that were read: as many as a hub can have, without memory of their own.

use core::fmt;
use core::ops::Deref;

use crate::bind::Bind;
use crate::lengths::{BIND_SIZE, MOST_BINDS};
use crate::tables::FREE;

/// Binds in the order of the table, at most [`MOST_BINDS`]. It is a slice of them: `binds.len()`, `&binds[..]`, `for bind in binds.iter()`.
#[derive(Clone)]
pub struct Binds {
    entries: [Bind; MOST_BINDS],
    length: usize,
}

impl Binds {
    pub(crate) const fn new() -> Binds {
        Binds {
            entries: [Bind::from_octets([FREE; BIND_SIZE]); MOST_BINDS],
            length: 0,
        }
    }

    /// Puts a bind behind the others, where there is room.
    pub(crate) fn push(&mut self, bind: Bind) {
        if let Some(place) = self.entries.get_mut(self.length) {
            *place = bind;
            self.length += 1;
        }
    }
}

impl Deref for Binds {
    type Target = [Bind];

    fn deref(&self) -> &[Bind] {
        &self.entries[..self.length]
    }
}

impl PartialEq for Binds {
    fn eq(&self, other: &Binds) -> bool {
        self[..] == other[..]
    }
}

impl Eq for Binds {}

impl fmt::Debug for Binds {
    fn fmt(&self, f: &mut fmt::Formatter<'_>) -> fmt::Result {
        f.debug_list().entries(self.iter()).finish()
    }
}
