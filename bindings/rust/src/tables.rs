//! The five tables, kept at full size, and the calls on them.

use crate::binds::Binds;
use crate::calls;
use crate::lengths::{
    BINDS_LENGTH, DEVICES_LENGTH, GROUPS_LENGTH, LIST_LENGTH, MEMBERS_LENGTH, OLD_DEVICES_LENGTH,
    SESSIONS_LENGTH,
};
use crate::outcome::Outcome;
use crate::reading::{read_all, ReadError};
use crate::reason::Reason;
use crate::units::Units;

/// The octet that a free record is made of.
pub const FREE: u8 = 0xFF;

/// The five tables at full size.
#[derive(Clone, Debug, PartialEq, Eq)]
pub struct Tables {
    pub devices: [u8; DEVICES_LENGTH],
    pub binds: [u8; BINDS_LENGTH],
    pub groups: [u8; GROUPS_LENGTH],
    pub members: [u8; MEMBERS_LENGTH],
    /// Who reads binds back.
    pub sessions: [u8; SESSIONS_LENGTH],
}

impl Tables {
    /// Tables whose records are all free.
    pub const fn new() -> Tables {
        Tables {
            devices: [FREE; DEVICES_LENGTH],
            binds: [FREE; BINDS_LENGTH],
            groups: [FREE; GROUPS_LENGTH],
            members: [FREE; MEMBERS_LENGTH],
            sessions: [FREE; SESSIONS_LENGTH],
        }
    }

    /// The tables of a site whose devices are of the old form: these [carried over](crate::carry_over), the other three as they are, and no session.
    ///
    /// The old devices alone are looked at, and [`Outcome::Unsound`] is of them. Whether the tables fit each other every later call asks.
    pub fn carried_over(
        old: &[u8; OLD_DEVICES_LENGTH],
        binds: [u8; BINDS_LENGTH],
        groups: [u8; GROUPS_LENGTH],
        members: [u8; MEMBERS_LENGTH],
    ) -> Result<Tables, Outcome> {
        let mut devices = [FREE; DEVICES_LENGTH];
        match calls::carry_over(old, &mut devices) {
            Outcome::Done => Ok(Tables {
                devices,
                binds,
                groups,
                members,
                sessions: [FREE; SESSIONS_LENGTH],
            }),
            outcome => Err(outcome),
        }
    }

    /// [`message`](crate::message) on these tables.
    ///
    /// ```
    /// use gneissfold::{Outcome, Reason, Tables, Units, LIST_LENGTH, LONGEST};
    ///
    /// let mut tables = Tables::new();
    /// assert_eq!(tables.admit(3, 1, Units::up_to(1)), Outcome::Done);
    /// // Add Bind: 3:01, server interface 0x0200, to D'4:U'02, which nobody admitted.
    /// let add_bind = [
    ///     0, 3, 1, 0, 0, 0, 0, 0, 7, 1, 0x80, 2, 1, 0, 8, 0, 3, 1, 0x82, 0, 0, 4, 2,
    /// ];
    /// let (_, _, reason) = tables.message(&add_bind, &mut [0; LONGEST], &mut [0; LIST_LENGTH]);
    /// let reason = reason.unwrap();
    /// assert_eq!((reason, reason.octet()), (Reason::DestinationDevice, 6));
    /// assert_eq!(reason.to_string(), "the destination device is not admitted");
    /// ```
    pub fn message(
        &mut self,
        message: &[u8],
        reply: &mut [u8],
        list: &mut [u8],
    ) -> (Outcome, usize, Option<Reason>) {
        calls::message(
            &mut self.devices,
            &mut self.binds,
            &mut self.groups,
            &mut self.members,
            &mut self.sessions,
            message,
            reply,
            list,
        )
    }

    /// [`admit`](crate::admit) on these tables.
    pub fn admit(&mut self, address: u16, rights: u8, units: Units) -> Outcome {
        calls::admit(
            &mut self.devices,
            &self.binds,
            &self.groups,
            &self.members,
            &self.sessions,
            address,
            rights,
            units,
        )
    }

    /// [`release`](crate::release) on these tables.
    pub fn release(&mut self, address: u16) -> Outcome {
        calls::release(
            &mut self.devices,
            &mut self.binds,
            &self.groups,
            &mut self.members,
            &mut self.sessions,
            address,
        )
    }

    /// Reads all binds for a unit of a device that has rights, by [`read_all`]: a session is started, read in and ended.
    ///
    /// ```
    /// use gneissfold::{compare, Address, Bind, Outcome, Role, Tables, Units};
    ///
    /// let mut tables = Tables::new();
    /// assert_eq!(tables.admit(3, 1, Units::up_to(1)), Outcome::Done);
    /// let sheet = [Bind::new(3, 1, Role::Server, 0x0200, Address::Device(4), 2).unwrap()];
    ///
    /// let binds = tables.read_binds((3, 1))?;
    /// assert_eq!(
    ///     compare(&binds, &sheet).to_string(),
    ///     "missing: 0003:01 to 0004:02 at server interface 0x0200\n"
    /// );
    /// # Ok::<(), gneissfold::ReadError>(())
    /// ```
    pub fn read_binds(&mut self, sender: (u16, u8)) -> Result<Binds, ReadError> {
        let mut list = [0; LIST_LENGTH];
        read_all(sender, |message, reply| {
            let (outcome, length, _) = self.message(message, reply, &mut list);
            (outcome, length)
        })
    }
}

impl Default for Tables {
    fn default() -> Tables {
        Tables::new()
    }
}
