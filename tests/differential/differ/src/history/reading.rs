//! Who is in session and which binds stand to be read, by the calls and answers so far, and what that says of the next answer ("CR 1"). It is read from
//! calls and answers alone: of the session table only its number of records is known, which the caller chose.

use super::entry::{named, Bind, Entry};
use crate::generate::word;

/// Members of Bind Management (document 000, 6.2.5.7 to 6.2.5.13).
const START: u8 = 0x07;
const END: u8 = 0x08;
const BY_INDEX: u8 = 0x09;
/// From a read by one end to the removal by the same octets, "as a removal by the same octets matches".
const TO_REMOVAL: u8 = 0x07;

/// "as many whole ones as a payload of 485 octets holds", behind code and number.
const MOST_ENTRIES: usize = 60;

pub struct Reading {
    /// Session records that are lent.
    records: usize,
    /// Admitted devices that have rights.
    with_rights: Vec<u16>,
    /// The binds that stand.
    binds: Vec<Bind>,
    /// A device is in session iff its Start was granted and since then no End of its own was granted, the binds did not change, and it was not released.
    open: Vec<u16>,
    /// Devices whose session was closed by a change that another made, and which have started none since.
    shut_out: Vec<u16>,
}

impl Reading {
    pub fn of(records: usize) -> Reading {
        Reading {
            records,
            with_rights: Vec::new(),
            binds: Vec::new(),
            open: Vec::new(),
            shut_out: Vec::new(),
        }
    }

    pub fn open(&self) -> &[u16] {
        &self.open
    }

    /// Holds an answer against what is due, and takes it in. Whether a read was refused because another changed binds.
    pub fn take(&mut self, entry: &Entry) -> Result<bool, String> {
        let mut shut_out = false;
        if let (Some((member, payload)), Some(sender)) = (entry.reading(), entry.sender()) {
            let code = self.code(sender, member, payload);
            if !self.is_due(code, member, payload, entry.reply()) {
                return Err(format!(
                    "binds are read back otherwise than the history has it: code {code:02X} is due, {} binds stand, in session {:04X?} of {}\n{entry}",
                    self.binds.len(),
                    self.open,
                    self.records
                ));
            }
            shut_out = code == 0x20 && self.shut_out.contains(&sender);
            if code == 0x00 {
                self.started_or_ended(sender, member);
            }
        }
        self.changed(entry);
        Ok(shut_out)
    }

    /// The code that is due: rights at Start alone, the length, then the session.
    fn code(&self, sender: u16, member: u8, payload: &[u8]) -> u8 {
        let length = match member {
            START | END => 0,
            BY_INDEX | 0x0B | 0x0D => 3,
            _ => 2,
        };
        let open = self.open.contains(&sender);
        match member {
            START if sender != 0 && !self.with_rights.contains(&sender) => 0x01,
            _ if payload.len() != length => 0x02,
            START if !open && self.open.len() >= self.records => 0xFE,
            START => 0x00,
            _ if open => 0x00,
            END => 0xFF,
            _ => 0x20,
        }
    }

    fn is_due(&self, code: u8, member: u8, payload: &[u8], reply: &[u8]) -> bool {
        match (code, member) {
            (0x00, START) => {
                let [n1, n2] = (self.binds.len() as u16).to_be_bytes();
                reply == [0x00, n1, n2]
            }
            (0x00, BY_INDEX..) => {
                reply.first() == Some(&0x00) && self.are_due(member, payload, &reply[1..])
            }
            _ => reply == [code],
        }
    }

    /// Whether these are the entries that are due, their number before them: so many, each once, and each one that stands and matches. Where all that match
    /// fit in a reply, they are those. In which order they stand no history says.
    fn are_due(&self, member: u8, payload: &[u8], given: &[u8]) -> bool {
        let [number, entries @ ..] = given else {
            return false;
        };
        let mut matching = self.binds.clone();
        let mut due = matching.len();
        if member == BY_INDEX {
            let left = due.saturating_sub(word(payload, 0).into());
            due = left.min(payload[2].into());
        } else {
            matching.retain(|bind| named(member - TO_REMOVAL, payload, bind));
            due = matching.len();
        }
        let mut entries: Vec<_> = entries.chunks(8).collect();
        let there = entries.iter().all(|entry| {
            let mut matching = matching.iter();
            matching.any(|bind| bind == entry)
        });
        let number = usize::from(*number);
        let right = number == due.min(MOST_ENTRIES) && number == entries.len();
        entries.sort();
        entries.dedup();
        there && right && entries.len() == number
    }

    fn started_or_ended(&mut self, sender: u16, member: u8) {
        match member {
            START => {
                self.shut_out.retain(|&device| device != sender);
                if !self.open.contains(&sender) {
                    self.open.push(sender);
                }
            }
            END => self.open.retain(|&device| device != sender),
            _ => (),
        }
    }

    /// "any change to the bind table closes all sessions, and a release closes that device's".
    fn changed(&mut self, entry: &Entry) {
        let added = entry.added_bind();
        let withdrawn = |bind: &Bind| entry.withdraws_bind(bind);
        if added.is_some() || self.binds.iter().any(withdrawn) {
            let others = self.open.drain(..);
            self.shut_out
                .extend(others.filter(|&device| Some(device) != entry.sender()));
        }
        self.binds.retain(|bind| !withdrawn(bind));
        self.binds.extend(added);
        self.with_rights.extend(entry.admitted_with_rights());
        if let Some(address) = entry.released() {
            for devices in [&mut self.open, &mut self.shut_out, &mut self.with_rights] {
                devices.retain(|&device| device != address);
            }
        }
    }
}
