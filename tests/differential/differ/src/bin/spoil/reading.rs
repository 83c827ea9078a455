//! Commands by which binds are read back ("CR 1"), and what a fault in serving them makes of the reply and of the session table.

use super::binds::is_used;
use super::exchange::{Exchange, ADMIT, BINDS, MESSAGE, RELEASE, REPLY, SENT, SESSIONS};
use std::ops::RangeInclusive;

/// Members of Bind Management.
pub const START: u8 = 0x07;
pub const END: u8 = 0x08;
const BY_INDEX: u8 = 0x09;
pub const READS: RangeInclusive<u8> = 0x09..=0x0D;

/// A free session record.
pub const FREE: [u8; 2] = [0xFF; 2];

pub type Bind = [u8; 8];

/// A read with its payload, and the bind table that it is about.
pub struct Read {
    pub member: u8,
    pub payload: Vec<u8>,
    /// All records, free ones too.
    pub records: Vec<Bind>,
}

impl Read {
    pub fn is_by_index(&self) -> bool {
        self.member == BY_INDEX
    }

    pub fn is_by_source(&self) -> bool {
        [0x0A, 0x0B].contains(&self.member)
    }

    pub fn is_by_destination(&self) -> bool {
        [0x0C, 0x0D].contains(&self.member)
    }

    pub fn used(&self) -> Vec<Bind> {
        let records = self.records.iter().copied();
        records.filter(|bind| is_used(bind)).collect()
    }

    /// Index and number of a read by index.
    pub fn first(&self) -> usize {
        u16::from_be_bytes([self.payload[0], self.payload[1]]).into()
    }

    pub fn number(&self) -> usize {
        self.payload[2].into()
    }

    /// The octets of a source or of a destination that the payload has, as they are stored.
    pub fn end(&self) -> Vec<u8> {
        let mut end = self.payload.clone();
        if self.is_by_source() {
            end[0] &= 0x7F;
        }
        end
    }

    /// The part of a bind that such a payload is compared with.
    pub fn part<'a>(&self, bind: &'a Bind) -> &'a [u8] {
        let from = if self.is_by_source() { 0 } else { 5 };
        &bind[from..from + self.payload.len()]
    }

    /// All that a sound part would give if a reply had no end.
    pub fn due(&self) -> Vec<Bind> {
        if self.is_by_index() {
            page(self.used(), self.first(), self.number())
        } else {
            self.where_part(|part, end| part == end)
        }
    }

    /// The binds in use whose part passes beside the octets asked for.
    pub fn where_part(&self, passes: impl Fn(&[u8], &[u8]) -> bool) -> Vec<Bind> {
        let mut binds = self.used();
        binds.retain(|bind| passes(self.part(bind), &self.end()));
        binds
    }
}

/// So many of the binds, from this one on.
pub fn page(binds: Vec<Bind>, first: usize, number: usize) -> Vec<Bind> {
    binds.into_iter().skip(first).take(number).collect()
}

/// Code, number and entries.
pub fn entries(binds: &[Bind]) -> Vec<u8> {
    let mut payload = vec![0x00, binds.len() as u8];
    payload.extend(binds.concat());
    payload
}

impl Exchange {
    /// Member and code of a served command by which binds are read back.
    pub fn reading(&self) -> Option<(u8, u8)> {
        let served = self.call == MESSAGE && self.outcome == 0 && self.before[SENT][11] == 2;
        let member = served.then(|| self.before[SENT][12])?;
        (START..=0x0D)
            .contains(&member)
            .then(|| (member, self.after[REPLY][15]))
    }

    /// A read that was answered with this code and has a payload of the right length.
    pub fn read(&self, code: u8) -> Option<Read> {
        let (member, told) = self.reading()?;
        let payload = self.before[SENT][15..].to_vec();
        let length = if [0x0A, 0x0C].contains(&member) { 2 } else { 3 };
        let records = self.before[BINDS].chunks_exact(8);
        let right = READS.contains(&member) && told == code && payload.len() == length;
        right.then(|| Read {
            member,
            payload,
            records: records.map(|bind| bind.try_into().unwrap()).collect(),
        })
    }

    /// Gives the read that was granted these entries, as many as fit in a reply.
    pub fn given(&mut self, which: impl Fn(&Read) -> Option<Vec<Bind>>) {
        if let Some(mut binds) = self.read(0x00).and_then(|read| which(&read)) {
            binds.truncate(60);
            self.tell(&entries(&binds));
        }
    }

    /// Another payload in the reply, as far as the reply goes, its length told anew.
    pub fn tell(&mut self, payload: &[u8]) {
        let payload = &payload[..payload.len().min(self.before[REPLY].len() - 15)];
        let told = &mut self.after[REPLY];
        told[15..].copy_from_slice(&self.before[REPLY][15..]);
        told[15..15 + payload.len()].copy_from_slice(payload);
        told[13..15].copy_from_slice(&(payload.len() as u16).to_be_bytes());
        self.count = 15 + payload.len() as u64;
    }

    /// Refuses what was granted.
    pub fn refuse(&mut self, code: u8) {
        self.after[SESSIONS] = self.before[SESSIONS].clone();
        self.tell(&[code]);
    }

    /// The reply of a Start that is granted.
    pub fn tell_number(&mut self) {
        let records = self.before[BINDS].chunks_exact(8);
        let number = records.filter(|bind| is_used(bind)).count();
        self.tell(&[0x00, 0x00, number as u8]);
    }

    /// The device that sent the message.
    pub fn sender(&self) -> [u8; 2] {
        [self.before[SENT][0] & 0x7F, self.before[SENT][1]]
    }

    /// Whether the sender was in session.
    pub fn in_session(&self) -> bool {
        self.had_session(self.sender())
    }

    pub fn had_session(&self, device: [u8; 2]) -> bool {
        self.before[SESSIONS].chunks(2).any(|there| there == device)
    }

    /// Whether anybody was.
    pub fn anybody_read(&self) -> bool {
        self.before[SESSIONS].iter().any(|&octet| octet != 0xFF)
    }

    /// Whether a session record is free after the call.
    pub fn leaves_room(&self) -> bool {
        self.after[SESSIONS].chunks(2).any(|there| there == FREE)
    }

    pub fn binds_changed(&self) -> bool {
        self.before[BINDS] != self.after[BINDS]
    }

    /// The sessions as they were lent.
    pub fn leave_sessions(&mut self) {
        self.after[SESSIONS] = self.before[SESSIONS].clone();
    }

    pub fn close_sessions(&mut self) {
        self.after[SESSIONS].fill(0xFF);
    }

    /// Puts a device into the place where another stands; says whether it stood there.
    pub fn put_session(&mut self, there: [u8; 2], device: [u8; 2]) -> bool {
        let mut sessions = self.after[SESSIONS].chunks_exact_mut(2);
        let record = sessions.find(|record| *record == there);
        record
            .map(|record| record.copy_from_slice(&device))
            .is_some()
    }

    /// Whether the call asks if the tables are sound; 17 comes before that.
    pub fn asks_soundness(&self) -> bool {
        [MESSAGE, ADMIT, RELEASE].contains(&self.call) && self.outcome != 17
    }

    /// Takes the tables for unsound if the sessions are such.
    pub fn sessions_unsound(&mut self, which: impl Fn(&Exchange, &[u8]) -> bool) {
        if self.asks_soundness() && which(self, &self.before[SESSIONS]) {
            self.after = self.before.clone();
            (self.outcome, self.count) = (16, 0);
        }
    }

    /// Takes the tables for sound if the sessions are such.
    pub fn sessions_sound(&mut self, which: impl Fn(&Exchange, &[u8]) -> bool) {
        if self.asks_soundness() && self.outcome == 16 && which(self, &self.before[SESSIONS]) {
            self.outcome = if self.call == MESSAGE { 2 } else { 0 };
        }
    }
}
