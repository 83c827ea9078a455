//! Binds beside requests and commands, and what a fault in reading their special values
//! ("CR 4") makes of the answer.

use super::exchange::{Exchange, BINDS, LIST, MEMBERS, MESSAGE, REPLY, SENT, SESSIONS};
use std::collections::BTreeSet;

/// D'7FFF:U'FF of individual type.
const BIND_ADDRESS: [u8; 3] = [0x7F, 0xFF, 0xFF];

pub fn is_used(bind: &[u8]) -> bool {
    bind != [0xFF; 8]
}

/// What a bind in use says any of.
pub fn any_device(bind: &[u8]) -> bool {
    bind[..2] == [0x7F, 0xFF]
}

pub fn any_unit(bind: &[u8]) -> bool {
    bind[2] == 0xFF
}

pub fn any_interface(bind: &[u8]) -> bool {
    bind[3] | 0x80 == 0xFF && bind[4] == 0xFF
}

/// How a bind stands to a request: which of source device, source unit and UID are equal,
/// which the bind says any of, and whether the interface types are equal.
pub struct Beside<'a> {
    pub request: &'a [u8],
    pub equal: [bool; 3],
    pub any: [bool; 3],
    pub same_type: bool,
}

impl Beside<'_> {
    fn of<'a>(bind: &[u8], request: &'a [u8]) -> Beside<'a> {
        Beside {
            request,
            equal: [
                bind[..2] == [request[0] & 0x7F, request[1]],
                bind[2] == request[2],
                (bind[3] ^ request[10]) & 0x7F == 0 && bind[4] == request[11],
            ],
            any: [any_device(bind), any_unit(bind), any_interface(bind)],
            same_type: (bind[3] ^ request[10]) & 0x80 == 0,
        }
    }

    pub fn device(&self) -> bool {
        self.equal[0] || self.any[0]
    }

    pub fn unit(&self) -> bool {
        self.equal[1] || self.any[1]
    }

    pub fn uid(&self) -> bool {
        self.equal[2] || self.any[2]
    }
}

impl Exchange {
    /// Answers a request to the bind address as a part that takes these binds for matching.
    pub fn delivered_by(&mut self, matching: fn(&Beside) -> bool) {
        if self.call != MESSAGE || ![1, 2].contains(&self.outcome) {
            return;
        }
        let request = &self.before[SENT];
        if request[3..6] != BIND_ADDRESS {
            return;
        }
        let mut units = BTreeSet::new();
        for bind in self.before[BINDS].chunks(8).filter(|bind| is_used(bind)) {
            if !matching(&Beside::of(bind, request)) {
                continue;
            }
            if bind[5] < 0x80 {
                units.insert(&bind[5..]);
                continue;
            }
            let members = self.before[MEMBERS].chunks(5);
            let of_group = members.filter(|member| member[..2] == [bind[5] & 0x7F, bind[6]]);
            units.extend(of_group.map(|member| &member[2..]));
        }
        units.remove(&[request[0] & 0x7F, request[1], request[2]][..]);
        let list: Vec<u8> = units.iter().copied().flatten().copied().collect();
        self.outcome = if list.is_empty() { 2 } else { 1 };
        self.count = units.len() as u64;
        self.after[LIST] = self.before[LIST].clone();
        self.after[LIST][..list.len()].copy_from_slice(&list);
    }

    /// The payload of a command of Bind Management that was answered with this code, octet
    /// 1 as it is stored; nothing if it has another length.
    pub fn named<const LENGTH: usize>(&self, member: u8, code: u8) -> Option<[u8; LENGTH]> {
        if !self.served(2, member, code) {
            return None;
        }
        let mut named: [u8; LENGTH] = self.before[SENT][15..].try_into().ok()?;
        named[0] &= 0x7F;
        Some(named)
    }

    /// Refuses an Add Bind that was granted, if it is about such a bind.
    pub fn refused(&mut self, which: fn(&[u8]) -> bool) {
        if self.named(1, 0).is_some_and(|bind: [u8; 8]| which(&bind)) {
            self.after[BINDS] = self.before[BINDS].clone();
            self.after[SESSIONS] = self.before[SESSIONS].clone();
            self.after[REPLY][15] = 0x02;
        }
    }

    /// Frees these binds too.
    pub fn freed(&mut self, which: impl Fn(&[u8]) -> bool) {
        let binds = self.after[BINDS].chunks_mut(8);
        binds
            .filter(|bind| is_used(bind) && which(bind))
            .for_each(|bind| bind.fill(0xFF));
    }

    /// Whether such a bind was lent with the message.
    pub fn lent_bind(&self, which: impl Fn(&[u8]) -> bool) -> bool {
        let mut binds = self.before[BINDS].chunks_exact(8);
        self.call == MESSAGE && binds.any(|bind| is_used(bind) && which(bind))
    }

    /// Takes the tables for unsound, if such a bind was lent; asked after 17.
    pub fn unsound(&mut self, which: fn(&[u8]) -> bool) {
        if self.lent_bind(which) && self.outcome != 17 {
            self.after = self.before.clone();
            (self.outcome, self.count) = (16, 0);
        }
    }
}
