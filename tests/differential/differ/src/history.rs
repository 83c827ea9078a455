//! What a run links, withdraws and counts, "read from the calls and their
//! answers alone, never from a table" ("What the promises are measured by").

mod entry;
mod matching;
mod reading;
mod standing;

pub use entry::Entry;
pub use matching::{matches, said};
pub use standing::{octets, Standing, Unit};

use crate::generate::UnitSet;
use entry::{Bind, Member};
use reading::Reading;

pub struct History {
    entries: Vec<Entry>,
    reading: Reading,
}

impl History {
    /// No call yet. Of the session table its number of records is known, which the caller chose.
    pub fn of(sessions: usize) -> History {
        History {
            entries: Vec::new(),
            reading: Reading::of(sessions),
        }
    }

    /// One call more and its answer, unless binds were read back otherwise than the history has it. Whether a device was shut out: its read refused because
    /// another changed binds.
    pub fn push(&mut self, entry: Entry) -> Result<bool, String> {
        let judged = self.reading.take(&entry);
        self.entries.push(entry);
        judged
    }

    pub fn calls(&self) -> usize {
        self.entries.len()
    }

    /// The payload of the last reply; nothing unless the last call was a command that was served.
    pub fn reply(&self) -> &[u8] {
        self.entries.last().map_or(&[], Entry::reply)
    }

    /// The devices in session.
    pub fn readers(&self) -> &[u16] {
        self.reading.open()
    }

    /// What `added` finds and no later entry withdraws.
    fn standing<'a, T>(
        &'a self,
        added: impl Fn(&'a Entry) -> Option<T>,
        withdrawn: impl Fn(&'a Entry, &T) -> bool,
    ) -> Vec<T> {
        let mut standing = Vec::new();
        for (at, entry) in self.entries.iter().enumerate() {
            if let Some(thing) = added(entry) {
                if !self.entries[at + 1..]
                    .iter()
                    .any(|later| withdrawn(later, &thing))
                {
                    standing.push(thing);
                }
            }
        }
        standing
    }

    pub fn binds(&self) -> Vec<Bind> {
        self.standing(Entry::added_bind, |later, bind| later.withdraws_bind(bind))
    }

    /// Every bind ever added, those withdrawn too, to ask after.
    pub fn binds_ever(&self) -> Vec<Bind> {
        self.entries.iter().filter_map(Entry::added_bind).collect()
    }

    pub fn members(&self) -> Vec<Member> {
        self.standing(Entry::added_member, |later, member| {
            later.withdraws_member(member)
        })
    }

    pub fn groups(&self) -> Vec<(u16, &[u8])> {
        self.standing(Entry::created, |later, group| {
            later.deleted() == Some(group.0)
        })
    }

    /// Every group address ever given out, and one that was not.
    pub fn groups_ever(&self) -> Vec<u16> {
        let created = self.entries.iter().filter_map(Entry::created);
        let mut ever: Vec<_> = created.map(|group| group.0).collect();
        ever.push(0x7FFF);
        ever.sort();
        ever.dedup();
        ever
    }

    /// Admitted devices with their units.
    pub fn devices(&self) -> Vec<(u16, UnitSet)> {
        self.standing(Entry::admitted, |later, device| {
            later.released() == Some(device.0)
        })
    }

    /// The calls and answers, one a line.
    pub fn printed(&self) -> String {
        self.entries.iter().map(Entry::to_string).collect()
    }
}
