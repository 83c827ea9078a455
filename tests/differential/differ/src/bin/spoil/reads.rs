//! The faults of what a read gives ("CR 1"): which entries, how many, and in which form.

use super::binds::{any_device, any_unit, is_used};
use super::exchange::{REPLY, SENT};
use super::faults::Fault;
use super::reading::{entries, page};

pub const FAULTS: &[Fault] = &[
    ("fifty-nine-entries-at-most", true, |e| {
        e.given(|read| Some(page(read.due(), 0, 59)))
    }),
    ("sixty-first-entry-cut-off", true, |e| {
        if let Some(due) = e.read(0x00).map(|read| read.due()) {
            if due.len() > 60 {
                let mut payload = entries(&due[..61]);
                payload.truncate(485);
                e.tell(&payload);
            }
        }
    }),
    ("sixty-one-entries-where-the-reply-is-longer", false, |e| {
        if let Some(due) = e.read(0x00).map(|read| read.due()) {
            if due.len() > 60 && e.before[REPLY].len() >= 505 {
                e.tell(&entries(&due[..61]));
            }
        }
    }),
    ("data-length-in-one-octet", false, |e| {
        if e.read(0x00).is_some() {
            e.after[REPLY][13] = 0;
        }
    }),
    ("entries-by-falling-place", false, |e| {
        e.given(|read| {
            let mut given = page(read.due(), 0, 60);
            given.reverse();
            Some(given)
        })
    }),
    ("the-last-sixty-given", false, |e| {
        e.given(|read| {
            let due = read.due();
            let left_out = due.len().saturating_sub(60);
            Some(page(due, left_out, 60))
        })
    }),
    ("last-entry-left-out", true, |e| {
        e.given(|read| {
            let mut given = page(read.due(), 0, 60);
            given.pop();
            Some(given)
        })
    }),
    ("first-entry-in-the-place-of-the-last", true, |e| {
        e.given(|read| {
            let mut given = page(read.due(), 0, 60);
            *given.last_mut()? = *read.due().first()?;
            Some(given)
        })
    }),
    ("entries-without-the-group-flag", true, |e| {
        e.given(|read| {
            let mut given = read.due();
            given.iter_mut().for_each(|entry| entry[5] &= 0x7F);
            Some(given)
        })
    }),
    ("entries-without-the-interface-type", true, |e| {
        e.given(|read| {
            let mut given = read.due();
            given.iter_mut().for_each(|entry| entry[3] &= 0x7F);
            Some(given)
        })
    }),
    ("number-of-entries-in-two-octets", true, |e| {
        if e.read(0x00).is_some() {
            let mut payload = e.after[REPLY][15..e.count as usize].to_vec();
            payload.insert(1, 0x00);
            e.tell(&payload);
        }
    }),
    ("number-of-all-that-match", true, |e| {
        if let Some(due) = e.read(0x00).map(|read| read.due()) {
            e.after[REPLY][16] = due.len() as u8;
        }
    }),
    ("number-of-all-binds", true, |e| {
        if let Some(used) = e.read(0x00).map(|read| read.used()) {
            e.after[REPLY][16] = used.len() as u8;
        }
    }),
    ("index-counts-free-records", true, |e| {
        e.given(|read| {
            let mut given = read
                .is_by_index()
                .then(|| page(read.records.clone(), read.first(), read.number()))?;
            given.retain(|bind| is_used(bind));
            Some(given)
        })
    }),
    ("index-counted-from-1", true, |e| {
        e.given(|read| {
            let first = read.is_by_index().then(|| read.first().saturating_sub(1))?;
            Some(page(read.used(), first, read.number()))
        })
    }),
    ("index-in-one-octet", true, |e| {
        e.given(|read| {
            let first = read.is_by_index().then(|| read.first() % 0x100)?;
            Some(page(read.used(), first, read.number()))
        })
    }),
    ("index-least-octet-first", true, |e| {
        e.given(|read| {
            let octets = [read.payload[0], read.payload[1]];
            let first = read.is_by_index().then(|| u16::from_le_bytes(octets))?;
            Some(page(read.used(), first.into(), read.number()))
        })
    }),
    ("index-ignored", true, |e| {
        e.given(|read| {
            let number = read.is_by_index().then(|| read.number())?;
            Some(page(read.used(), 0, number))
        })
    }),
    ("number-asked-ignored", true, |e| {
        e.given(|read| {
            let first = read.is_by_index().then(|| read.first())?;
            Some(page(read.used(), first, 60))
        })
    }),
    ("number-0-asks-for-all", true, |e| {
        e.given(|read| {
            let all = read.is_by_index() && read.number() == 0;
            all.then(|| page(read.used(), read.first(), 60))
        })
    }),
    ("one-entry-more-than-asked", true, |e| {
        e.given(|read| {
            let number = read.is_by_index().then(|| read.number() + 1)?;
            Some(page(read.used(), read.first(), number))
        })
    }),
    ("index-past-the-end-refused", true, |e| {
        let read = e.read(0x00).filter(|read| read.is_by_index());
        if read.is_some_and(|read| read.first() >= read.used().len()) {
            e.refuse(0x02);
        }
    }),
    ("more-than-there-are-refused", true, |e| {
        let read = e.read(0x00).filter(|read| read.is_by_index());
        if read.is_some_and(|read| read.first() + read.number() > read.used().len()) {
            e.refuse(0x02);
        }
    }),
    ("more-than-fit-refused", true, |e| {
        if e.read(0x00).is_some_and(|read| read.due().len() > 60) {
            e.refuse(0xFE);
        }
    }),
    ("none-that-match-refused", true, |e| {
        let read = e.read(0x00).filter(|read| !read.is_by_index());
        if read.is_some_and(|read| read.due().is_empty()) {
            e.refuse(0x02);
        }
    }),
    ("top-bit-of-a-source-compared", true, |e| {
        e.given(|read| {
            let never = read.is_by_source() && read.payload[0] >= 0x80;
            never.then(Vec::new)
        })
    }),
    ("flag-of-a-destination-ignored", true, |e| {
        e.given(|read| {
            let plain = |part: &[u8]| [&[part[0] & 0x7F], &part[1..]].concat();
            let by_destination = read.is_by_destination();
            by_destination.then(|| read.where_part(|part, end| plain(part) == plain(end)))
        })
    }),
    ("any-device-read-for-each", true, |e| {
        e.given(|read| {
            let by_source = read.is_by_source();
            by_source.then(|| {
                read.where_part(|part, end| {
                    (part[..2] == end[..2] || any_device(part)) && part[2..] == end[2..]
                })
            })
        })
    }),
    ("any-device-reads-all", true, |e| {
        e.given(|read| {
            let all = read.is_by_source() && any_device(&read.end());
            all.then(|| read.where_part(|part, end| part[2..] == end[2..]))
        })
    }),
    ("any-unit-read-for-each", true, |e| {
        e.given(|read| {
            let with_unit = read.is_by_source() && read.payload.len() == 3;
            with_unit.then(|| {
                read.where_part(|part, end| {
                    part[..2] == end[..2] && (part[2] == end[2] || any_unit(part))
                })
            })
        })
    }),
    ("unit-of-a-source-ignored", true, |e| {
        e.given(|read| {
            let by_source = read.is_by_source();
            by_source.then(|| read.where_part(|part, end| part[..2] == end[..2]))
        })
    }),
    ("unit-of-a-destination-ignored", true, |e| {
        e.given(|read| {
            let by_destination = read.is_by_destination();
            by_destination.then(|| read.where_part(|part, end| part[..2] == end[..2]))
        })
    }),
    ("unit-of-a-group-ignored", true, |e| {
        e.given(|read| {
            let of_group = read.is_by_destination() && read.payload[0] >= 0x80;
            of_group.then(|| read.where_part(|part, end| part[..2] == end[..2]))
        })
    }),
    ("free-records-match-0xff", true, |e| {
        e.given(|read| {
            let mut given = read.records.clone();
            given.retain(|bind| read.part(bind) == read.payload);
            let free = !read.is_by_index() && read.payload.iter().all(|&octet| octet == 0xFF);
            free.then_some(given)
        })
    }),
    ("longer-payload-granted", true, |e| {
        let long = e
            .reading()
            .is_some_and(|(member, code)| member >= 0x09 && code == 0x02)
            && e.before[SENT].len() > 18
            && e.in_session();
        if long {
            e.tell(&[0x00, 0x00]);
        }
    }),
    ("read-not-served", true, |e| {
        if e.reading().is_some_and(|(member, _)| member >= 0x09) {
            e.after = e.before.clone();
            (e.outcome, e.count) = (18, 0);
        }
    }),
    ("start-not-served", true, |e| {
        if e.reading().is_some() {
            e.after = e.before.clone();
            (e.outcome, e.count) = (18, 0);
        }
    }),
    ("octets-behind-the-entries-written", false, |e| {
        if e.read(0x00).is_some() {
            let at = e.count as usize;
            e.after[REPLY][at] ^= 1;
        }
    }),
];
