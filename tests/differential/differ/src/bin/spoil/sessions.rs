//! The faults of read sessions ("CR 1"): who may start and end one, and who may read.

use super::exchange::{BINDS, REPLY, SENT, SESSIONS};
use super::faults::Fault;
use super::reading::{entries, END, FREE, READS, START};

pub const FAULTS: &[Fault] = &[
    ("second-start-takes-a-second-record", true, |e| {
        if e.served(2, START, 0) && e.in_session() {
            e.put_session(FREE, e.sender());
        }
    }),
    ("second-start-refused", true, |e| {
        if e.served(2, START, 0) && e.in_session() {
            e.refuse(0xFE);
        }
    }),
    ("start-only-pretends", true, |e| {
        if e.served(2, START, 0) {
            e.leave_sessions();
        }
    }),
    ("start-takes-the-last-free-record", false, |e| {
        if e.served(2, START, 0) && !e.in_session() {
            e.leave_sessions();
            let sender = e.sender();
            let mut sessions = e.after[SESSIONS].chunks_exact_mut(2);
            let last = sessions.rfind(|record| *record == FREE);
            last.expect("a free record").copy_from_slice(&sender);
        }
    }),
    ("start-takes-the-record-of-another", true, |e| {
        if e.served(2, START, 0xFE) && e.anybody_read() {
            let sender = e.sender();
            e.after[SESSIONS][..2].copy_from_slice(&sender);
            e.tell_number();
        }
    }),
    ("start-leaves-one-record-free", true, |e| {
        if e.served(2, START, 0) && !e.in_session() && !e.leaves_room() {
            e.refuse(0xFE);
        }
    }),
    ("start-without-rights", true, |e| {
        let alone = e.served(2, START, 1) && e.before[SENT].len() == 15;
        if alone && (e.in_session() || e.put_session(FREE, e.sender())) {
            e.tell_number();
        }
    }),
    ("start-of-the-concentrator-refused", true, |e| {
        if e.served(2, START, 0) && e.sender() == [0, 0] {
            e.refuse(0x01);
        }
    }),
    ("start-closes-the-others", true, |e| {
        if e.served(2, START, 0) {
            e.close_sessions();
            e.put_session(FREE, e.sender());
        }
    }),
    ("start-of-any-length", true, |e| {
        if e.served(2, START, 2) && (e.in_session() || e.put_session(FREE, e.sender())) {
            e.tell_number();
        }
    }),
    ("length-before-rights", true, |e| {
        if e.served(2, START, 1) && e.before[SENT].len() > 15 {
            e.tell(&[0x02]);
        }
    }),
    ("no-room-before-length", true, |e| {
        if e.served(2, START, 2) && !e.in_session() && !e.leaves_room() {
            e.tell(&[0xFE]);
        }
    }),
    ("session-before-length", true, |e| match e.reading() {
        Some((END, 0x02)) if !e.in_session() => e.tell(&[0xFF]),
        Some((0x09.., 0x02)) if !e.in_session() => e.tell(&[0x20]),
        _ => (),
    }),
    ("start-counts-all-records", true, |e| {
        if e.served(2, START, 0) {
            let records = e.before[BINDS].len() / 8;
            e.tell(&[0x00, 0x00, records as u8]);
        }
    }),
    ("start-number-in-one-octet", true, |e| {
        if e.served(2, START, 0) {
            let number = e.after[REPLY][17];
            e.tell(&[0x00, number]);
        }
    }),
    ("start-number-least-octet-first", true, |e| {
        if e.served(2, START, 0) {
            e.after[REPLY][16..18].rotate_left(1);
        }
    }),
    ("end-only-pretends", true, |e| {
        if e.served(2, END, 0) {
            e.leave_sessions();
        }
    }),
    ("end-closes-all", true, |e| {
        if e.served(2, END, 0) {
            e.close_sessions();
        }
    }),
    ("end-without-a-session-done", true, |e| {
        if e.served(2, END, 0xFF) {
            e.tell(&[0x00]);
        }
    }),
    ("end-without-a-session-as-a-read", true, |e| {
        if e.served(2, END, 0xFF) {
            e.tell(&[0x20]);
        }
    }),
    ("end-ends-that-of-another", true, |e| {
        if e.served(2, END, 0xFF) && e.anybody_read() {
            e.close_sessions();
            e.tell(&[0x00]);
        }
    }),
    ("rights-asked-at-the-end", true, |e| {
        if e.reading().is_some_and(|(member, _)| member == END) && !e.has_rights(&e.sender()) {
            e.refuse(0x01);
        }
    }),
    ("rights-asked-at-a-read", true, |e| {
        let read = e
            .reading()
            .is_some_and(|(member, _)| READS.contains(&member));
        if read && !e.has_rights(&e.sender()) {
            e.refuse(0x01);
        }
    }),
    ("read-without-a-session", true, |e| {
        if let Some(read) = e.read(0x20) {
            e.tell(&entries(&read.due()));
        }
    }),
    ("read-in-the-session-of-another", true, |e| {
        if let Some(read) = e.read(0x20).filter(|_| e.anybody_read()) {
            e.tell(&entries(&read.due()));
        }
    }),
    ("read-without-a-session-as-an-end", true, |e| {
        if e.read(0x20).is_some() {
            e.tell(&[0xFF]);
        }
    }),
    ("read-without-a-session-told-as-modified", true, |e| {
        if e.read(0x20).is_some() {
            e.tell(&[0x21]);
        }
    }),
    ("read-ends-the-session", true, |e| {
        if e.read(0x00).is_some() {
            e.put_session(e.sender(), FREE);
        }
    }),
];
