//! The faults of what closes sessions ("CR 1"): "any change to the bind table closes all sessions, and a release closes that device's".

use super::binds::any_device;
use super::exchange::{BINDS, MESSAGE};
use super::faults::Fault;
use super::reading::FREE;

pub const FAULTS: &[Fault] = &[
    ("add-leaves-sessions", true, |e| {
        if e.served(2, 1, 0) {
            e.leave_sessions();
        }
    }),
    ("remove-bind-leaves-sessions", true, |e| {
        if e.served(2, 2, 0) {
            e.leave_sessions();
        }
    }),
    ("removal-by-source-leaves-sessions", true, |e| {
        if e.served(2, 3, 0) || e.served(2, 4, 0) {
            e.leave_sessions();
        }
    }),
    ("removal-by-destination-leaves-sessions", true, |e| {
        if e.served(2, 5, 0) || e.served(2, 6, 0) {
            e.leave_sessions();
        }
    }),
    ("delete-group-leaves-sessions", true, |e| {
        if e.served(3, 2, 0) {
            e.leave_sessions();
        }
    }),
    ("delete-group-always-closes", true, |e| {
        if e.served(3, 2, 0) {
            e.close_sessions();
        }
    }),
    ("new-group-closes", true, |e| {
        if e.served(3, 1, 0) {
            e.close_sessions();
        }
    }),
    ("new-member-closes", true, |e| {
        if e.served(3, 3, 0) {
            e.close_sessions();
        }
    }),
    ("refused-change-closes", true, |e| {
        let refused = (1..=6).any(|member| e.served(2, member, 2)) || e.served(2, 1, 0xFE);
        if refused {
            e.close_sessions();
        }
    }),
    ("changer-stays-in-session", true, |e| {
        if e.call == MESSAGE && e.binds_changed() && e.in_session() {
            e.put_session(FREE, e.sender());
        }
    }),
    ("change-closes-the-changers-alone", true, |e| {
        if e.call == MESSAGE && e.binds_changed() {
            e.leave_sessions();
            e.put_session(e.sender(), FREE);
        }
    }),
    ("release-leaves-its-own-session", true, |e| {
        if let Some(device) = e.released().filter(|device| e.had_session(*device)) {
            e.put_session(FREE, device);
        }
    }),
    ("release-leaves-sessions-of-others", true, |e| {
        if let Some(device) = e.released() {
            e.leave_sessions();
            e.put_session(device, FREE);
        }
    }),
    ("release-always-closes", true, |e| {
        if e.released().is_some() {
            e.close_sessions();
        }
    }),
    ("release-of-a-reader-closes-all", true, |e| {
        if e.released().is_some_and(|device| e.had_session(device)) {
            e.close_sessions();
        }
    }),
    ("release-closes-for-any-device", true, |e| {
        if e.released().is_some() && e.after[BINDS].chunks(8).any(any_device) {
            e.close_sessions();
        }
    }),
    ("release-closes-for-a-group-of-that-number", false, |e| {
        let group = e.released().map(|[a1, a2]| [0x80 | a1, a2]);
        let mut binds = e.after[BINDS].chunks_exact(8);
        if group.is_some_and(|group| binds.any(|bind| bind[5..7] == group)) {
            e.close_sessions();
        }
    }),
];
