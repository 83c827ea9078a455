//! The faults of session tables that are sound or are not ("CR 1"): "at most 8, free ones 0xFF, none twice, each admitted or D'0000".

use super::exchange::{Exchange, ADMIT, MESSAGE, RELEASE, SENT, SESSIONS};
use super::faults::Fault;
use super::reading::FREE;

pub const FAULTS: &[Fault] = &[
    ("no-session-record-unsound", true, |e| {
        e.sessions_unsound(|_, sessions| sessions.is_empty())
    }),
    ("fewer-than-eight-records-unsound", true, |e| {
        e.sessions_unsound(|_, sessions| (2..16).contains(&sessions.len()))
    }),
    ("session-of-the-concentrator-unsound", true, |e| {
        e.sessions_unsound(|e, _| e.had_session([0, 0]))
    }),
    ("session-without-rights-unsound", false, |e| {
        e.sessions_unsound(|e, sessions| {
            let mut sessions = sessions.chunks_exact(2);
            sessions.any(|there| there != FREE && !e.has_rights(there))
        })
    }),
    ("odd-length-sound", false, |e| {
        e.sessions_sound(|_, sessions| sessions.len() % 2 == 1)
    }),
    ("nine-records-sound", false, |e| {
        e.sessions_sound(|_, sessions| sessions.len() == 18)
    }),
    ("session-twice-sound", false, |e| {
        e.sessions_sound(|_, sessions| {
            let mut used: Vec<_> = sessions.chunks(2).filter(|there| *there != FREE).collect();
            let all = used.len();
            used.sort();
            used.dedup();
            used.len() < all
        })
    }),
    ("session-of-nobody-sound", false, |e| {
        e.sessions_sound(|e, sessions| {
            let mut sessions = sessions.chunks_exact(2);
            sessions.any(|there| there[0] < 0x80 && !e.is_device(there))
        })
    }),
    ("session-with-the-top-bit-sound", false, |e| {
        e.sessions_sound(|e, sessions| {
            let mut sessions = sessions.chunks_exact(2);
            sessions.any(|there| there[0] >= 0x80 && e.is_device(&[there[0] & 0x7F, there[1]]))
        })
    }),
    ("sessions-not-asked-at-admission", false, |e| {
        if e.call == ADMIT {
            e.sessions_sound(is_unsound)
        }
    }),
    ("sessions-not-asked-at-release", false, |e| {
        if e.call == RELEASE {
            e.sessions_sound(is_unsound)
        }
    }),
    ("sessions-asked-behind-the-message", false, |e| {
        let short = e.call == MESSAGE && e.outcome == 16 && e.before[SENT].len() < 15;
        if short && is_unsound(e, &e.before[SESSIONS]) {
            e.outcome = 10;
        }
    }),
];

/// Whether the sessions are not sound by their length or by a device that is not there.
fn is_unsound(e: &Exchange, sessions: &[u8]) -> bool {
    let mut records = sessions.chunks_exact(2);
    sessions.len() % 2 == 1
        || sessions.len() > 16
        || records.any(|there| there != FREE && !e.is_device(there))
}
