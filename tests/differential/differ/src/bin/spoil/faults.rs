//! The faults: what each makes of the answers that it is about.

use super::exchange::{
    flip, highest, Exchange, ADMIT, BINDS, COPY, LIST, MEMBERS, MESSAGE, NEW, OLD, READ, RELEASE,
    REPLY, SENT, UNITS,
};

pub type Spoil = fn(&mut Exchange);

/// Name, whether a history alone must show it, and the fault.
pub type Fault = (&'static str, bool, Spoil);

pub const FAULTS: &[Fault] = &[
    ("unit-stored-too-high", true, |e| {
        if let Some(bind) = e.added_bind() {
            bind[7] = bind[7].wrapping_add(1);
        }
    }),
    ("group-flag-cut-off", true, |e| {
        if let Some(bind) = e.added_bind() {
            bind[5] &= 0x7F;
        }
    }),
    ("add-bind-only-pretends", true, |e| {
        if e.served(2, 1, 0) {
            e.after[BINDS] = e.before[BINDS].clone();
        }
    }),
    ("remove-only-pretends", true, |e| {
        if e.served(2, 2, 0) {
            e.after[BINDS] = e.before[BINDS].clone();
        }
    }),
    ("present-in-full-table-gets-fe", false, |e| {
        if e.served(2, 1, 2) && !e.before[BINDS].chunks(8).any(|bind| bind == [0xFF; 8]) {
            e.after[REPLY][15] = 0xFE;
        }
    }),
    ("delete-group-leaves-members", true, |e| {
        if e.served(3, 2, 0) {
            e.after[MEMBERS] = e.before[MEMBERS].clone();
        }
    }),
    ("member-count-too-high", true, |e| {
        if e.served(3, 5, 0) {
            let at = 17 + usize::from(e.after[REPLY][16]) + 1;
            e.after[REPLY][at] = e.after[REPLY][at].wrapping_add(1);
        }
    }),
    ("recipient-twice", true, |e| {
        let end = 3 * e.count as usize;
        if e.forwarded() && end + 3 <= e.after[LIST].len() {
            e.after[LIST].copy_within(end - 3..end, end);
            e.count += 1;
        }
    }),
    ("last-recipient-left-out", true, |e| {
        if e.forwarded() && e.count > 1 {
            e.count -= 1;
        }
    }),
    ("recipients-out-of-order", true, |e| {
        if e.forwarded() && e.count > 1 {
            e.after[LIST][..6].rotate_left(3);
        }
    }),
    ("nobody-told-as-forwarded", true, |e| {
        if e.call == MESSAGE && e.outcome == 2 {
            e.outcome = 1;
        }
    }),
    ("refusal-writes-the-reply", false, |e| {
        if e.call == MESSAGE && e.outcome >= 10 {
            if let Some(octet) = e.after[REPLY].first_mut() {
                *octet ^= 1;
            }
        }
    }),
    ("reply-one-octet-too-long", false, |e| {
        if e.call == MESSAGE && e.outcome == 0 {
            let at = e.count as usize;
            if let Some(octet) = e.after[REPLY].get_mut(at) {
                *octet ^= 1;
            }
        }
    }),
    ("unsound-before-room", false, |e| {
        if e.call == MESSAGE && e.outcome == 17 {
            e.outcome = 16;
        }
    }),
    ("admitted-before-range", false, |e| {
        if e.call == ADMIT && e.outcome == 20 {
            e.outcome = 21;
        }
    }),
    ("admit-only-pretends", true, |e| {
        if e.call == ADMIT && e.outcome == 0 {
            e.after = e.before.clone();
        }
    }),
    ("release-leaves-members", true, |e| {
        if e.call == RELEASE && e.outcome == 0 {
            e.after[MEMBERS] = e.before[MEMBERS].clone();
        }
    }),
    ("release-leaves-binds", true, |e| {
        if e.call == RELEASE && e.outcome == 0 {
            e.after[BINDS] = e.before[BINDS].clone();
        }
    }),
    ("copy-length-too-high", false, |e| {
        if e.call == COPY && e.outcome == 0 {
            e.count += 1;
        }
    }),
    ("copy-keeps-address-type", false, |e| {
        if e.call == COPY && e.outcome == 0 && e.before[0][3] & 0x80 != 0 {
            e.after[1][3] |= 0x80;
        }
    }),
    ("fields-out-of-place", false, |e| {
        if e.call == READ && e.outcome == 0 {
            e.after[1][..4].rotate_left(2);
        }
    }),
    ("highest-unit-not-admitted", true, |e| {
        if let Some(device) = e.admitted().filter(|device| highest(device) > 0) {
            flip(device, highest(device));
        }
    }),
    ("unit-past-the-highest-admitted", true, |e| {
        if let Some(device) = e.admitted().filter(|device| highest(device) < 254) {
            flip(device, highest(device) + 1);
        }
    }),
    // The first octet and the last stay, so that units 0 and 255 are as they must be.
    ("units-counted-from-the-top", true, |e| {
        if let Some(device) = e.admitted() {
            for octet in &mut device[5..35] {
                *octet = octet.reverse_bits();
            }
        }
    }),
    ("units-an-octet-too-far", true, |e| {
        if let Some(device) = e.admitted() {
            device[5..35].rotate_right(1);
        }
    }),
    ("octet-4-not-0", false, |e| {
        if let Some(device) = e.admitted() {
            device[3] = 1;
        }
    }),
    ("unit-255-let-in", false, |e| {
        if e.call == ADMIT && e.outcome == 20 && e.before[UNITS][31] >= 0x80 {
            e.outcome = 0;
        }
    }),
    ("gap-sends", true, |e| {
        if e.call == MESSAGE && e.outcome == 13 && e.in_gap(0) {
            e.outcome = 2;
        }
    }),
    ("gap-receives", true, |e| {
        if e.call == MESSAGE && e.outcome == 14 && e.in_gap(3) {
            e.after[LIST][..3].copy_from_slice(&e.before[SENT][3..6]);
            (e.outcome, e.count) = (1, 1);
        }
    }),
    ("gap-is-bound-to", true, |e| {
        if e.served(2, 1, 2) && e.in_gap(20) {
            e.after[REPLY][15] = 0;
        }
    }),
    ("highest-unit-not-carried", false, |e| {
        e.each_carried(|old, _, new| {
            if new != [0xFF; 36] {
                flip(new, old[3]);
            }
        })
    }),
    ("unit-past-the-highest-carried", false, |e| {
        e.each_carried(|old, _, new| {
            if new != [0xFF; 36] && old[3] < 254 {
                flip(new, old[3] + 1);
            }
        })
    }),
    ("free-carried-as-zeros", false, |e| {
        e.each_carried(|old, _, new| {
            if old == [0xFF; 4] {
                new.fill(0);
            }
        })
    }),
    ("free-left-as-lent", false, |e| {
        e.each_carried(|old, lent, new| {
            if old == [0xFF; 4] {
                new.copy_from_slice(lent);
            }
        })
    }),
    ("octet-4-left-as-lent", false, |e| {
        e.each_carried(|_, lent, new| new[3] = lent[3])
    }),
    ("last-octet-left-as-lent", false, |e| {
        e.each_carried(|_, lent, new| new[35] = lent[35])
    }),
    ("former-units-stay", false, |e| {
        e.each_carried(|_, lent, new| (4..36).for_each(|at| new[at] |= lent[at]))
    }),
    ("refused-carry-over-writes", false, |e| {
        if e.refused_carry_over() {
            if let Some(octet) = e.after[NEW].last_mut() {
                *octet ^= 1;
            }
        }
    }),
    ("length-before-old-table", false, |e| {
        if e.refused_carry_over() && e.before[NEW].len() != 9 * e.before[OLD].len() {
            e.outcome = 17;
        }
    }),
];
