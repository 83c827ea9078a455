//! The faults of the reasons ("CR 6"): their order, their octets, and when none is given.

use super::binds::{any_device, any_unit};
use super::exchange::{Exchange, BINDS, DEVICES, GROUPS, MESSAGE, SENT};
use super::faults::Fault;

/// What a call that does not write reason or octet leaves there.
const STALE: u8 = 0xEE;

/// That 9 comes last shows nowhere: a bind that is present keeps all field rules.
pub const FAULTS: &[Fault] = &[
    ("reason-3-before-2", false, |e| e.out_of_turn(3, 2)),
    ("reason-4-before-2", false, |e| e.out_of_turn(4, 2)),
    ("reason-5-before-2", false, |e| e.out_of_turn(5, 2)),
    ("reason-6-before-2", false, |e| e.out_of_turn(6, 2)),
    ("reason-7-before-2", false, |e| e.out_of_turn(7, 2)),
    ("reason-8-before-2", false, |e| e.out_of_turn(8, 2)),
    ("reason-4-before-3", false, |e| e.out_of_turn(4, 3)),
    ("reason-5-before-3", false, |e| e.out_of_turn(5, 3)),
    ("reason-6-before-3", false, |e| e.out_of_turn(6, 3)),
    ("reason-7-before-3", false, |e| e.out_of_turn(7, 3)),
    ("reason-8-before-3", false, |e| e.out_of_turn(8, 3)),
    ("reason-5-before-4", false, |e| e.out_of_turn(5, 4)),
    ("reason-6-before-4", false, |e| e.out_of_turn(6, 4)),
    ("reason-7-before-4", false, |e| e.out_of_turn(7, 4)),
    ("reason-6-before-5", false, |e| e.out_of_turn(6, 5)),
    ("last-that-holds-given", false, |e| {
        if let (1.., Some(last)) = (e.why.0, e.holding().pop()) {
            e.why = last;
        }
    }),
    ("length-told-as-octet-1", false, |e| e.told_as(1, (1, 1))),
    ("length-told-as-the-octet-that-lacks", false, |e| {
        if e.why.0 == 1 && e.before[SENT].len() < 23 {
            e.why.1 = (e.before[SENT].len() - 14) as u8;
        }
    }),
    ("source-unit-at-its-device", false, |e| e.told_as(3, (3, 1))),
    ("unit-ff-at-its-device", false, |e| e.told_as(4, (4, 6))),
    ("destination-unit-at-its-device", false, |e| {
        e.told_as(6, (6, 6))
    }),
    ("group-at-its-unit", false, |e| e.told_as(7, (7, 8))),
    ("itself-at-the-source", false, |e| e.told_as(8, (8, 1))),
    ("present-without-an-octet", false, |e| e.told_as(9, (9, 0))),
    ("octet-without-a-reason", false, |e| e.why.0 = 0),
    ("reason-without-an-octet", false, |e| e.why.1 = 0),
    ("reason-and-octet-swapped", false, |e| {
        e.why = (e.why.1, e.why.0)
    }),
    ("octet-counted-from-0", false, |e| {
        e.why.1 = e.why.1.saturating_sub(1)
    }),
    ("octet-of-the-message", false, |e| {
        if e.why.0 > 0 {
            e.why.1 += 15;
        }
    }),
    ("present-without-a-reason", false, |e| e.told_as(9, (0, 0))),
    ("itself-told-as-present", false, |e| e.told_as(8, (9, 1))),
    ("group-told-as-device", false, |e| e.told_as(7, (5, 6))),
    ("device-told-as-group", false, |e| e.told_as(5, (7, 6))),
    ("unit-ff-of-a-group-told-as-absent-unit", false, |e| {
        if e.wrong_bind().is_some_and(|bind| bind[5] >= 0x80) {
            e.told_as(4, (6, 8));
        }
    }),
    ("concentrator-is-no-source", false, |e| {
        if e.wrong_bind().is_some_and(|bind| bind[..2] == [0, 0]) {
            e.told_as(3, (2, 1));
        }
    }),
    ("concentrator-is-no-destination", false, |e| {
        if e.wrong_bind().is_some_and(|bind| bind[5..7] == [0, 0]) {
            e.told_as(6, (5, 6));
        }
    }),
    ("any-device-told-as-absent", false, |e| {
        if e.wrong_bind().is_some_and(|bind| any_device(&bind)) {
            e.why = (2, 1);
        }
    }),
    ("any-unit-told-as-absent", false, |e| {
        if e.why.0 > 3 && e.wrong_bind().is_some_and(|bind| any_unit(&bind)) {
            e.why = (3, 3);
        }
    }),
    ("unit-beside-any-device-told-as-absent", false, |e| {
        let beside = |bind: [u8; 8]| any_device(&bind) && !any_unit(&bind);
        if e.wrong_bind().is_some_and(beside) {
            e.why = (3, 3);
        }
    }),
    ("any-unit-of-nobody-told-as-unit", false, |e| {
        if e.wrong_bind().is_some_and(|bind| any_unit(&bind)) {
            e.told_as(2, (3, 3));
        }
    }),
    ("top-bit-of-the-source-read", false, |e| {
        if e.wrong_bind().is_some() && e.before[SENT][15] >= 0x80 {
            e.why = (2, 1);
        }
    }),
    ("reason-at-00", false, |e| e.given_at(0x00, (9, 1))),
    ("reason-at-fe", false, |e| e.given_at(0xFE, (9, 1))),
    ("reason-asked-before-rights", false, |e| {
        if let Some(first) = e.holding().first() {
            e.given_at(0x01, *first);
        }
    }),
    ("length-asked-before-rights", false, |e| {
        if e.served(2, 1, 1) && e.before[SENT].len() != 23 {
            e.why = (1, 0);
        }
    }),
    ("remove-bind-has-a-reason", false, |e| {
        if e.served(2, 2, 2) {
            e.why = (1, 0);
        }
    }),
    ("add-to-group-has-a-reason", false, |e| {
        if e.served(3, 3, 2) {
            e.why = (7, 6);
        }
    }),
    ("length-of-group-info-has-a-reason", false, |e| {
        if e.served(3, 5, 2) && e.before[SENT].len() != 17 {
            e.why = (1, 0);
        }
    }),
    ("absent-sender-has-a-reason", false, |e| {
        if e.call == MESSAGE && e.outcome == 13 {
            e.why = (2, 1);
        }
    }),
    ("short-message-has-a-reason", false, |e| {
        if e.call == MESSAGE && e.outcome == 10 {
            e.why = (1, 0);
        }
    }),
    ("reason-not-written-at-a-refusal", false, |e| {
        if e.call == MESSAGE && e.outcome >= 10 {
            e.why.0 = STALE;
        }
    }),
    ("octet-not-written-at-a-refusal", false, |e| {
        if e.call == MESSAGE && e.outcome >= 10 {
            e.why.1 = STALE;
        }
    }),
    ("reason-not-written-without-room", false, |e| {
        if e.call == MESSAGE && e.outcome == 17 {
            e.why = (STALE, STALE);
        }
    }),
    ("reason-not-written-at-a-delivery", false, |e| {
        if e.forwarded() {
            e.why.0 = STALE;
        }
    }),
    ("octet-not-written-for-nobody", false, |e| {
        if e.call == MESSAGE && e.outcome == 2 {
            e.why.1 = STALE;
        }
    }),
    ("octet-of-the-length-not-written", false, |e| {
        e.told_as(1, (1, STALE))
    }),
    ("reason-left-from-the-call-before", false, |e| {
        if e.call == MESSAGE && e.why == (0, 0) {
            e.why = e.last;
        }
    }),
    ("octet-left-from-the-call-before", false, |e| {
        if e.call == MESSAGE && e.why == (0, 0) {
            e.why.1 = e.last.1;
        }
    }),
];

impl Exchange {
    /// The bind of an Add Bind that was answered 0x02.
    fn wrong_bind(&self) -> Option<[u8; 8]> {
        self.named(1, 2)
    }

    /// All reasons that hold of an Add Bind, whatever its code, in their order and each with its octet.
    fn holding(&self) -> Vec<(u8, u8)> {
        if self.call != MESSAGE || self.outcome != 0 || self.before[SENT][11..13] != [2, 1] {
            return Vec::new();
        }
        let [devices, binds, groups] = [DEVICES, BINDS, GROUPS].map(|table| &self.before[table]);
        other_reading::reasons(devices, binds, groups, &self.before[SENT][15..])
    }

    /// Gives the later of two reasons where both hold.
    fn out_of_turn(&mut self, later: u8, first: u8) {
        let mut holding = self.holding().into_iter();
        if let Some(later) = holding.find(|reason| reason.0 == later) {
            self.told_as(first, later);
        }
    }

    /// Gives another reason and octet in the place of a reason.
    fn told_as(&mut self, reason: u8, why: (u8, u8)) {
        if self.why.0 == reason {
            self.why = why;
        }
    }

    /// Gives a reason to an Add Bind that was answered with this code.
    fn given_at(&mut self, code: u8, why: (u8, u8)) {
        if self.served(2, 1, code) {
            self.why = why;
        }
    }
}
