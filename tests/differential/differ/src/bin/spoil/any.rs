//! The faults of the special values ("CR 4"): any device, any unit, any interface.

use super::binds::{any_device, any_interface, any_unit};
use super::exchange::{BINDS, RELEASE, REPLY, SENT};
use super::faults::Fault;

pub const FAULTS: &[Fault] = &[
    ("any-device-not-read", true, |e| {
        e.delivered_by(|b| b.equal[0] && b.unit() && b.uid() && b.same_type)
    }),
    ("any-unit-not-read", true, |e| {
        e.delivered_by(|b| b.device() && b.equal[1] && b.uid() && b.same_type)
    }),
    ("any-interface-not-read", true, |e| {
        e.delivered_by(|b| b.device() && b.unit() && b.equal[2] && b.same_type)
    }),
    ("any-device-read-as-any-unit", true, |e| {
        e.delivered_by(|b| b.device() && (b.unit() || b.any[0]) && b.uid() && b.same_type)
    }),
    ("any-unit-read-as-any-device", true, |e| {
        e.delivered_by(|b| (b.device() || b.any[1]) && b.unit() && b.uid() && b.same_type)
    }),
    ("any-interface-only-beside-any-device", true, |e| {
        e.delivered_by(|b| {
            let uid = b.equal[2] || b.any[2] && b.any[0];
            b.device() && b.unit() && uid && b.same_type
        })
    }),
    ("interface-type-ignored", true, |e| {
        e.delivered_by(|b| b.device() && b.unit() && b.uid())
    }),
    ("any-interface-of-any-type", true, |e| {
        e.delivered_by(|b| b.device() && b.unit() && b.uid() && (b.same_type || b.any[2]))
    }),
    ("message-of-any-interface", true, |e| {
        e.delivered_by(|b| {
            let uid = b.uid() || any_interface(&b.request[7..]);
            b.device() && b.unit() && uid && b.same_type
        })
    }),
    ("concentrator-is-not-any-device", true, |e| {
        e.delivered_by(|b| {
            let device = b.equal[0] || b.any[0] && b.request[..3] != [0, 0, 0];
            device && b.unit() && b.uid() && b.same_type
        })
    }),
    ("removal-takes-any-device-too", true, |e| {
        if e.named::<2>(3, 0).is_some() {
            e.freed(any_device);
        }
    }),
    ("removal-finds-any-device", true, |e| {
        let refused = e.named::<2>(3, 2).is_some() || e.named::<3>(4, 2).is_some();
        if refused && e.lent_bind(any_device) {
            e.freed(any_device);
            e.after[REPLY][15] = 0x00;
        }
    }),
    ("removal-by-any-device-takes-all", true, |e| {
        if e.named::<2>(3, 0).is_some_and(|source| any_device(&source)) {
            e.freed(|_| true);
        }
    }),
    ("removal-takes-any-unit-too", true, |e| {
        if let Some(source) = e.named::<3>(4, 0) {
            e.freed(|bind| bind[..2] == source[..2] && any_unit(bind));
        }
    }),
    ("removal-by-any-unit-takes-each", true, |e| {
        if let Some(source) = e.named::<3>(4, 0).filter(|source| any_unit(source)) {
            e.freed(|bind| bind[..2] == source[..2]);
        }
    }),
    ("remove-bind-takes-any-device-too", true, |e| {
        if let Some(wanted) = e.named::<8>(2, 0) {
            e.freed(|bind| any_device(bind) && bind[2..] == wanted[2..]);
        }
    }),
    ("release-takes-any-device", true, |e| {
        if e.call == RELEASE && e.outcome == 0 {
            e.freed(any_device);
        }
    }),
    ("release-leaves-any-unit", true, |e| {
        if e.call == RELEASE && e.outcome == 0 {
            let before = e.before[BINDS].chunks(8);
            for (after, before) in e.after[BINDS].chunks_mut(8).zip(before) {
                if any_unit(before) {
                    after.copy_from_slice(before);
                }
            }
        }
    }),
    ("unit-beside-any-device-refused", false, |e| {
        e.refused(|bind| any_device(bind) && !any_unit(bind))
    }),
    ("unit-254-beside-any-device-refused", false, |e| {
        e.refused(|bind| any_device(bind) && bind[2] == 254)
    }),
    ("any-unit-beside-a-device-refused", false, |e| {
        e.refused(|bind| any_unit(bind) && !any_device(bind))
    }),
    ("any-unit-of-the-concentrator-refused", false, |e| {
        e.refused(|bind| bind[..3] == [0, 0, 0xFF])
    }),
    ("any-interface-refused", false, |e| e.refused(any_interface)),
    ("any-unit-to-its-own-device-refused", false, |e| {
        e.refused(|bind| any_unit(bind) && bind[..2] == bind[5..7])
    }),
    ("absent-device-with-any-unit-let-in", true, |e| {
        let absent = |bind: &[u8; 8]| any_unit(bind) && !any_device(bind) && !e.is_device(bind);
        if e.named::<8>(1, 2).filter(absent).is_some() {
            e.after[REPLY][15] = 0x00;
        }
    }),
    ("any-device-stored-with-the-top-bit", true, |e| {
        if let Some(bind) = e.added_bind().filter(|bind| any_device(bind)) {
            bind[0] |= 0x80;
        }
    }),
    ("any-device-stored-as-the-sender", true, |e| {
        if e.named::<8>(1, 0).is_some_and(|bind| any_device(&bind)) {
            let sender = [e.before[SENT][0] & 0x7F, e.before[SENT][1]];
            if let Some(bind) = e.added_bind() {
                bind[..2].copy_from_slice(&sender);
            }
        }
    }),
    ("any-device-unsound", true, |e| e.unsound(any_device)),
    ("any-unit-unsound", true, |e| e.unsound(any_unit)),
    ("any-interface-unsound", true, |e| e.unsound(any_interface)),
    ("unit-254-beside-any-device-unsound", true, |e| {
        e.unsound(|bind| any_device(bind) && bind[2] == 254)
    }),
    ("any-device-sound-with-the-top-bit", false, |e| {
        if e.outcome == 16 && e.lent_bind(|bind| bind[..2] == [0xFF, 0xFF]) {
            e.outcome = 2;
        }
    }),
    ("absent-device-sound-with-any-unit", false, |e| {
        let absent = |bind: &[u8]| any_unit(bind) && !any_device(bind) && !e.is_device(bind);
        if e.outcome == 16 && e.lent_bind(absent) {
            e.outcome = 2;
        }
    }),
];
