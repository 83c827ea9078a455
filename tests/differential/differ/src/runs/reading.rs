//! Runs in which several devices read while another changes binds ("CR 1"): by Add Bind, by each removal, by Delete Group with a bind to it and without,
//! and by the release of a reader, of a device that a bind names, and of one that none names.

use super::Runs;
use crate::case::{Call, World};
use crate::generate::{View, BIND, DEVICE, MOST};
use crate::rng::Rng;
use crate::single::admit;

/// What a run is made of.
#[derive(Clone, Copy, PartialEq)]
pub(super) enum Kind {
    /// All commands, each as often as its weight says.
    Mixed,
    /// Most are reads, and few change binds.
    Reading,
    /// Most are reads that match more binds than a reply holds.
    ReadingMany,
}

/// Binds that a run fills its table up to before it reads.
const SOME_BINDS: usize = 8;
/// With so many a read that matches all gives fewer than match.
const MANY_BINDS: usize = 62;

/// Calls of a run before which most are admissions, before which many are new groups, and before which many are new binds.
const ADMISSIONS: usize = 20;
const GROUPS: usize = 24;
const FILLED: usize = 50;

/// So many calls make a round, at whose beginning so many change nothing, so that as many read as there are session records.
const ROUND: usize = 70;
const QUIET: usize = 35;

/// A change that is no command.
const RELEASE: (u8, u8) = (0, 0);

/// What changes binds or groups, and how often: what takes one bind, or a group that may have none, more often than what takes many.
const CHANGES: [(usize, (u8, u8)); 9] = [
    (18, (2, 1)),
    (12, (2, 2)),
    (3, (2, 3)),
    (4, (2, 4)),
    (4, (2, 5)),
    (5, (2, 6)),
    (18, (3, 1)),
    (22, (3, 2)),
    (24, RELEASE),
];

pub(super) fn some_kind(rng: &mut Rng) -> Kind {
    rng.weighted(&[
        (64, Kind::Mixed),
        (20, Kind::Reading),
        (16, Kind::ReadingMany),
    ])
}

/// Free tables for such a run: devices enough to take all session records, and for reads that match many, bind records for more than a reply holds.
pub(super) fn make_room(world: &mut World, kind: Kind) {
    if kind != Kind::Mixed {
        world.devices.resize(DEVICE * MOST[0], 0xFF);
    }
    if kind == Kind::ReadingMany {
        world.binds.resize(BIND * MOST[1], 0xFF);
    }
}

impl Runs<'_> {
    pub(super) fn reading_call(&mut self, world: &World, at: usize, kind: Kind) -> Call {
        let rng = &mut *self.rng;
        let view = View::of(world);
        if rng.percent(if at < ADMISSIONS { 80 } else { 3 }) {
            return admit(rng);
        }
        let alike = kind == Kind::ReadingMany;
        let filling = if alike {
            view.bind_count() < MANY_BINDS
        } else {
            view.bind_count() < SOME_BINDS && at < FILLED
        };
        let changes = if at % ROUND < QUIET { 0 } else { 16 };
        let msg = match rng.below(100) {
            0..=49 if (ADMISSIONS..GROUPS).contains(&at) => view.command_of(rng, (3, 1)),
            0..=74 if filling => view.addition(rng, alike),
            _ if rng.percent(changes) => match rng.weighted(&CHANGES) {
                RELEASE => {
                    return Call::Release {
                        address: view.to_release(rng),
                    }
                }
                change => view.command_of(rng, change),
            },
            0..=2 => view.command(rng),
            3..=5 => view.forward(rng),
            _ => view.reading_command(rng),
        };
        self.message(world, msg)
    }
}
