//! Random single calls, each compared in full with the other reading.

use crate::case::{Call, Case, World};
use crate::generate::{self, View, BIND};
use crate::rng::Rng;
use crate::tally::Tally;

/// Calls that one set of grown tables is used for.
const GROWTH: usize = 250;

pub fn try_calls(rng: &mut Rng, calls: usize, tally: &mut Tally) -> Result<(), String> {
    let mut grown = generate::free_world(rng);
    for at in 0..calls {
        if at % GROWTH == 0 {
            grown = match rng.below(20) {
                0 => generate::crowded_world(rng),
                1..=10 => generate::free_world(rng),
                _ => generate::constructed_world(rng),
            };
        }
        let growing = rng.percent(60);
        let world = if growing {
            grown.clone()
        } else {
            some_world(rng, &grown)
        };
        let case = Case {
            call: some_call(rng, &world),
            world,
        };
        tally.before(&case);
        let answer = case
            .compared()
            .map_err(|report| format!("call {at}: {report}"))?;
        tally.after(&case, &answer);
        if growing {
            grown = answer.world;
        }
    }
    Ok(())
}

fn some_world(rng: &mut Rng, grown: &World) -> World {
    let mut world = match rng.below(20) {
        0 => return generate::random_world(rng),
        1 => generate::crowded_world(rng),
        2..=9 => generate::constructed_world(rng),
        _ => grown.clone(),
    };
    if rng.percent(55) {
        generate::spoil(rng, &mut world);
    }
    if rng.percent(5) {
        generate::spoil(rng, &mut world);
    }
    world
}

fn some_call(rng: &mut Rng, world: &World) -> Call {
    let view = View::of(world);
    match rng.below(100) {
        0..=7 => admit(rng),
        8..=11 => Call::Release {
            address: view.to_release(rng),
        },
        12..=15 => {
            let msg = some_message(rng, &view);
            copy(rng, msg)
        }
        16..=18 => {
            let words: Vec<u16> = (0..12).map(|_| rng.word()).collect();
            let fields = words.try_into().unwrap();
            Call::Read {
                msg: some_message(rng, &view),
                fields,
            }
        }
        19..=21 => {
            let old = generate::old_devices(rng);
            let new = generate::new_devices(rng, &old, world);
            Call::CarryOver { old, new }
        }
        _ => {
            let msg = some_message(rng, &view);
            message(rng, world, msg)
        }
    }
}

fn some_message(rng: &mut Rng, view: &View) -> Vec<u8> {
    let mut msg = match rng.below(20) {
        0 => {
            let length = rng.below(40);
            rng.octets(length)
        }
        // A read matches more than a reply holds.
        1..=10 if view.bind_count() > 60 => view.reading_command(rng),
        1..=6 => view.forward(rng),
        7..=12 => view.any_command(rng),
        _ => view.command(rng),
    };
    if rng.percent(12) {
        generate::damage(rng, &mut msg);
    }
    msg
}

/// Least length of the list for these tables (outcome 17).
pub fn least_list(world: &World) -> usize {
    3 * (world.binds.len() / 8 + world.members.len() / 5).max(1)
}

fn message(rng: &mut Rng, world: &World, msg: Vec<u8>) -> Call {
    let reply = match rng.below(60) {
        0 => 499,
        1 => rng.below(500),
        2 => 0,
        3 => 501 + rng.below(100),
        4 => 0x1_0000 + rng.below(2),
        // Room for an entry more than a reply holds.
        5..=14 if world.binds.len() > 60 * BIND => 505 + rng.below(8),
        _ => 500,
    };
    let least = least_list(world);
    let list = match rng.below(60) {
        0 => least - 1,
        1 => rng.below(least),
        2 => 0,
        3..=10 => least + rng.below(100),
        _ => least,
    };
    Call::Message {
        msg,
        reply: rng.octets(reply),
        list: rng.octets(list),
    }
}

pub fn admit(rng: &mut Rng) -> Call {
    let address = match rng.below(30) {
        0 => 0,
        1 => 0x7FFF,
        2 => 0x8001,
        3 => 0xFFFF,
        4 => rng.word(),
        5..=12 => 1 + rng.word() % 90,
        _ => generate::some_address(rng),
    };
    let rights = rng.weighted(&[(60, 1), (35, 0), (3, 2), (2, 255)]);
    Call::Admit {
        address,
        rights,
        units: generate::perhaps_set(rng),
    }
}

fn copy(rng: &mut Rng, msg: Vec<u8>) -> Call {
    let room = match rng.below(10) {
        0 => msg.len().saturating_sub(1),
        1 => rng.below(600),
        2 => 0,
        3..=5 => msg.len(),
        _ => msg.len() + rng.below(20),
    };
    let device = match rng.below(10) {
        0 => 0x7FFF,
        1 => 0x8000 | rng.word(),
        2 => 0x7FFE,
        3 => 0,
        _ => rng.word() & 0x7FFF,
    };
    let unit = rng.weighted(&[(10, 0xFF), (10, 0xFE), (10, 0), (70, 3)]);
    Call::Copy {
        msg,
        room: rng.octets(room),
        device,
        unit,
    }
}
