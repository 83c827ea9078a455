//! Measures the part and the other reading on the same calls.
//!
//! bench names|order-names|growth-names  the cases, one a line
//! bench count CASE part|other|nothing  lends the tables and makes the case's call, ten times; `nothing` makes no call, and is what to take off
//! bench time   nanoseconds a call, for every case: part, other

mod case;

use case::{Call, Case, State};
use std::hint::black_box;
use std::process::ExitCode;
use std::time::Instant;

#[derive(Clone, Copy, PartialEq)]
enum Reading {
    Part,
    Other,
    Nothing,
}

/// How often `bench count` makes a call.
const COUNTED: usize = 10;

fn part(state: &mut State, call: &Call) -> (u8, usize) {
    let State {
        devices,
        binds,
        groups,
        members,
        sessions,
        reply,
        list,
    } = state;
    match call {
        Call::Message(octets) => {
            let (outcome, count, _) = gneissfold::message(
                devices, binds, groups, members, sessions, octets, reply, list,
            );
            (outcome.number(), count)
        }
        Call::Release(address) => (
            gneissfold::release(devices, binds, groups, members, sessions, *address).number(),
            0,
        ),
        Call::CarryOver(old) => (gneissfold::carry_over(old, devices).number(), 0),
    }
}

fn other(state: &mut State, call: &Call) -> (u8, usize) {
    let State {
        devices,
        binds,
        groups,
        members,
        sessions,
        reply,
        list,
    } = state;
    let (mut count, mut reason, mut octet) = (0, 0, 0);
    let outcome = match call {
        Call::Message(octets) => other_reading::message(
            devices,
            binds,
            groups,
            members,
            sessions,
            octets,
            reply,
            list,
            &mut count,
            &mut reason,
            &mut octet,
        ),
        Call::Release(address) => {
            other_reading::release(devices, binds, groups, members, sessions, *address)
        }
        Call::CarryOver(old) => other_reading::carry_over(old, devices),
    };
    (outcome, count)
}

#[inline(never)]
fn once(reading: Reading, state: &mut State, case: &Case) {
    let answer = match black_box(reading) {
        Reading::Part => part(black_box(state), black_box(&case.call)),
        Reading::Other => other(black_box(state), black_box(&case.call)),
        Reading::Nothing => black_box(case.answer),
    };
    assert_eq!(answer, case.answer, "{}", case.name);
}

fn lend(to: &mut State, from: &State) {
    to.devices.copy_from_slice(&from.devices);
    to.binds.copy_from_slice(&from.binds);
    to.members.copy_from_slice(&from.members);
}

/// Nanoseconds of one call: the least of ten rounds, less what lending the tables anew takes.
fn nanoseconds(reading: Reading, case: &Case) -> f64 {
    const CALLS: u32 = 2_000;
    let mut state = case.state.clone();
    let mut least = f64::MAX;
    let mut lending = f64::MAX;
    for _ in 0..10 {
        let begun = Instant::now();
        for _ in 0..CALLS {
            lend(black_box(&mut state), black_box(&case.state));
            once(reading, &mut state, case);
        }
        least = least.min(begun.elapsed().as_secs_f64());
        let begun = Instant::now();
        for _ in 0..CALLS {
            lend(black_box(&mut state), black_box(&case.state));
        }
        lending = lending.min(begun.elapsed().as_secs_f64());
    }
    (least - lending) * 1e9 / f64::from(CALLS)
}

fn all() -> Vec<Case> {
    let mut cases = case::cases();
    cases.extend(case::orders());
    cases.extend(case::growth());
    cases
}

fn main() -> ExitCode {
    let words: Vec<String> = std::env::args().skip(1).collect();
    let words: Vec<&str> = words.iter().map(String::as_str).collect();
    match words[..] {
        ["names"] => case::cases()
            .iter()
            .for_each(|case| println!("{}", case.name)),
        ["order-names"] => case::orders()
            .iter()
            .for_each(|case| println!("{}", case.name)),
        ["growth-names"] => case::growth()
            .iter()
            .for_each(|case| println!("{}", case.name)),
        ["count", name, reading @ ("part" | "other" | "nothing")] => {
            let case = all()
                .into_iter()
                .find(|case| case.name == name)
                .expect("a case's name");
            let reading = match reading {
                "part" => Reading::Part,
                "other" => Reading::Other,
                _ => Reading::Nothing,
            };
            let mut state = case.state.clone();
            for _ in 0..COUNTED {
                lend(black_box(&mut state), black_box(&case.state));
                once(reading, &mut state, &case);
            }
        }
        ["time"] => {
            for case in all() {
                let part = nanoseconds(Reading::Part, &case);
                let other = nanoseconds(Reading::Other, &case);
                println!("{}\t{part:.0}\t{other:.0}", case.name);
            }
        }
        _ => {
            eprintln!(
                "usage: bench names|order-names|growth-names|count CASE part|other|nothing|time"
            );
            return ExitCode::from(2);
        }
    }
    ExitCode::SUCCESS
}
