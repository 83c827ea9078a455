//! Counts what was tried, so that a test that tried nothing shows.

mod any;
mod reading;
mod reason;
mod unsound;

use crate::case::{Answer, Call, Case};
use crate::generate::COMMANDS;
use std::collections::BTreeMap;

#[derive(Default)]
pub struct Tally {
    pub calls: usize,
    /// Prints each case before it is made, to find one that ends the program.
    each: bool,
    outcomes: BTreeMap<(&'static str, u8), usize>,
    codes: BTreeMap<((u8, u8), u8), usize>,
    any: BTreeMap<String, usize>,
    reason: BTreeMap<String, usize>,
    reading: BTreeMap<String, usize>,
}

/// What runs alone meet of reading binds back.
const SHUT_OUT: &str = "read refused because another device changed binds";

impl Tally {
    pub fn new(each: bool) -> Tally {
        Tally {
            each,
            ..Tally::default()
        }
    }

    pub fn before(&mut self, case: &Case) {
        if self.each {
            eprint!("call {}\n{case}", self.calls);
        }
        self.calls += 1;
    }

    /// A read was refused because another device changed binds.
    pub fn shut_out(&mut self) {
        *self.reading.entry(SHUT_OUT.into()).or_default() += 1;
    }

    pub fn after(&mut self, case: &Case, answer: &Answer) {
        let name = match &answer.call {
            Call::Message { .. } => "message",
            Call::Admit { .. } => "admit",
            Call::Release { .. } => "release",
            Call::Copy { .. } => "copy",
            Call::Read { .. } => "read",
            Call::CarryOver { .. } => "carry_over",
        };
        *self.outcomes.entry((name, answer.outcome)).or_default() += 1;
        if let (Call::Message { msg, reply, .. }, 0) = (&answer.call, answer.outcome) {
            *self
                .codes
                .entry(((msg[11], msg[12]), reply[15]))
                .or_default() += 1;
        }
        for met in any::met(answer) {
            *self.any.entry(met).or_default() += 1;
        }
        for met in reason::met(case, answer) {
            *self.reason.entry(met).or_default() += 1;
        }
        let unsound = unsound::met(case, answer);
        for met in reading::met(case, answer).into_iter().chain(unsound) {
            *self.reading.entry(met).or_default() += 1;
        }
    }

    pub fn print(&self) {
        for ((name, outcome), times) in &self.outcomes {
            println!("  {name} outcome {outcome}: {times}");
        }
        for (((uid, member), code), times) in &self.codes {
            println!("  command {uid:02X}.{member:02X} code {code:02X}: {times}");
        }
        for (met, times) in self.any.iter().chain(&self.reason).chain(&self.reading) {
            println!("  {met}: {times}");
        }
    }

    /// Outcomes and codes of the paper that never came up, and ways in which sessions are not sound.
    pub fn missing(&self) -> Vec<String> {
        let outcomes: [(&'static str, &[u8]); 6] = [
            ("message", &[0, 1, 2, 10, 11, 12, 13, 14, 15, 16, 17, 18]),
            ("admit", &[0, 16, 20, 21, 22]),
            ("release", &[0, 16, 23]),
            ("copy", &[0, 10, 11, 12, 19]),
            ("read", &[0, 10, 11, 12]),
            ("carry_over", &[0, 16, 17]),
        ];
        let mut missing = Vec::new();
        for (name, numbers) in outcomes {
            let never = numbers
                .iter()
                .filter(|&&number| !self.outcomes.contains_key(&(name, number)));
            missing.extend(never.map(|number| format!("{name} outcome {number}")));
        }
        for command in COMMANDS {
            let codes = codes_of(command).iter();
            let never = codes.filter(|&&code| !self.codes.contains_key(&(command, code)));
            missing.extend(never.map(|code| format!("command {command:02X?} code {code:02X}")));
        }
        let mut unsound = unsound::all();
        unsound.retain(|name| !self.reading.contains_key(name));
        missing.extend(unsound);
        missing
    }

    /// What never came up of the special values, of the reasons and of reading binds back, which runs meet as single calls do.
    pub fn missing_of_requests(&self) -> Vec<String> {
        let mut missing = any::all();
        missing.retain(|name| !self.any.contains_key(name));
        let mut of_reason = reason::all();
        of_reason.retain(|name| !self.reason.contains_key(name));
        missing.extend(of_reason);
        let mut of_reading = reading::all();
        of_reading.retain(|name| !self.reading.contains_key(name));
        missing.extend(of_reading);
        missing
    }

    /// What runs alone meet and never came up.
    pub fn missing_of_runs(&self) -> Vec<String> {
        let met = self.reading.contains_key(SHUT_OUT);
        Vec::from_iter((!met).then(|| SHUT_OUT.into()))
    }
}

/// The codes that a command can answer ("Commands and codes"; "CR 1").
fn codes_of(command: (u8, u8)) -> &'static [u8] {
    match command {
        (2, 1 | 7) | (3, 1) | (3, 3) => &[0x00, 0x01, 0x02, 0xFE],
        (2, 8) => &[0x00, 0x02, 0xFF],
        (2, 9..) => &[0x00, 0x02, 0x20],
        (3, 5) => &[0x00, 0x02],
        _ => &[0x00, 0x01, 0x02],
    }
}
