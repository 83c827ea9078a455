//! What was met of the special values ("CR 4"): requests that came by them, and commands
//! and releases that had to do with them.

use crate::case::{Answer, Call, World};
use crate::generate::{used, word};
use crate::history::{matches, said};

/// What a bind may say, in the order of `said`.
const ANY: [&str; 3] = ["any device", "any unit", "any interface"];

/// A command whose payload begins with a bind's source.
struct Command {
    member: u8,
    name: &'static str,
    /// Octets of its payload, and how many of the three stand in it.
    length: usize,
    fields: usize,
    /// What it can answer to one that has the rights.
    codes: &'static [u8],
}

const COMMANDS: [Command; 4] = [
    Command {
        member: 1,
        name: "Add Bind",
        length: 8,
        fields: 3,
        codes: &[0x00, 0x02, 0xFE],
    },
    Command {
        member: 2,
        name: "Remove Bind",
        length: 8,
        fields: 3,
        codes: &[0x00, 0x02],
    },
    Command {
        member: 3,
        name: "Remove by source",
        length: 2,
        fields: 1,
        codes: &[0x00, 0x02],
    },
    Command {
        member: 4,
        name: "Remove by source with unit",
        length: 3,
        fields: 2,
        codes: &[0x00, 0x02],
    },
];

/// All that must come up.
pub fn all() -> Vec<String> {
    let mut all = vec![left_by_release()];
    for any in ANY {
        all.extend([delivered(any), told_apart(any)]);
    }
    for command in COMMANDS {
        for any in &ANY[..command.fields] {
            let codes = command.codes.iter();
            all.extend(codes.map(|code| answered(command.name, any, *code)));
        }
    }
    all
}

/// What this answer met.
pub fn met(answer: &Answer) -> Vec<String> {
    match (&answer.call, answer.outcome) {
        (Call::Message { msg, reply, .. }, 0) if msg[11] == 2 => {
            by_command(msg[12], &msg[15..], reply[15])
        }
        (Call::Message { msg, .. }, 1 | 2) if msg.get(3..6) == Some(&[0x7F, 0xFF, 0xFF]) => {
            by_request(&answer.world, msg, answer.outcome == 1)
        }
        (Call::Release { .. }, 0) => {
            let mut binds = used(&answer.world.binds).into_iter();
            let left = binds.any(|bind| said(&bind)[0].is_none());
            Vec::from_iter(left.then(left_by_release))
        }
        _ => Vec::new(),
    }
}

fn left_by_release() -> String {
    "release that leaves a bind of any device".into()
}

fn delivered(any: &str) -> String {
    format!("request delivered by {any} alone")
}

fn told_apart(any: &str) -> String {
    format!("request of the other role, not delivered by {any}")
}

fn answered(command: &str, any: &str, code: u8) -> String {
    format!("{command} of {any} code {code:02X}")
}

fn by_command(member: u8, payload: &[u8], code: u8) -> Vec<String> {
    let mut commands = COMMANDS.iter();
    let Some(command) =
        commands.find(|there| (there.member, there.length) == (member, payload.len()))
    else {
        return Vec::new();
    };
    let mut bind = [0; 8];
    bind[..payload.len()].copy_from_slice(payload);
    bind[0] &= 0x7F;
    let fields = ANY.into_iter().zip(said(&bind)).take(command.fields);
    let any = fields.filter(|(_, said)| said.is_none());
    any.map(|(any, _)| answered(command.name, any, code))
        .collect()
}

/// A request to the bind address. It was delivered by any device alone if all binds that
/// match say so, and told apart if it was not delivered and such a bind would match in
/// the other role.
fn by_request(world: &World, msg: &[u8], forwarded: bool) -> Vec<String> {
    let sender = (word(msg, 0) & 0x7FFF, msg[2]);
    let role = if forwarded { 0 } else { 0x8000 };
    let mut binds = used(&world.binds);
    binds.retain(|bind| matches(bind, sender, word(msg, 10) ^ role));
    let mut met = Vec::new();
    for (at, any) in ANY.into_iter().enumerate() {
        let mut says = binds.iter().map(|bind| said(bind)[at].is_none());
        if forwarded && says.all(|any| any) {
            met.push(delivered(any));
        } else if !forwarded && says.any(|any| any) {
            met.push(told_apart(any));
        }
    }
    met
}
