//! What was met of the reasons ("CR 6"): each of the nine, and those that come before another one that holds too.

use crate::case::{Answer, Call, Case};

/// Which later reasons can hold beside one that is given, so that their order shows. Beside the others none can: a bind that is present keeps all
/// field rules, a unit bound to itself is told as absent if it is, and a destination is individual or a group.
const LATER: [(u8, &[u8]); 4] = [
    (2, &[3, 4, 5, 6, 7, 8]),
    (3, &[4, 5, 6, 7, 8]),
    (4, &[5, 6, 7]),
    (5, &[6]),
];

/// All that must come up.
pub fn all() -> Vec<String> {
    let nine = (1..=9).map(given);
    let pairs = LATER.iter().flat_map(|&(first, later)| {
        let later = later.iter();
        later.map(move |&later| before(first, later))
    });
    let further = [held_back(), of_concentrator(3), of_concentrator(6)];
    nine.chain(pairs).chain(further).collect()
}

fn given(reason: u8) -> String {
    format!("Add Bind code 02 for reason {reason}")
}

fn before(first: u8, later: u8) -> String {
    format!("reason {first} before {later}")
}

fn held_back() -> String {
    "Add Bind code 01 where a reason holds".into()
}

fn of_concentrator(reason: u8) -> String {
    format!("reason {reason} of D'0000")
}

/// What this case met.
pub fn met(case: &Case, answer: &Answer) -> Vec<String> {
    let (Call::Message { msg, .. }, Call::Message { reply, .. }) = (&case.call, &answer.call)
    else {
        return Vec::new();
    };
    if answer.outcome != 0 || msg[11..13] != [2, 1] {
        return Vec::new();
    }
    let (world, payload) = (&case.world, &msg[15..]);
    let holding = other_reading::reasons(&world.devices, &world.binds, &world.groups, payload);
    match (reply[15], answer.reason) {
        (0x01, 0) if !holding.is_empty() => vec![held_back()],
        (0x02, reason) => {
            let later = holding.iter().filter(|(later, _)| *later > reason);
            let mut met: Vec<_> = later.map(|(later, _)| before(reason, *later)).collect();
            met.push(given(reason));
            let named = match reason {
                3 => payload.get(..2),
                6 => payload.get(5..7),
                _ => None,
            };
            met.extend((named == Some(&[0, 0])).then(|| of_concentrator(reason)));
            met
        }
        _ => Vec::new(),
    }
}
