//! The part behind its pipe (`part.c`), and nothing else: the environment's GNEISSFOLD_PART is the command that starts it.

use std::cell::RefCell;
use std::io::{Read, Write};
use std::process::{Child, ChildStdin, ChildStdout, Command, Stdio};

/// The outcome by which `part.c` says that octets beside a lent slice were written.
pub const WRITTEN: u8 = 255;

struct Part {
    // Kept so that the process is not left behind.
    _process: Child,
    requests: ChildStdin,
    answers: ChildStdout,
}

impl Part {
    fn start() -> Part {
        let command = std::env::var("GNEISSFOLD_PART")
            .expect("GNEISSFOLD_PART is the command that starts the part");
        let mut words = command.split_whitespace();
        let mut process = Command::new(words.next().expect("GNEISSFOLD_PART is empty"))
            .args(words)
            .stdin(Stdio::piped())
            .stdout(Stdio::piped())
            .spawn()
            .expect("the part did not start");
        let requests = process.stdin.take().expect("a pipe");
        let answers = process.stdout.take().expect("a pipe");
        Part {
            _process: process,
            requests,
            answers,
        }
    }
}

thread_local! {
    static PART: RefCell<Part> = RefCell::new(Part::start());
}

/// A slice that goes to the part, and comes back.
enum Lent<'a> {
    Kept(&'a [u8]),
    Written(&'a mut [u8]),
}

impl Lent<'_> {
    fn octets(&self) -> &[u8] {
        match self {
            Lent::Kept(s) => s,
            Lent::Written(s) => s,
        }
    }

    fn come_back(&mut self, octets: &[u8]) {
        match self {
            Lent::Kept(s) => assert_eq!(*s, octets, "the part wrote what it may only read"),
            Lent::Written(s) => s.copy_from_slice(octets),
        }
    }
}

/// What is told beside the lent slices: the outcome, the count or length, reason and octet. What a call has not is stale.
struct Told {
    outcome: u8,
    count: usize,
    reason: u8,
    octet: u8,
}

/// Octets of it.
const TOLD: usize = 11;

fn call(which: u8, number: u16, octet: u8, lent: &mut [Lent]) -> Told {
    let mut request = vec![which];
    request.extend_from_slice(&number.to_le_bytes());
    request.extend_from_slice(&[octet, lent.len() as u8]);
    for slice in lent.iter() {
        request.extend_from_slice(&(slice.octets().len() as u32).to_le_bytes());
        request.extend_from_slice(slice.octets());
    }
    let mut answer = vec![0; TOLD + lent.iter().map(|s| s.octets().len()).sum::<usize>()];
    PART.with(|part| {
        let mut part = part.borrow_mut();
        part.requests
            .write_all(&request)
            .expect("the part takes no request: it crashed");
        part.requests
            .flush()
            .expect("the part takes no request: it crashed");
        part.answers
            .read_exact(&mut answer)
            .expect("the part gives no answer: it crashed");
    });
    let mut count = [0; 8];
    count.copy_from_slice(&answer[1..9]);
    let mut at = TOLD;
    for slice in lent.iter_mut() {
        let end = at + slice.octets().len();
        slice.come_back(&answer[at..end]);
        at = end;
    }
    Told {
        outcome: answer[0],
        count: u64::from_le_bytes(count) as usize,
        reason: answer[9],
        octet: answer[10],
    }
}

#[allow(clippy::too_many_arguments)]
pub fn message(
    devices: &mut [u8],
    binds: &mut [u8],
    groups: &mut [u8],
    members: &mut [u8],
    sessions: &mut [u8],
    msg: &[u8],
    reply: &mut [u8],
    list: &mut [u8],
    count: &mut usize,
    reason: &mut u8,
    octet: &mut u8,
) -> u8 {
    let lent = &mut [
        Lent::Written(devices),
        Lent::Written(binds),
        Lent::Written(groups),
        Lent::Written(members),
        Lent::Written(sessions),
        Lent::Kept(msg),
        Lent::Written(reply),
        Lent::Written(list),
    ];
    let told = call(1, 0, 0, lent);
    (*count, *reason, *octet) = (told.count, told.reason, told.octet);
    told.outcome
}

#[allow(clippy::too_many_arguments)]
pub fn admit(
    devices: &mut [u8],
    binds: &[u8],
    groups: &[u8],
    members: &[u8],
    sessions: &[u8],
    address: u16,
    rights: u8,
    units: &[u8; 32],
) -> u8 {
    let lent = &mut [
        Lent::Written(devices),
        Lent::Kept(binds),
        Lent::Kept(groups),
        Lent::Kept(members),
        Lent::Kept(sessions),
        Lent::Kept(units),
    ];
    call(2, address, rights, lent).outcome
}

pub fn release(
    devices: &mut [u8],
    binds: &mut [u8],
    groups: &[u8],
    members: &mut [u8],
    sessions: &mut [u8],
    address: u16,
) -> u8 {
    let lent = &mut [
        Lent::Written(devices),
        Lent::Written(binds),
        Lent::Kept(groups),
        Lent::Written(members),
        Lent::Written(sessions),
    ];
    call(3, address, 0, lent).outcome
}

pub fn copy(msg: &[u8], room: &mut [u8], device: u16, unit: u8, length: &mut usize) -> u8 {
    let lent = &mut [Lent::Kept(msg), Lent::Written(room)];
    let told = call(4, device, unit, lent);
    *length = told.count;
    told.outcome
}

pub fn read(msg: &[u8], fields: &mut [u16; 12]) -> u8 {
    let mut octets: Vec<u8> = fields.iter().flat_map(|f| f.to_le_bytes()).collect();
    let lent = &mut [Lent::Kept(msg), Lent::Written(&mut octets)];
    let outcome = call(5, 0, 0, lent).outcome;
    for (field, two) in fields.iter_mut().zip(octets.chunks_exact(2)) {
        *field = u16::from_le_bytes([two[0], two[1]]);
    }
    outcome
}

pub fn carry_over(old: &[u8], new: &mut [u8]) -> u8 {
    call(6, 0, 0, &mut [Lent::Kept(old), Lent::Written(new)]).outcome
}
