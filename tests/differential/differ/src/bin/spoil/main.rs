//! The part with a fault: stands between the harness and the part, passes requests on and spoils the answers that a fault is about. The harness must
//! tell each from the sound part; `tests/differential/faults` sees to it.
//!
//! spoil              prints the faults, one a line; those that a history alone must show are marked
//! spoil FAULT PART.. starts the part, and spoils its answers; `nothing` leaves them as they are

mod any;
mod binds;
mod closed;
mod exchange;
mod faults;
mod reading;
mod reads;
mod reason;
mod session_tables;
mod sessions;

use exchange::{Exchange, MESSAGE};
use faults::{Fault, Spoil};
use std::io::{self, Read, Write};
use std::process::{Command, ExitCode, Stdio};

fn slices(from: &mut impl Read, lengths: &[usize]) -> io::Result<Vec<Vec<u8>>> {
    lengths
        .iter()
        .map(|&length| {
            let mut octets = vec![0; length];
            from.read_exact(&mut octets).map(|()| octets)
        })
        .collect()
}

/// A request, as it came and in its parts.
struct Request {
    octets: Vec<u8>,
    call: u8,
    slices: Vec<Vec<u8>>,
}

/// The next request; nothing at the input's end.
fn request(from: &mut impl Read) -> io::Result<Option<Request>> {
    let mut octets = vec![0; 5];
    if from.read(&mut octets[..1])? == 0 {
        return Ok(None);
    }
    from.read_exact(&mut octets[1..])?;
    let (call, count) = (octets[0], octets[4]);
    let mut lent = Vec::new();
    for _ in 0..count {
        let mut length = [0; 4];
        from.read_exact(&mut length)?;
        octets.extend_from_slice(&length);
        lent.extend(slices(from, &[u32::from_le_bytes(length) as usize])?);
        octets.extend_from_slice(lent.last().expect("the slice just read"));
    }
    Ok(Some(Request {
        octets,
        call,
        slices: lent,
    }))
}

fn serve(spoil: Spoil, part: &[String]) -> io::Result<()> {
    let mut part = Command::new(&part[0])
        .args(&part[1..])
        .stdin(Stdio::piped())
        .stdout(Stdio::piped())
        .spawn()?;
    let mut requests = part.stdin.take().expect("a pipe");
    let mut answers = part.stdout.take().expect("a pipe");
    let mut input = io::stdin().lock();
    let mut output = io::stdout().lock();
    let mut last = (0, 0);
    while let Some(request) = request(&mut input)? {
        requests.write_all(&request.octets)?;
        requests.flush()?;
        let mut told = [0; 11];
        answers.read_exact(&mut told)?;
        let lengths: Vec<usize> = request.slices.iter().map(Vec::len).collect();
        let after = slices(&mut answers, &lengths)?;
        let count = u64::from_le_bytes(told[1..9].try_into().expect("eight octets"));
        let mut exchange = Exchange {
            call: request.call,
            before: request.slices,
            outcome: told[0],
            count,
            why: (told[9], told[10]),
            last,
            after,
        };
        if exchange.call == MESSAGE {
            last = exchange.why;
        }
        spoil(&mut exchange);
        let mut answer = vec![exchange.outcome];
        answer.extend_from_slice(&exchange.count.to_le_bytes());
        answer.extend_from_slice(&[exchange.why.0, exchange.why.1]);
        answer.extend(exchange.after.concat());
        output.write_all(&answer)?;
        output.flush()?;
    }
    Ok(())
}

fn faults() -> impl Iterator<Item = Fault> {
    [
        faults::FAULTS,
        any::FAULTS,
        reason::FAULTS,
        sessions::FAULTS,
        closed::FAULTS,
        session_tables::FAULTS,
        reads::FAULTS,
    ]
    .into_iter()
    .flatten()
    .copied()
}

fn main() -> ExitCode {
    let words: Vec<String> = std::env::args().skip(1).collect();
    if words.is_empty() {
        for (name, history, _) in faults() {
            println!("{name} {}", if history { "history" } else { "octets" });
        }
        return ExitCode::SUCCESS;
    }
    let nothing: Fault = ("nothing", false, |_| {});
    let Some((_, _, spoil)) = faults().chain([nothing]).find(|fault| fault.0 == words[0]) else {
        eprintln!("spoil: no fault {}", words[0]);
        return ExitCode::from(2);
    };
    match serve(spoil, &words[1..]) {
        Ok(()) => ExitCode::SUCCESS,
        // The harness ends at the first difference, and its pipes with it.
        Err(_) => ExitCode::from(1),
    }
}
