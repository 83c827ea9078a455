//! Compares the part (`libgneissfold.a`) with the other reading of the paper
//! on random calls, and random runs with the history of their calls and
//! answers. Ends with 0 only if nothing differed.
//!
//! differ [--seed N|now] [--calls N] [--runs N] [--length N]
//!        [--history] [--each] [--counts]
//!
//! --history  judges the runs by the history alone, not by the other reading
//! --each     prints every case before it is made, to standard error
//! --counts   prints how often each outcome, code and reason came up

mod case;
mod generate;
mod history;
mod part;
mod rng;
mod runs;
mod single;
mod tally;

use rng::Rng;
use std::process::ExitCode;
use std::time::{Instant, SystemTime, UNIX_EPOCH};

struct Options {
    seed: u64,
    calls: usize,
    runs: usize,
    length: usize,
    history: bool,
    each: bool,
    counts: bool,
}

/// From here on every outcome and code must have come up, every reason, and all that
/// binds with special values and reading them back bring about, or the test itself is
/// at fault.
/// Of so many calls in runs the latter alone is asked: there are outcomes that no
/// run meets.
const ENOUGH_CALLS: usize = 100_000;

fn options() -> Result<Options, String> {
    let mut options = Options {
        seed: 1,
        calls: 500_000,
        runs: 5_000,
        length: 200,
        history: false,
        each: false,
        counts: false,
    };
    let mut arguments = std::env::args().skip(1);
    while let Some(argument) = arguments.next() {
        let mut value = || {
            arguments
                .next()
                .ok_or(format!("{argument} lacks its value"))
        };
        match argument.as_str() {
            "--seed" => options.seed = seed(&value()?)?,
            "--calls" => options.calls = number(&value()?)?,
            "--runs" => options.runs = number(&value()?)?,
            "--length" => options.length = number(&value()?)?,
            "--history" => options.history = true,
            "--each" => options.each = true,
            "--counts" => options.counts = true,
            _ => return Err(format!("unknown argument {argument}")),
        }
    }
    Ok(options)
}

fn number(text: &str) -> Result<usize, String> {
    text.parse().map_err(|_| format!("not a number: {text}"))
}

fn seed(text: &str) -> Result<u64, String> {
    if text == "now" {
        let now = SystemTime::now()
            .duration_since(UNIX_EPOCH)
            .map_err(|error| error.to_string())?;
        return Ok(now.as_nanos() as u64);
    }
    text.parse().map_err(|_| format!("not a seed: {text}"))
}

fn compare(options: &Options, tally: &mut tally::Tally) -> Result<(), String> {
    let mut rng = Rng::new(options.seed);
    single::try_calls(&mut rng, options.calls, tally)?;
    // Its own generator, so that a run is the same whatever came before it.
    let mut rng = Rng::new(!options.seed);
    let mut runs = runs::Runs {
        rng: &mut rng,
        tally,
        compare: !options.history,
    };
    runs.try_runs(options.runs, options.length)
}

fn main() -> ExitCode {
    let options = match options() {
        Ok(options) => options,
        Err(report) => {
            eprintln!("differ: {report}");
            return ExitCode::from(2);
        }
    };
    println!("seed {}", options.seed);
    let begun = Instant::now();
    let mut tally = tally::Tally::new(options.each);
    let result = compare(&options, &mut tally);
    let seconds = begun.elapsed().as_secs_f64();
    if options.counts {
        tally.print();
    }
    if let Err(report) = result {
        println!(
            "DIFFERENCE at seed {} after {} calls, {seconds:.1} s",
            options.seed, tally.calls
        );
        println!("{report}");
        return ExitCode::from(1);
    }
    println!(
        "no difference: {} calls ({} single, {} runs of {}), {seconds:.1} s",
        tally.calls, options.calls, options.runs, options.length
    );
    let mut missing = Vec::new();
    if options.calls >= ENOUGH_CALLS {
        missing.extend(tally.missing());
    }
    let in_runs = options.runs * options.length;
    if options.calls.max(in_runs) >= ENOUGH_CALLS {
        missing.extend(tally.missing_of_requests());
    }
    if in_runs >= ENOUGH_CALLS {
        missing.extend(tally.missing_of_runs());
    }
    if !missing.is_empty() {
        println!("never came up: {}", missing.join(", "));
        return ExitCode::from(3);
    }
    ExitCode::SUCCESS
}
