//! Long random runs from free tables, compared with the history ("condition
//! 3 .. over any run").

mod check;
mod read_back;
mod reading;

use crate::case::{Answer, Call, Case, World};
use crate::generate::{self, View, SESSION};
use crate::history::{Entry, History};
use crate::rng::Rng;
use crate::single::{admit, least_list};
use crate::tally::Tally;
use reading::Kind;

pub struct Runs<'a> {
    pub rng: &'a mut Rng,
    pub tally: &'a mut Tally,
    /// Whether each call is compared with the other reading too. Without it
    /// the history alone judges the part.
    pub compare: bool,
}

/// The tables as they are by now, and the calls and answers that led there.
struct Run {
    world: World,
    history: History,
}

impl Runs<'_> {
    pub fn try_runs(&mut self, runs: usize, length: usize) -> Result<(), String> {
        for at in 0..runs {
            self.try_run(length)
                .map_err(|report| format!("run {at}: {report}"))?;
        }
        Ok(())
    }

    fn try_run(&mut self, length: usize) -> Result<(), String> {
        let kind = reading::some_kind(self.rng);
        let mut world = generate::free_world(self.rng);
        reading::make_room(&mut world, kind);
        let mut run = Run {
            history: History::of(world.sessions.len() / SESSION),
            world,
        };
        self.go_through(&mut run, kind, length).map_err(|report| {
            let calls = run.history.calls();
            let printed = run.history.printed();
            format!("after {calls} calls: {report}\nHISTORY\n{printed}")
        })
    }

    fn go_through(&mut self, run: &mut Run, kind: Kind, length: usize) -> Result<(), String> {
        for at in 0..length {
            let call = match kind {
                Kind::Mixed => self.some_call(&run.world, at),
                _ => self.reading_call(&run.world, at, kind),
            };
            self.step(run, call)?;
            if at + 1 == length || self.rng.percent(1) {
                self.check(&run.world, &run.history)?;
            }
        }
        self.read_back(run)
    }

    /// One call more of a run, its answer held against the history before it.
    fn step(&mut self, run: &mut Run, call: Call) -> Result<u8, String> {
        let answer = self.made(&run.world, call.clone())?;
        if let Some(entry) = Entry::of(&call, &answer) {
            if run.history.push(entry)? {
                self.tally.shut_out();
            }
        }
        run.world = answer.world;
        Ok(answer.outcome)
    }

    fn made(&mut self, world: &World, call: Call) -> Result<Answer, String> {
        let case = Case {
            world: world.clone(),
            call,
        };
        self.tally.before(&case);
        let answer = if self.compare {
            case.compared()?
        } else {
            case.by_part()
        };
        self.tally.after(&case, &answer);
        if answer.outside() {
            return Err(format!(
                "octets outside a lent slice were changed\nCASE\n{case}"
            ));
        }
        Ok(answer)
    }

    fn some_call(&mut self, world: &World, at: usize) -> Call {
        let rng = &mut *self.rng;
        let view = View::of(world);
        // Without devices nothing else comes about, so a run begins with some.
        let admissions = if at < 8 { 70 } else { 6 };
        if rng.percent(admissions) {
            return admit(rng);
        }
        if rng.percent(1) {
            return Call::Release {
                address: view.to_release(rng),
            };
        }
        let mut msg = if rng.percent(90) {
            view.command(rng)
        } else {
            view.forward(rng)
        };
        if rng.percent(1) {
            generate::damage(rng, &mut msg);
        }
        self.message(world, msg)
    }

    fn message(&mut self, world: &World, msg: Vec<u8>) -> Call {
        let reply = self.rng.octets(500);
        let list = self.rng.octets(least_list(world));
        Call::Message { msg, reply, list }
    }
}
