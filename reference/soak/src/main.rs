//! The command line: plays a long run of two sealed sides and prints what became of its messages.
#![forbid(unsafe_code)]

mod bytes;
mod counts;
mod dice;
mod end;
mod mail;
mod run;

use std::env;
use std::io::{self, Write};
use std::process::ExitCode;

use dice::Seed;
use run::{Events, Run};

const USAGE: &str = "usage: soak [EVENTS [SEED]]
Without them these are 100000 and 20261118.";

const EVENTS: Events = Events(100_000);
const SEED: Seed = Seed(20_261_118);

fn main() -> ExitCode {
    let Some((events, seed)) = asked() else {
        return failed(USAGE);
    };
    let Ok(mut run) = Run::new(seed) else {
        return failed("soak: a box has no key");
    };
    run.play(events);
    match io::stdout().lock().write_all(run.to_string().as_bytes()) {
        Ok(()) => ExitCode::SUCCESS,
        Err(error) => failed(&format!("soak: {error}")),
    }
}

/// What the arguments ask for, if they are such.
fn asked() -> Option<(Events, Seed)> {
    let mut arguments = env::args_os().skip(1);
    let events = match arguments.next() {
        Some(word) => Events(word.to_str()?.parse().ok()?),
        None => EVENTS,
    };
    let seed = match arguments.next() {
        Some(word) => Seed(word.to_str()?.parse().ok()?),
        None => SEED,
    };
    arguments.next().is_none().then_some((events, seed))
}

fn failed(message: &str) -> ExitCode {
    eprintln!("{message}");
    ExitCode::FAILURE
}
