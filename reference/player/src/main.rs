//! The command line: plays a script, says what lies open in it, or makes one from a seed.
#![forbid(unsafe_code)]

mod random;

use std::env;
use std::ffi::OsString;
use std::fs;
use std::io::{self, BufWriter, Read, StdoutLock, Write};
use std::process::ExitCode;

use model::programs::{self, Failure};

const USAGE: &str = "usage: player rehearse [FILE]
       player open [FILE]
       player random SEED LINES
       player damaged SEED LINES
A script is read from standard input where no FILE is named.";

type Output = BufWriter<StdoutLock<'static>>;

fn main() -> ExitCode {
    let arguments: Vec<OsString> = env::args_os().skip(1).collect();
    let words: Vec<Option<&str>> = arguments.iter().map(|word| word.to_str()).collect();
    match words.as_slice() {
        [Some("rehearse"), file @ ..] if file.len() <= 1 => {
            play(arguments.get(1), programs::rehearse)
        }
        [Some("open"), file @ ..] if file.len() <= 1 => play(arguments.get(1), programs::open),
        [Some("random"), Some(seed), Some(lines)] => print_made(seed, lines, random::script),
        [Some("damaged"), Some(seed), Some(lines)] => print_made(seed, lines, random::damaged),
        _ => failed(USAGE),
    }
}

fn play(
    file: Option<&OsString>,
    program: fn(&[u8], &mut Output) -> Result<(), Failure>,
) -> ExitCode {
    let script = match read_script(file) {
        Ok(script) => script,
        Err(error) => return failed(&format!("player: {error}")),
    };
    let mut out = BufWriter::new(io::stdout().lock());
    let ended = program(&script, &mut out);
    let flushed = out.flush();
    match ended.and(flushed.map_err(Failure::from)) {
        Ok(()) => ExitCode::SUCCESS,
        Err(Failure::BadLine(bad)) => failed(&bad.to_string()),
        Err(Failure::Output(error)) => failed(&format!("player: {error}")),
    }
}

fn read_script(file: Option<&OsString>) -> io::Result<Vec<u8>> {
    match file {
        Some(file) => fs::read(file),
        None => {
            let mut script = Vec::new();
            io::stdin().lock().read_to_end(&mut script)?;
            Ok(script)
        }
    }
}

fn print_made(seed: &str, lines: &str, make: fn(u64, usize) -> Vec<u8>) -> ExitCode {
    let (Ok(seed), Ok(lines)) = (seed.parse(), lines.parse()) else {
        return failed(USAGE);
    };
    match io::stdout().lock().write_all(&make(seed, lines)) {
        Ok(()) => ExitCode::SUCCESS,
        Err(error) => failed(&format!("player: {error}")),
    }
}

fn failed(message: &str) -> ExitCode {
    eprintln!("{message}");
    ExitCode::FAILURE
}
