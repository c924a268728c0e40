//! The command line: makes the key files of two sides from the system's randomness.
#![forbid(unsafe_code)]

mod drawn;
mod new_file;

use std::env;
use std::ffi::OsString;
use std::fmt::Display;
use std::fs::File;
use std::path::Path;
use std::process::ExitCode;

use drawn::{Drawn, KeyCount};
use new_file::NewFile;

const USAGE: &str = "usage: pair N PATH1 PATH2
Makes two new files with the same N keys, 2 to 1,000,000, for the first and the second side.";

const RANDOMNESS: &str = "/dev/urandom";

fn main() -> ExitCode {
    let arguments: Vec<OsString> = env::args_os().skip(1).collect();
    let [count, first, second] = arguments.as_slice() else {
        return failed(USAGE);
    };
    let Some(count) = count.to_str().and_then(KeyCount::read) else {
        return failed(USAGE);
    };
    match make(count, Path::new(first), Path::new(second)) {
        Ok(()) => ExitCode::SUCCESS,
        Err(problem) => failed(&format!("pair: {problem}")),
    }
}

/// Draws the keys and makes both files, or none of them.
fn make(count: KeyCount, first: &Path, second: &Path) -> Result<(), String> {
    let mut source = File::open(RANDOMNESS).map_err(|error| problem(RANDOMNESS, error))?;
    let drawn = Drawn::new(count, &mut source).map_err(|error| problem(RANDOMNESS, error))?;
    let written = drawn.written();
    let mut files = Vec::new();
    for path in [first, second] {
        let named = |error| problem(path.display(), error);
        files.push((path, NewFile::create(path).map_err(named)?));
    }
    for (path, file) in &mut files {
        let named = |error| problem(path.display(), error);
        file.fill(written.as_bytes()).map_err(named)?;
    }
    files.into_iter().for_each(|(_, file)| file.stay());
    Ok(())
}

fn problem(name: impl Display, error: std::io::Error) -> String {
    format!("{name}: {error}")
}

fn failed(message: &str) -> ExitCode {
    eprintln!("{message}");
    ExitCode::FAILURE
}
