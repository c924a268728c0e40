//! The two programs over a script: what happens in it, and what lies open at each `show`.

use std::fmt;
use std::io::{self, Write};

use crate::command::{parse, Command, Reason, Who};
use crate::play::{Outcome, Play};
use crate::recipe::Knowledge;
use crate::rule::Rule;
use crate::side::Side;
use crate::text;

/// A line that ends the script, counted from 1.
#[derive(Clone, Copy, Debug, PartialEq, Eq)]
pub struct BadLine {
    pub line: usize,
    pub reason: Reason,
}

impl fmt::Display for BadLine {
    fn fmt(&self, f: &mut fmt::Formatter<'_>) -> fmt::Result {
        write!(f, "line {}: {}", self.line, self.reason.words())
    }
}

/// Why a program ended early.
#[derive(Debug)]
pub enum Failure {
    BadLine(BadLine),
    Output(io::Error),
}

impl From<io::Error> for Failure {
    fn from(error: io::Error) -> Failure {
        Failure::Output(error)
    }
}

/// Plays a script and prints what happens.
pub fn rehearse(script: &[u8], out: &mut impl Write) -> Result<(), Failure> {
    let mut play = Play::new();
    for (line, command) in commands(script) {
        let outcome = step(&mut play, line, command)?;
        print_outcome(&play, &outcome, out)?;
    }
    Ok(())
}

/// Plays a script and prints, at each `show` and at the end, which messages lie open.
pub fn open(script: &[u8], out: &mut impl Write) -> Result<(), Failure> {
    let mut play = Play::new();
    let mut answers = Answers::default();
    for (line, command) in commands(script) {
        match step(&mut play, line, command)? {
            Outcome::Read(who) => answers.read(play.side(who)),
            Outcome::Shown => {
                writeln!(out, "line {line}")?;
                answers.print_rows(&play, out)?;
            }
            _ => {}
        }
    }
    writeln!(out, "end")?;
    answers.print_rows(&play, out)?;
    Ok(())
}

/// The lines of a script that are not passed over, with their numbers.
fn commands(script: &[u8]) -> impl Iterator<Item = (usize, Result<Command, Reason>)> + '_ {
    let lines = script.split(|byte| *byte == b'\n');
    (1..)
        .zip(lines)
        .filter_map(|(line, bytes)| Some((line, parse(bytes).transpose()?)))
}

fn step(
    play: &mut Play,
    line: usize,
    command: Result<Command, Reason>,
) -> Result<Outcome, Failure> {
    let outcome = command.and_then(|command| play.step(command));
    outcome.map_err(|reason| Failure::BadLine(BadLine { line, reason }))
}

fn print_outcome(play: &Play, outcome: &Outcome, out: &mut impl Write) -> io::Result<()> {
    match outcome {
        Outcome::Sent { number, mark } => writeln!(out, "{number} {mark} sent"),
        Outcome::SentAndLost { number, mark } => writeln!(out, "{number} {mark} lost"),
        Outcome::SendRefused(refusal) => writeln!(out, "refused {}", refusal.number()),
        Outcome::Opened { number, text } if text.is_empty() => writeln!(out, "{number} opened"),
        Outcome::Opened { number, text } => {
            write!(out, "{number} opened ")?;
            out.write_all(&text::written(text))?;
            writeln!(out)
        }
        Outcome::OpenedAndLost { number } => writeln!(out, "{number} lost"),
        Outcome::TakeRefused { number, refusal } => {
            writeln!(out, "{number} refused {}", refusal.number())
        }
        Outcome::Stopped => writeln!(out, "stopped"),
        Outcome::StopSet => Ok(()),
        Outcome::Read(who) => writeln!(out, "{} read", who.name()),
        Outcome::Shown => [Who::First, Who::Second]
            .into_iter()
            .try_for_each(|who| writeln!(out, "{}: {}", who.name(), holdings(play.side(who)))),
    }
}

/// What a side holds, as `show` prints it.
fn holdings(side: &Side) -> String {
    let next = |link: Option<u32>, place: u32| {
        link.map_or("-".to_string(), |link| format!("{link}/{place}"))
    };
    let marks: Vec<String> = side.aside.iter().map(|mark| mark.to_string()).collect();
    format!(
        "drawn {}; root {}; sends {}; takes {}; before {}; aside {}",
        side.drawn,
        side.drawn,
        next(side.sending_link(), side.sent),
        next(side.taking_link(), side.taken),
        side.before,
        if marks.is_empty() {
            "-".to_string()
        } else {
            marks.join(" ")
        },
    )
}

/// The two answers to what lies open, which share nothing but the readings.
#[derive(Default)]
struct Answers {
    rule: Rule,
    knowledge: Knowledge,
}

impl Answers {
    fn read(&mut self, side: &Side) {
        self.rule.read(side);
        self.knowledge.read(side);
    }

    fn print_rows(&mut self, play: &Play, out: &mut impl Write) -> io::Result<()> {
        let marks = || play.messages().iter().map(|message| message.header.mark);
        let known = self.knowledge.of_keys(marks());
        for ((number, mark), known) in (1..).zip(marks()).zip(known) {
            let by_rule = if self.rule.is_open(mark) {
                "open"
            } else {
                "shut"
            };
            let by_working_out = if known { "known" } else { "unknown" };
            writeln!(out, "{number} {mark} {by_rule} {by_working_out}")?;
        }
        Ok(())
    }
}
