//! A play of two sides: their files, the messages between them, and the stops that are set.

use std::collections::BTreeMap;

use crate::command::{Command, Moment, Reason, Who};
use crate::side::{Header, Mark, Refusal, Side};

/// How many bytes a message has besides its text.
const BYTES_BESIDES_TEXT: u64 = 63;

/// A message that a side has sent, whether it left or not.
#[derive(Clone, Debug)]
pub struct Message {
    pub from: Who,
    pub header: Header,
    pub text: Vec<u8>,
    pub left: bool,
}

impl Message {
    fn has_bit(&self, bit: u32) -> bool {
        u64::from(bit) / 8 < BYTES_BESIDES_TEXT + self.text.len() as u64
    }
}

/// What a command came to.
#[derive(Clone, Debug, PartialEq, Eq)]
pub enum Outcome {
    Sent { number: usize, mark: Mark },
    SentAndLost { number: usize, mark: Mark },
    SendRefused(Refusal),
    Opened { number: usize, text: Vec<u8> },
    OpenedAndLost { number: usize },
    TakeRefused { number: usize, refusal: Refusal },
    Stopped,
    StopSet,
    Read(Who),
    Shown,
}

/// A side as its file has it, the writes of that file, and the stops to come.
struct Post {
    side: Side,
    writes: u32,
    stops: BTreeMap<u32, Moment>,
}

impl Post {
    fn new(side: Side) -> Post {
        Post {
            side,
            writes: 0,
            stops: BTreeMap::new(),
        }
    }

    /// Writes the file for an accepted step; says at which moment of it the side stopped, if it did.
    fn write(&mut self, after: Side) -> Option<Moment> {
        let stop = self.stops.remove(&(self.writes + 1));
        if stop != Some(Moment::Before) {
            self.side = after;
            self.writes += 1;
        }
        stop
    }
}

/// Both sides, and all that has happened between them.
pub struct Play {
    first: Post,
    second: Post,
    messages: Vec<Message>,
}

impl Default for Play {
    fn default() -> Play {
        Play::new()
    }
}

impl Play {
    pub fn new() -> Play {
        Play {
            first: Post::new(Side::first()),
            second: Post::new(Side::second()),
            messages: Vec::new(),
        }
    }

    pub fn side(&self, who: Who) -> &Side {
        &self.post(who).side
    }

    /// How many writes a side has made.
    pub fn writes(&self, who: Who) -> u32 {
        self.post(who).writes
    }

    /// Whether a stop is set for a write of a side.
    pub fn stop_is_set(&self, who: Who, write: u32) -> bool {
        self.post(who).stops.contains_key(&write)
    }

    /// All messages sent so far; message M is the one at M - 1.
    pub fn messages(&self) -> &[Message] {
        &self.messages
    }

    /// Does what a line asks for.
    pub fn step(&mut self, command: Command) -> Result<Outcome, Reason> {
        match command {
            Command::Send { who, text } => Ok(self.send(who, text)),
            Command::Deliver { number, flip } => self.deliver(number, flip),
            Command::Stop { who, moment, write } => self.set_stop(who, moment, write),
            Command::Read { who } => Ok(Outcome::Read(who)),
            Command::Show => Ok(Outcome::Shown),
        }
    }

    fn post(&self, who: Who) -> &Post {
        match who {
            Who::First => &self.first,
            Who::Second => &self.second,
        }
    }

    fn post_mut(&mut self, who: Who) -> &mut Post {
        match who {
            Who::First => &mut self.first,
            Who::Second => &mut self.second,
        }
    }

    fn send(&mut self, who: Who, text: Vec<u8>) -> Outcome {
        let post = self.post_mut(who);
        let (after, header) = match post.side.send(text.len()) {
            Ok(sent) => sent,
            Err(refusal) => return Outcome::SendRefused(refusal),
        };
        let stop = post.write(after);
        if stop == Some(Moment::Before) {
            return Outcome::Stopped;
        }
        let left = stop.is_none();
        self.messages.push(Message {
            from: who,
            header,
            text,
            left,
        });
        let (number, mark) = (self.messages.len(), header.mark);
        if left {
            Outcome::Sent { number, mark }
        } else {
            Outcome::SentAndLost { number, mark }
        }
    }

    fn deliver(&mut self, number: u32, flip: Option<u32>) -> Result<Outcome, Reason> {
        let number = number as usize;
        let index = number.checked_sub(1).ok_or(Reason::NoSuchMessage)?;
        let message = self.messages.get(index).ok_or(Reason::NoSuchMessage)?;
        if flip.is_some_and(|bit| !message.has_bit(bit)) {
            return Err(Reason::NoSuchBit);
        }
        if !message.left {
            return Err(Reason::NeverLeft);
        }
        let (taker, header) = (message.from.other(), message.header);
        let opens = flip.is_none();
        let post = self.post_mut(taker);
        let after = match post.side.take(header, opens) {
            Ok(after) => after,
            Err(refusal) => return Ok(Outcome::TakeRefused { number, refusal }),
        };
        Ok(match post.write(after) {
            None => Outcome::Opened {
                number,
                text: self.messages[index].text.clone(),
            },
            Some(Moment::Before) => Outcome::Stopped,
            Some(Moment::After) => Outcome::OpenedAndLost { number },
        })
    }

    fn set_stop(&mut self, who: Who, moment: Moment, write: u32) -> Result<Outcome, Reason> {
        let post = self.post_mut(who);
        if write == 0 {
            return Err(Reason::WriteZero);
        }
        if write <= post.writes {
            return Err(Reason::WriteHasBeen);
        }
        if post.stops.contains_key(&write) {
            return Err(Reason::StopIsSet);
        }
        post.stops.insert(write, moment);
        Ok(Outcome::StopSet)
    }
}
