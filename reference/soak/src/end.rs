//! One side with its key box, and what comes of bytes that it is given.

use std::collections::BTreeSet;

use model::side::{Mark, Refusal};
use sealed::keybox::KeyBox;
use sealed::message::Message;
use sealed::numbers::NumberBox;
use sealed::side::{NotTaken, Side, Taken};

#[derive(Debug)]
pub struct End {
    side: Side,
    keys: NumberBox,
    /// The marks of all messages that it has opened.
    opened: BTreeSet<Mark>,
}

/// The way that a message came in by.
#[derive(Clone, Copy, Debug, PartialEq, Eq)]
pub enum Way {
    /// By a key that was put aside.
    Late,
    InTurnOrOnNewLink,
}

/// What taking some bytes came to.
#[derive(Debug)]
pub enum Took {
    Opened(Vec<u8>, Way),
    Refused(Refusal),
    NoKey,
}

/// What was taken, and what that left.
#[derive(Debug)]
pub struct Came {
    pub took: Took,
    /// The side or its box is not what it was.
    pub moved: bool,
    /// A key that was used is among those put aside.
    pub left_behind: bool,
}

impl End {
    /// A side as it begins, its box settled on its key.
    pub fn new(side: Side, mut keys: NumberBox) -> End {
        keys.keep(&side.half);
        End {
            side,
            keys,
            opened: BTreeSet::new(),
        }
    }

    /// The number of the key that it drew last.
    pub fn drawn(&self) -> u32 {
        self.side.drawn
    }

    /// The message of a text, as bytes.
    pub fn send(&mut self, text: &[u8]) -> Result<Vec<u8>, Refusal> {
        let sent = self.side.send(text)?;
        self.side = sent.after;
        Ok(sent.message.write())
    }

    /// Takes some bytes, and says what that left.
    pub fn come(&mut self, bytes: &[u8]) -> Came {
        let before = (self.side.clone(), self.keys.clone());
        let took = self.take(bytes);
        Came {
            took,
            moved: (&self.side, &self.keys) != (&before.0, &before.1),
            left_behind: self.holds_a_used_key(),
        }
    }

    fn take(&mut self, bytes: &[u8]) -> Took {
        match self.side.take(bytes, &mut self.keys) {
            Ok(Taken { after, text }) => {
                let way = way(&self.side, &after);
                self.keys.keep(&after.half);
                self.side = after;
                self.opened.extend(mark(bytes));
                Took::Opened(text, way)
            }
            Err(NotTaken::Refused(refusal)) => Took::Refused(refusal),
            Err(NotTaken::NoKey) => Took::NoKey,
        }
    }

    /// Stands in for a key in a slot that is not in use: here keys are in a map by their marks, with no slots.
    fn holds_a_used_key(&self) -> bool {
        let mut aside = self.side.aside.keys();
        aside.any(|mark| self.opened.contains(mark))
    }
}

/// A message is late if one key fewer is put aside, and the side stands where it stood.
fn way(before: &Side, after: &Side) -> Way {
    let stands = after.taken() == before.taken() && after.drawn == before.drawn;
    if stands && after.aside.len() < before.aside.len() {
        Way::Late
    } else {
        Way::InTurnOrOnNewLink
    }
}

/// The mark that a message says, where the bytes are one.
fn mark(bytes: &[u8]) -> Option<Mark> {
    Message::read(bytes).map(|message| message.header().mark)
}
