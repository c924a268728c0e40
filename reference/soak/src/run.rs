//! The events of a run.

use std::fmt;

use model::command::Who;
use model::side::Refusal;
use sealed::keybox::KeyBox;
use sealed::numbers::NumberBox;
use sealed::secrets::RootKey;
use sealed::side::{NoKey, Side};

use crate::bytes::{damaged, random_text};
use crate::counts::Counts;
use crate::dice::{Dice, Seed};
use crate::end::{Came, End, Took, Way};
use crate::mail::{Mail, MailNumber, Mails};

/// No more are sent while this many wait to come.
const MOST_WAITING: usize = 60;

/// How many events are played.
#[derive(Clone, Copy, Debug)]
pub struct Events(pub usize);

/// Whether a message comes as it was sent.
#[derive(Clone, Copy, Debug, PartialEq, Eq)]
enum State {
    Whole,
    Damaged,
}

#[derive(Debug)]
pub struct Run {
    dice: Dice,
    first: End,
    second: End,
    mails: Mails,
    counts: Counts,
}

impl Run {
    /// Two sides that have sent nothing.
    pub fn new(seed: Seed) -> Result<Run, NoKey> {
        let root = RootKey([7; 32]);
        let mut first_keys = NumberBox::new(Who::First);
        let mut second_keys = NumberBox::new(Who::Second);
        let half_of_key_0 = second_keys.draw().ok_or(NoKey)?;
        let first = Side::first(&root, &half_of_key_0, &mut first_keys)?;
        let second = Side::second(&root, &half_of_key_0);
        Ok(Run {
            dice: Dice::new(seed),
            first: End::new(first, first_keys),
            second: End::new(second, second_keys),
            mails: Mails::default(),
            counts: Counts::default(),
        })
    }

    pub fn play(&mut self, events: Events) {
        for _ in 0..events.0 {
            self.event();
        }
    }

    /// A send, or bytes that come.
    fn event(&mut self) {
        if self.is_send() {
            self.send();
        } else {
            self.deliver();
        }
    }

    /// The dice are thrown only where messages have left and more may.
    fn is_send(&mut self) -> bool {
        self.mails.is_empty() || self.mails.waiting() < MOST_WAITING && self.dice.below(100) < 45
    }

    fn end(&mut self, who: Who) -> &mut End {
        match who {
            Who::First => &mut self.first,
            Who::Second => &mut self.second,
        }
    }

    /// One of the two sends a text.
    fn send(&mut self) {
        let from = if self.dice.one_in(2) {
            Who::Second
        } else {
            Who::First
        };
        let text = random_text(&mut self.dice);
        let Ok(bytes) = self.end(from).send(&text) else {
            self.counts.unsent += 1;
            return;
        };
        self.counts.sent += 1;
        let mail = Mail {
            from,
            text,
            bytes,
            opened: false,
        };
        self.mails.post(mail, &mut self.dice);
    }

    /// A message comes, one in six damaged: that one still waits to come whole.
    fn deliver(&mut self) {
        let number = self.mails.choose(&mut self.dice);
        let mail = self.mails.get(number);
        let to = mail.from.other();
        let (state, bytes) = if self.dice.one_in(6) {
            (State::Damaged, damaged(&mut self.dice, &mail.bytes))
        } else {
            (State::Whole, mail.bytes.clone())
        };
        if state == State::Whole {
            self.mails.came(number);
        }
        let came = self.end(to).come(&bytes);
        self.count(number, state, came);
    }

    fn count(&mut self, number: MailNumber, state: State, came: Came) {
        if came.left_behind {
            self.counts.wrongs.left_behind += 1;
        }
        match came.took {
            Took::Opened(text, way) => self.opened(number, state, &text, way),
            Took::Refused(refusal) => self.refused(state, refusal, came.moved),
            Took::NoKey => self.counts.wrongs.no_key += 1,
        }
    }

    /// Some bytes opened.
    fn opened(&mut self, number: MailNumber, state: State, text: &[u8], way: Way) {
        let mail = self.mails.get_mut(number);
        let counts = &mut self.counts;
        counts.opened += 1;
        counts.late += u64::from(way == Way::Late);
        counts.wrongs.forged += u64::from(state == State::Damaged);
        counts.wrongs.twice += u64::from(mail.opened);
        counts.wrongs.other_text += u64::from(mail.text != text);
        mail.opened = true;
    }

    /// Some bytes were kept out.
    fn refused(&mut self, state: State, refusal: Refusal, moved: bool) {
        self.counts.wrongs.moved += u64::from(moved);
        match state {
            State::Whole => self.counts.kept_out.add(refusal),
            State::Damaged => self.counts.damaged_kept_out.add(refusal),
        }
    }
}

/// What became of all, and where the two stand.
impl fmt::Display for Run {
    fn fmt(&self, f: &mut fmt::Formatter<'_>) -> fmt::Result {
        let (first, second) = (self.first.drawn(), self.second.drawn());
        self.counts.fmt(f)?;
        writeln!(
            f,
            "the first has drawn key {first}, the second key {second}"
        )
    }
}

#[cfg(test)]
mod tests {
    use super::*;
    use crate::counts::Wrongs;

    fn played(events: usize, seed: u64) -> Run {
        let mut run = Run::new(Seed(seed)).unwrap();
        run.play(Events(events));
        run
    }

    #[test]
    fn nothing_goes_wrong() {
        for seed in 0..8 {
            let run = played(2_000, seed);
            assert_eq!(run.counts.wrongs, Wrongs::default(), "{seed}");
            assert!(run.counts.opened > 500 && run.counts.late > 0, "{seed}");
        }
    }

    #[test]
    fn with_no_events_the_sides_have_their_first_keys() {
        let printed = played(0, 1).to_string();
        assert!(printed.starts_with("sent 0, refused 0\nopened 0, of them 0 by a key put aside\n"));
        assert!(printed.ends_with("\nthe first has drawn key 1, the second key 0\n"));
        assert_eq!(printed.lines().count(), 17);
    }
}
