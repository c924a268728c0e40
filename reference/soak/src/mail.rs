//! The messages of a run: which there are, and which are still to come.

use model::command::Who;

use crate::dice::Dice;

/// A message that left.
#[derive(Debug)]
pub struct Mail {
    pub from: Who,
    pub text: Vec<u8>,
    pub bytes: Vec<u8>,
    pub opened: bool,
}

/// Which message: how many left before it.
#[derive(Clone, Copy, Debug, PartialEq, Eq)]
pub struct MailNumber(usize);

/// All messages that left.
#[derive(Debug, Default)]
pub struct Mails {
    left: Vec<Mail>,
    /// Those that are still to come, oldest first; those that are lost are not among them.
    waiting: Vec<MailNumber>,
}

impl Mails {
    pub fn is_empty(&self) -> bool {
        self.left.is_empty()
    }

    /// How many are still to come.
    pub fn waiting(&self) -> usize {
        self.waiting.len()
    }

    pub fn get(&self, number: MailNumber) -> &Mail {
        &self.left[number.0]
    }

    pub fn get_mut(&mut self, number: MailNumber) -> &mut Mail {
        &mut self.left[number.0]
    }

    /// A message leaves; one in 150 is lost.
    pub fn post(&mut self, mail: Mail, dice: &mut Dice) {
        let number = MailNumber(self.left.len());
        self.left.push(mail);
        if !dice.one_in(150) {
            self.waiting.push(number);
        }
    }

    /// Which message comes next, where at least one has left: mostly one of those that wait.
    pub fn choose(&self, dice: &mut Dice) -> MailNumber {
        if self.waiting.is_empty() || dice.one_in(8) {
            self.choose_again(dice)
        } else {
            self.choose_waiting(dice)
        }
    }

    /// One of the last 3,000 that left, whether it waits, is lost or has come.
    fn choose_again(&self, dice: &mut Dice) -> MailNumber {
        let left = self.left.len();
        MailNumber(left - 1 - dice.below(left.min(3_000)))
    }

    /// Mostly one of the six oldest that wait, one time in ten any of them.
    fn choose_waiting(&self, dice: &mut Dice) -> MailNumber {
        let waiting = self.waiting.len();
        let reach = if dice.one_in(10) {
            waiting
        } else {
            waiting.min(6)
        };
        self.waiting[dice.below(reach)]
    }

    /// A message has come: it waits no more.
    pub fn came(&mut self, number: MailNumber) {
        self.waiting.retain(|other| *other != number);
    }
}
