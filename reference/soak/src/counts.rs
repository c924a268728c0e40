//! What became of all events, and how it is printed.

use std::fmt;

use model::side::Refusal;

/// How many there were of each number that bytes are refused with, 1 to 6.
#[derive(Clone, Debug, Default, PartialEq, Eq)]
pub struct ByNumber([u64; 6]);

impl ByNumber {
    pub fn add(&mut self, refusal: Refusal) {
        self.0[usize::from(refusal.number()) - 1] += 1;
    }

    fn print(&self, what: &str, f: &mut fmt::Formatter<'_>) -> fmt::Result {
        for (number, count) in (1_u8..).zip(self.0) {
            writeln!(f, "{what} by {number}: {count}")?;
        }
        Ok(())
    }
}

/// What must never be.
#[derive(Clone, Debug, Default, PartialEq, Eq)]
pub struct Wrongs {
    /// Damaged bytes that opened.
    pub forged: u64,
    /// Messages that opened though they had before.
    pub twice: u64,
    /// Messages that opened to another text than was sent.
    pub other_text: u64,
    /// Steps after which a used key was still held.
    pub left_behind: u64,
    /// Refusals that changed something.
    pub moved: u64,
    /// Messages for which a box had no key to give.
    pub no_key: u64,
}

#[derive(Clone, Debug, Default, PartialEq, Eq)]
pub struct Counts {
    pub sent: u64,
    /// Texts that were not sent.
    pub unsent: u64,
    pub opened: u64,
    /// Those of them that opened by a key put aside.
    pub late: u64,
    /// Messages that came as they were sent.
    pub kept_out: ByNumber,
    /// Messages that came damaged.
    pub damaged_kept_out: ByNumber,
    pub wrongs: Wrongs,
}

impl fmt::Display for Wrongs {
    fn fmt(&self, f: &mut fmt::Formatter<'_>) -> fmt::Result {
        let Wrongs {
            forged,
            twice,
            other_text,
            left_behind,
            moved,
            no_key,
        } = self;
        writeln!(
            f,
            "damaged and opened {forged}, opened twice {twice}, opened to another text {other_text}"
        )?;
        writeln!(
            f,
            "keys left in slots {left_behind}, refusals that moved a side {moved}, boxes without a key {no_key}"
        )
    }
}

impl fmt::Display for Counts {
    fn fmt(&self, f: &mut fmt::Formatter<'_>) -> fmt::Result {
        writeln!(f, "sent {}, refused {}", self.sent, self.unsent)?;
        writeln!(
            f,
            "opened {}, of them {} by a key put aside",
            self.opened, self.late
        )?;
        self.kept_out.print("kept out", f)?;
        self.damaged_kept_out.print("damaged, kept out", f)?;
        self.wrongs.fmt(f)
    }
}
