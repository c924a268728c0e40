//! The rule that says which messages lie open, from the sides that were read out.

use std::collections::{BTreeMap, BTreeSet};

use crate::side::{Mark, Side};

/// What the readings so far come to under the rule.
#[derive(Default)]
pub struct Rule {
    /// The keys drawn last by a side when it was read.
    drawn: BTreeSet<u32>,
    /// For a link, the lowest next place at which its sender was read while sending on it.
    sender_at: BTreeMap<u32, u32>,
    /// For a link, the lowest next place at which its taker was read while taking on it.
    taker_at: BTreeMap<u32, u32>,
    /// The messages whose keys a side had put aside when it was read.
    aside: BTreeSet<Mark>,
    /// The links that lie open.
    links: BTreeSet<u32>,
}

impl Rule {
    /// Counts one more reading in.
    pub fn read(&mut self, side: &Side) {
        self.drawn.insert(side.drawn);
        if let Some(link) = side.sending_link() {
            lower(&mut self.sender_at, link, side.sent);
        }
        if let Some(link) = side.taking_link() {
            lower(&mut self.taker_at, link, side.taken);
        }
        self.aside.extend(&side.aside);
        self.links = self.open_links();
    }

    /// Whether a message's key lies open.
    pub fn is_open(&self, mark: Mark) -> bool {
        let reached =
            |at: &BTreeMap<u32, u32>| at.get(&mark.link).is_some_and(|next| *next <= mark.place);
        self.links.contains(&mark.link)
            || reached(&self.sender_at)
            || reached(&self.taker_at)
            || self.aside.contains(&mark)
    }

    /// Link n lies open if root n does and a side was read that had drawn key n or n + 1;
    /// root n lies open if a side was read that had drawn key n, or link n - 1 lies open.
    fn open_links(&self) -> BTreeSet<u32> {
        let mut open = BTreeSet::new();
        let last = self.drawn.last().copied().unwrap_or(0);
        for n in 0..=last {
            let here = self.drawn.contains(&n);
            let root = here
                || n.checked_sub(1)
                    .is_some_and(|previous| open.contains(&previous));
            if root && (here || self.drawn.contains(&(n + 1))) {
                open.insert(n);
            }
        }
        open
    }
}

fn lower(at: &mut BTreeMap<u32, u32>, link: u32, next: u32) {
    let lowest = at.entry(link).or_insert(next);
    *lowest = next.min(*lowest);
}
