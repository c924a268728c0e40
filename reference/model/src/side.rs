//! The bookkeeping of one side: what it has drawn, sent and taken, which keys it has put aside, and what it refuses.

use std::collections::BTreeSet;
use std::fmt;
use std::ops::Range;

/// The most bytes that a text may have.
pub const LONGEST_TEXT: usize = 1_000;
/// The most places of one link that one message may pass over.
pub const MOST_PASSED_OVER: u64 = 256;
/// The most keys that a side may have put aside.
pub const MOST_PUT_ASIDE: u64 = 512;

/// Which message: its link and its place on it.
#[derive(Clone, Copy, Debug, PartialEq, Eq, PartialOrd, Ord, Hash)]
pub struct Mark {
    pub link: u32,
    pub place: u32,
}

impl fmt::Display for Mark {
    fn fmt(&self, f: &mut fmt::Formatter<'_>) -> fmt::Result {
        write!(f, "{}/{}", self.link, self.place)
    }
}

/// What a message says of itself in the clear.
#[derive(Clone, Copy, Debug, PartialEq, Eq)]
pub struct Header {
    pub mark: Mark,
    /// How many messages its sender had sent on its link before.
    pub before: u32,
}

/// Why a step is refused.
#[derive(Clone, Copy, Debug, PartialEq, Eq)]
pub enum Refusal {
    TextTooLong,
    NoMessage,
    NoLinkToSendOn,
    NotAwaited,
    TooManyPassedOver,
    DoesNotOpen,
    NumberTooLarge,
}

impl Refusal {
    /// The number that a refusal is printed with.
    pub fn number(self) -> u8 {
        match self {
            Refusal::TextTooLong | Refusal::NoMessage => 1,
            Refusal::NoLinkToSendOn => 2,
            Refusal::NotAwaited => 3,
            Refusal::TooManyPassedOver => 4,
            Refusal::DoesNotOpen => 5,
            Refusal::NumberTooLarge => 6,
        }
    }
}

/// All that a side keeps between steps, keys left out.
#[derive(Clone, Debug, PartialEq, Eq)]
pub struct Side {
    /// The number of the key that it drew last.
    pub drawn: u32,
    /// How many it has sent on its link.
    pub sent: u32,
    /// The next place of the link that it takes on.
    pub taken: u32,
    /// How many it had sent on its link before.
    pub before: u32,
    /// The messages whose keys are put aside.
    pub aside: BTreeSet<Mark>,
}

/// The way by which a message comes in.
#[derive(Clone, Copy)]
enum Way {
    InTurn,
    FromAside,
    NewLink,
}

/// Places of one link that a message passes over.
struct Gap {
    link: u32,
    places: Range<u32>,
}

impl Gap {
    fn size(&self) -> u64 {
        u64::from(self.places.end.saturating_sub(self.places.start))
    }

    fn marks(self) -> impl Iterator<Item = Mark> {
        let link = self.link;
        self.places.map(move |place| Mark { link, place })
    }
}

impl Side {
    /// The side that begins: it has drawn key 1.
    pub fn first() -> Side {
        Side::fresh(1)
    }

    /// The side that answers: it drew key 0 beforehand.
    pub fn second() -> Side {
        Side::fresh(0)
    }

    fn fresh(drawn: u32) -> Side {
        Side {
            drawn,
            sent: 0,
            taken: 0,
            before: 0,
            aside: BTreeSet::new(),
        }
    }

    /// The link that it sends on, where there is one.
    pub fn sending_link(&self) -> Option<u32> {
        self.drawn.checked_sub(1)
    }

    /// The link that it takes on, where there is one.
    pub fn taking_link(&self) -> Option<u32> {
        self.drawn.checked_sub(2)
    }

    /// The message that leaves and the side after it, or why nothing is sent.
    pub fn send(&self, text_length: usize) -> Result<(Side, Header), Refusal> {
        if text_length > LONGEST_TEXT {
            return Err(Refusal::TextTooLong);
        }
        let link = self.sending_link().ok_or(Refusal::NoLinkToSendOn)?;
        let sent = self.sent.checked_add(1).ok_or(Refusal::NumberTooLarge)?;
        let mark = Mark {
            link,
            place: self.sent,
        };
        Ok((
            Side {
                sent,
                ..self.clone()
            },
            Header {
                mark,
                before: self.before,
            },
        ))
    }

    /// The side after a message was taken, or why it is not.
    pub fn take(&self, header: Header, opens: bool) -> Result<Side, Refusal> {
        let way = self.way(header.mark).ok_or(Refusal::NotAwaited)?;
        let gaps = self.gaps(way, header);
        if self.too_many(&gaps) {
            return Err(Refusal::TooManyPassedOver);
        }
        if !opens {
            return Err(Refusal::DoesNotOpen);
        }
        let mut after = self
            .moved_on(way, header.mark)
            .ok_or(Refusal::NumberTooLarge)?;
        after.aside.extend(gaps.into_iter().flat_map(Gap::marks));
        Ok(after)
    }

    fn way(&self, mark: Mark) -> Option<Way> {
        if self.taking_link() == Some(mark.link) && mark.place >= self.taken {
            Some(Way::InTurn)
        } else if self.aside.contains(&mark) {
            Some(Way::FromAside)
        } else if mark.link == self.drawn {
            Some(Way::NewLink)
        } else {
            None
        }
    }

    fn gaps(&self, way: Way, header: Header) -> Vec<Gap> {
        let Mark { link, place } = header.mark;
        match way {
            Way::InTurn => vec![Gap {
                link,
                places: self.taken..place,
            }],
            Way::FromAside => Vec::new(),
            Way::NewLink => {
                let rest = self.taking_link().map(|old| Gap {
                    link: old,
                    places: self.taken..header.before,
                });
                rest.into_iter()
                    .chain([Gap {
                        link,
                        places: 0..place,
                    }])
                    .collect()
            }
        }
    }

    fn too_many(&self, gaps: &[Gap]) -> bool {
        let held = self.aside.len() as u64 + gaps.iter().map(Gap::size).sum::<u64>();
        held > MOST_PUT_ASIDE || gaps.iter().any(|gap| gap.size() > MOST_PASSED_OVER)
    }

    /// The side past the message, the gaps not yet put aside; none where a number grows too large.
    fn moved_on(&self, way: Way, mark: Mark) -> Option<Side> {
        let mut after = self.clone();
        match way {
            Way::InTurn => after.taken = mark.place.checked_add(1)?,
            Way::FromAside => {
                after.aside.remove(&mark);
            }
            Way::NewLink => {
                after.drawn = self.drawn.checked_add(2)?;
                after.taken = mark.place.checked_add(1)?;
                after.before = self.sent;
                after.sent = 0;
            }
        }
        Some(after)
    }
}

#[cfg(test)]
mod tests {
    use super::*;

    fn header(link: u32, place: u32, before: u32) -> Header {
        Header {
            mark: Mark { link, place },
            before,
        }
    }

    #[test]
    fn a_count_does_not_pass_four_bytes() {
        let full = Side {
            sent: u32::MAX,
            ..Side::first()
        };
        assert_eq!(full.send(0), Err(Refusal::NumberTooLarge));
        assert_eq!(full.send(LONGEST_TEXT + 1), Err(Refusal::TextTooLong));
        let nearly = Side {
            sent: u32::MAX - 1,
            ..Side::first()
        };
        assert!(nearly.send(0).is_ok());
    }

    #[test]
    fn a_place_does_not_pass_four_bytes() {
        let late = Side {
            drawn: 2,
            taken: u32::MAX - 1,
            ..Side::second()
        };
        assert!(late.take(header(0, u32::MAX - 1, 0), true).is_ok());
        assert_eq!(
            late.take(header(0, u32::MAX, 0), true),
            Err(Refusal::NumberTooLarge)
        );
        assert_eq!(
            late.take(header(0, u32::MAX, 0), false),
            Err(Refusal::DoesNotOpen)
        );
    }

    #[test]
    fn a_link_does_not_pass_four_bytes() {
        let late = Side {
            drawn: u32::MAX,
            ..Side::first()
        };
        assert_eq!(
            late.take(header(u32::MAX, 0, 0), true),
            Err(Refusal::NumberTooLarge)
        );
    }

    #[test]
    fn a_count_of_any_size_is_refused_without_walking_through_it() {
        let side = Side {
            drawn: 2,
            ..Side::second()
        };
        assert_eq!(
            side.take(header(2, 0, u32::MAX), true),
            Err(Refusal::TooManyPassedOver)
        );
        assert_eq!(
            side.take(header(2, u32::MAX, 0), true),
            Err(Refusal::TooManyPassedOver)
        );
    }

    #[test]
    fn a_count_below_the_next_place_puts_nothing_aside() {
        let side = Side {
            drawn: 2,
            taken: 9,
            ..Side::second()
        };
        let after = side.take(header(2, 0, 4), true).unwrap();
        assert_eq!(
            after,
            Side {
                drawn: 4,
                taken: 1,
                ..Side::second()
            }
        );
    }
}
