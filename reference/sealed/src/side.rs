//! A side with its keys: how it begins, sends and takes.

use std::collections::BTreeMap;

use model::side::{Mark, Refusal, MOST_PASSED_OVER, MOST_PUT_ASIDE};

use crate::chains::Chain;
use crate::keybox::KeyBox;
use crate::message::{Header, Message, Text};
use crate::secrets::{MessageKey, PublicHalf, RootKey};

/// All that a side holds but for the secret halves, which are in its key box.
#[derive(Clone, Debug, PartialEq, Eq)]
pub struct Side {
    /// The number of the key that it drew last.
    pub drawn: u32,
    /// How many it had sent on its link before.
    pub before: u32,
    /// The public half of the key that it drew last.
    pub half: PublicHalf,
    /// The root with the number `drawn`.
    pub root: RootKey,
    /// The chain of link `drawn` - 1 at the place of the next message, where there is such a link.
    pub sending: Option<Chain>,
    /// The chain of link `drawn` - 2 at its next place, where there is such a link.
    pub taking: Option<Chain>,
    /// The keys put aside.
    pub aside: BTreeMap<Mark, MessageKey>,
}

/// The box has no further key, or none that goes with the other's public half.
#[derive(Clone, Copy, Debug, PartialEq, Eq)]
pub struct NoKey;

/// A message that was sent, and the side after it.
#[derive(Clone, Debug, PartialEq, Eq)]
pub struct Sent {
    pub after: Side,
    pub message: Message,
}

/// A text that was opened, and the side after it.
#[derive(Clone, Debug, PartialEq, Eq)]
pub struct Taken {
    pub after: Side,
    pub text: Vec<u8>,
}

/// Why bytes were not taken.
#[derive(Clone, Copy, Debug, PartialEq, Eq)]
pub enum NotTaken {
    Refused(Refusal),
    NoKey,
}

impl From<Refusal> for NotTaken {
    fn from(refusal: Refusal) -> NotTaken {
        NotTaken::Refused(refusal)
    }
}

impl From<NoKey> for NotTaken {
    fn from(_: NoKey) -> NotTaken {
        NotTaken::NoKey
    }
}

/// A key that was just drawn, and the link that it begins.
struct Begun {
    half: PublicHalf,
    root: RootKey,
    sending: Chain,
}

impl Side {
    /// The side that begins: it draws key 1, and sends on link 0.
    pub fn first(
        root: &RootKey,
        half_of_key_0: &PublicHalf,
        keys: &mut impl KeyBox,
    ) -> Result<Side, NoKey> {
        let begun = begin_link(root, half_of_key_0, keys)?;
        Ok(Side {
            drawn: 1,
            before: 0,
            half: begun.half,
            root: begun.root,
            sending: Some(begun.sending),
            taking: None,
            aside: BTreeMap::new(),
        })
    }

    /// The side that answers: its box drew key 0 beforehand.
    pub fn second(root: &RootKey, half_of_key_0: &PublicHalf) -> Side {
        Side {
            drawn: 0,
            before: 0,
            half: *half_of_key_0,
            root: root.clone(),
            sending: None,
            taking: None,
            aside: BTreeMap::new(),
        }
    }

    /// The number of messages that it has sent on its link.
    pub fn sent(&self) -> u32 {
        self.sending.as_ref().map_or(0, |chain| chain.place)
    }

    /// The next place of the link that it takes on.
    pub fn taken(&self) -> u32 {
        self.taking.as_ref().map_or(0, |chain| chain.place)
    }

    /// Sends a text.
    pub fn send(&self, text: &[u8]) -> Result<Sent, Refusal> {
        let text = Text::new(text).ok_or(Refusal::TextTooLong)?;
        let (link, chain) = self.sending_link().ok_or(Refusal::NoLinkToSendOn)?;
        let sending = chain.next().ok_or(Refusal::NumberTooLarge)?;
        let header = Header {
            mark: Mark {
                link,
                place: chain.place,
            },
            before: self.before,
            half: self.half,
        };
        let after = Side {
            sending: Some(sending),
            ..self.clone()
        };
        let message = Message::seal(header, &chain.value.key(), text);
        Ok(Sent { after, message })
    }

    /// Takes bytes. A key that it draws is beside the one in force until `keep` of the box.
    pub fn take(&self, bytes: &[u8], keys: &mut impl KeyBox) -> Result<Taken, NotTaken> {
        let message = Message::read(bytes).ok_or(Refusal::NoMessage)?;
        let mark = message.header().mark;
        if let Some(chain) = self.in_turn(mark) {
            return Ok(self.take_in_turn(&message, chain)?);
        }
        if let Some(key) = self.aside.get(&mark) {
            return Ok(self.take_from_aside(&message, key)?);
        }
        if mark.link == self.drawn {
            return self.take_on_new_link(&message, keys);
        }
        Err(Refusal::NotAwaited.into())
    }

    fn sending_link(&self) -> Option<(u32, &Chain)> {
        self.drawn.checked_sub(1).zip(self.sending.as_ref())
    }

    fn taking_link(&self) -> Option<(u32, &Chain)> {
        self.drawn.checked_sub(2).zip(self.taking.as_ref())
    }

    /// The chain that a message in turn belongs to.
    fn in_turn(&self, mark: Mark) -> Option<&Chain> {
        let (link, chain) = self.taking_link()?;
        (link == mark.link && chain.place <= mark.place).then_some(chain)
    }

    fn take_in_turn(&self, message: &Message, chain: &Chain) -> Result<Taken, Refusal> {
        let Mark { link, place } = message.header().mark;
        self.check_room(&[chain.places_before(place)])?;
        let (passed, at) = chain.walk(place);
        let text = opened(message, &at.value.key())?;
        let taking = at.next().ok_or(Refusal::NumberTooLarge)?;
        let mut after = Side {
            taking: Some(taking),
            ..self.clone()
        };
        after.put_aside(link, passed);
        Ok(Taken { after, text })
    }

    fn take_from_aside(&self, message: &Message, key: &MessageKey) -> Result<Taken, Refusal> {
        let text = opened(message, key)?;
        let mut after = self.clone();
        after.aside.remove(&message.header().mark);
        Ok(Taken { after, text })
    }

    fn take_on_new_link(
        &self,
        message: &Message,
        keys: &mut impl KeyBox,
    ) -> Result<Taken, NotTaken> {
        let Header { mark, before, half } = message.header();
        let old = self.taking_link();
        let left = old.map_or(0, |(_, chain)| chain.places_before(*before));
        self.check_room(&[left, mark.place])?;

        let joint = keys.joint(&self.half, half).ok_or(Refusal::DoesNotOpen)?;
        let (root, chain) = self.root.link(&joint);
        let (passed, at) = chain.walk(mark.place);
        let text = opened(message, &at.value.key())?;

        let drawn = self.drawn.checked_add(2).ok_or(Refusal::NumberTooLarge)?;
        let taking = at.next().ok_or(Refusal::NumberTooLarge)?;
        let begun = begin_link(&root, half, keys).inspect_err(|_| keys.keep(&self.half))?;
        let mut after = Side {
            drawn,
            before: self.sent(),
            half: begun.half,
            root: begun.root,
            sending: Some(begun.sending),
            taking: Some(taking),
            aside: self.aside.clone(),
        };
        if let Some((link, chain)) = old {
            after.put_aside(link, chain.walk(*before).0);
        }
        after.put_aside(mark.link, passed);
        Ok(Taken { after, text })
    }

    /// Whether so many places of each link may be passed over.
    fn check_room(&self, gaps: &[u32]) -> Result<(), Refusal> {
        let gaps = gaps.iter().map(|gap| u64::from(*gap));
        let held = self.aside.len() as u64 + gaps.clone().sum::<u64>();
        if held > MOST_PUT_ASIDE || gaps.max() > Some(MOST_PASSED_OVER) {
            return Err(Refusal::TooManyPassedOver);
        }
        Ok(())
    }

    fn put_aside(&mut self, link: u32, passed: Vec<(u32, MessageKey)>) {
        let keys = passed.into_iter();
        self.aside
            .extend(keys.map(|(place, key)| (Mark { link, place }, key)));
    }
}

fn opened(message: &Message, key: &MessageKey) -> Result<Vec<u8>, Refusal> {
    message.open(key).ok_or(Refusal::DoesNotOpen)
}

/// Draws a key and makes the link of it and the other's last key.
fn begin_link(
    root: &RootKey,
    others_half: &PublicHalf,
    keys: &mut impl KeyBox,
) -> Result<Begun, NoKey> {
    let half = keys.draw().ok_or(NoKey)?;
    let joint = keys.joint(&half, others_half).ok_or(NoKey)?;
    let (root, sending) = root.link(&joint);
    Ok(Begun {
        half,
        root,
        sending,
    })
}
