//! Two sides with boxes of numbers, each kept as its page between steps.

use model::command::Who;
use model::side::Refusal;
use sealed::keybox::KeyBox;
use sealed::numbers::NumberBox;
use sealed::page;
use sealed::secrets::RootKey;
use sealed::side::{NotTaken, Side};

/// Root 0 of every pair: the bytes 0 to 31.
pub fn root_0() -> RootKey {
    let mut root = [0; 32];
    for (value, byte) in (0..).zip(&mut root) {
        *byte = value;
    }
    RootKey(root)
}

/// One side: its box and its page.
#[derive(Clone, Debug, PartialEq, Eq)]
pub struct Post {
    pub who: Who,
    pub keys: NumberBox,
    pub page: Vec<u8>,
}

impl Post {
    pub fn side(&self) -> Side {
        page::read(self.who, &self.page).unwrap()
    }

    /// Writes the page of the side after a step.
    pub fn write(&mut self, after: &Side) {
        self.page = page::write(after);
        self.keys.keep(&after.half);
    }

    /// Comes up from the page, after a stop before a write.
    pub fn come_up(&mut self) {
        let named = self.side().half;
        self.keys.keep(&named);
    }

    pub fn send(&mut self, text: &[u8]) -> Result<Vec<u8>, Refusal> {
        let sent = self.side().send(text)?;
        self.write(&sent.after);
        Ok(sent.message.write())
    }

    pub fn take(&mut self, bytes: &[u8]) -> Result<Vec<u8>, NotTaken> {
        let taken = self.side().take(bytes, &mut self.keys)?;
        self.write(&taken.after);
        Ok(taken.text)
    }

    /// The number that bytes are refused with; box and page must be as they were.
    pub fn refused(&mut self, bytes: &[u8]) -> u8 {
        let before = self.clone();
        match self.take(bytes) {
            Err(NotTaken::Refused(refusal)) => {
                assert_eq!(*self, before);
                refusal.number()
            }
            other => panic!("{other:?}"),
        }
    }
}

#[derive(Clone)]
pub struct Pair {
    pub first: Post,
    pub second: Post,
}

impl Pair {
    /// Two sides that have sent nothing.
    pub fn new() -> Pair {
        let mut first_keys = NumberBox::new(Who::First);
        let mut second_keys = NumberBox::new(Who::Second);
        let half_of_key_0 = second_keys.draw().unwrap();
        let first = Side::first(&root_0(), &half_of_key_0, &mut first_keys).unwrap();
        let second = Side::second(&root_0(), &half_of_key_0);
        Pair {
            first: begun(Who::First, first_keys, &first),
            second: begun(Who::Second, second_keys, &second),
        }
    }

    pub fn post(&mut self, who: Who) -> &mut Post {
        match who {
            Who::First => &mut self.first,
            Who::Second => &mut self.second,
        }
    }

    /// Sends a text and has it taken.
    pub fn pass(&mut self, from: Who, text: &[u8]) {
        let bytes = self.post(from).send(text).unwrap();
        assert_eq!(self.post(from.other()).take(&bytes), Ok(text.to_vec()));
    }
}

fn begun(who: Who, keys: NumberBox, side: &Side) -> Post {
    let mut post = Post {
        who,
        keys,
        page: Vec::new(),
    };
    post.write(side);
    post
}
