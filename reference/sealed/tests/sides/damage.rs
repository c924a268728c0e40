//! Every byte of a message damaged in every way: in turn, late and on a new link.

use model::command::Who;
use model::side::{Header, Mark};
use sealed::side::Side;

use crate::pair::{Pair, Post};

/// The numbers of a side, as the model keeps them.
pub fn numbers(side: &Side) -> model::side::Side {
    model::side::Side {
        drawn: side.drawn,
        sent: side.sent(),
        taken: side.taken(),
        before: side.before,
        aside: side.aside.keys().copied().collect(),
    }
}

/// What the model refuses a message with these bytes with, if it does not open.
fn expected(side: &Side, bytes: &[u8]) -> u8 {
    let number = |at: usize| u32::from_be_bytes(bytes[at..at + 4].try_into().unwrap());
    let header = Header {
        mark: Mark {
            link: number(1),
            place: number(5),
        },
        before: number(9),
    };
    let taken = numbers(side).take(header, false);
    taken.unwrap_err().number()
}

/// Damages each byte of a message, and then has the message itself taken.
fn damage_everywhere(post: &mut Post, message: &[u8], text: &[u8]) {
    let side = post.side();
    for at in 0..message.len() {
        for turned in 1..=255 {
            let mut damaged = message.to_vec();
            damaged[at] ^= turned;
            let number = match at {
                0 | 45 | 46 => 1,
                _ => expected(&side, &damaged),
            };
            assert_eq!(post.refused(&damaged), number, "byte {at}, {turned}");
        }
    }
    for end in 0..message.len() {
        assert_eq!(post.refused(&message[..end]), 1, "cut at {end}");
    }
    assert_eq!(post.refused(&[message, &[0]].concat()), 1);
    assert_eq!(post.take(message), Ok(text.to_vec()));
}

#[test]
fn on_the_first_link() {
    let mut pair = Pair::new();
    let message = pair.first.send(b"hello").unwrap();
    damage_everywhere(&mut pair.second, &message, b"hello");
}

#[test]
fn in_turn_and_late() {
    let mut pair = Pair::new();
    let late = pair.first.send(b"late").unwrap();
    pair.pass(Who::First, b"");
    let next = pair.first.send(b"").unwrap();
    let last = pair.first.send(b"last").unwrap();
    damage_everywhere(&mut pair.second, &last, b"last");
    damage_everywhere(&mut pair.second, &late, b"late");
    damage_everywhere(&mut pair.second, &next, b"");
}

#[test]
fn on_a_new_link_while_the_old_one_has_a_rest() {
    let mut pair = Pair::new();
    pair.pass(Who::First, b"");
    let rest = pair.first.send(b"rest").unwrap();
    pair.pass(Who::Second, b"");
    let passed_over = pair.first.send(b"passed over").unwrap();
    let new = pair.first.send(b"new").unwrap();
    damage_everywhere(&mut pair.second, &new, b"new");
    damage_everywhere(&mut pair.second, &rest, b"rest");
    damage_everywhere(&mut pair.second, &passed_over, b"passed over");
}
