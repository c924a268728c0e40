//! Each refusal by its number, and the answer of a box without a key.

use model::command::Who;
use model::side::{Mark, Refusal};
use sealed::chains::Chain;
use sealed::keybox::KeyBox;
use sealed::message::{Header, Message, Text};
use sealed::numbers::NumberBox;
use sealed::secrets::{ChainKey, JointSecret, PublicHalf};
use sealed::side::{NoKey, NotTaken, Side};

use crate::pair::{root_0, Pair, Post};

/// So many messages without text, sent one behind the other.
fn sends(post: &mut Post, count: usize) -> Vec<Vec<u8>> {
    (0..count).map(|_| post.send(b"").unwrap()).collect()
}

/// A message with the text "far", sealed with the key of a chain at its place.
fn sealed_at(link: u32, chain: &Chain, half: PublicHalf) -> Vec<u8> {
    let header = Header {
        mark: Mark {
            link,
            place: chain.place,
        },
        before: 0,
        half,
    };
    Message::seal(header, &chain.value.key(), Text::new(b"far").unwrap()).write()
}

fn with_last_bit_turned(bytes: &[u8]) -> Vec<u8> {
    let mut turned = bytes.to_vec();
    *turned.last_mut().unwrap() ^= 1;
    turned
}

#[test]
fn a_text_above_1000_bytes_is_refused_with_1_before_2() {
    let mut pair = Pair::new();
    assert!(pair.first.send(&[0; 1_000]).is_ok());
    assert_eq!(pair.first.send(&[0; 1_001]), Err(Refusal::TextTooLong));
    assert_eq!(pair.second.send(&[0; 1_001]), Err(Refusal::TextTooLong));
    assert_eq!(Refusal::TextTooLong.number(), 1);
}

#[test]
fn the_second_cannot_send_before_it_has_taken() {
    let mut pair = Pair::new();
    assert_eq!(pair.second.send(b""), Err(Refusal::NoLinkToSendOn));
    assert_eq!(Refusal::NoLinkToSendOn.number(), 2);
    pair.pass(Who::First, b"");
    pair.pass(Who::Second, b"");
}

#[test]
fn a_count_that_would_not_fit_is_refused_with_6_behind_1() {
    let mut side = Pair::new().first.side();
    side.sending.as_mut().unwrap().place = u32::MAX - 1;
    let sent = side.send(b"").unwrap();
    assert_eq!(sent.message.header().mark.place, u32::MAX - 1);
    assert_eq!(sent.after.send(b""), Err(Refusal::NumberTooLarge));
    assert_eq!(sent.after.send(&[0; 1_001]), Err(Refusal::TextTooLong));
    assert_eq!(Refusal::NumberTooLarge.number(), 6);
}

#[test]
fn what_was_opened_is_refused_with_3() {
    let mut pair = Pair::new();
    let messages = sends(&mut pair.first, 3);
    pair.second.take(&messages[2]).unwrap();
    pair.second.take(&messages[0]).unwrap();
    assert_eq!(pair.second.refused(&messages[2]), 3);
    assert_eq!(pair.second.refused(&messages[0]), 3);
    pair.pass(Who::Second, b"");
    pair.pass(Who::First, b"");
    assert_eq!(pair.second.refused(&messages[2]), 3);
}

#[test]
fn a_message_given_back_to_its_sender_is_refused_with_3() {
    let mut pair = Pair::new();
    for _ in 0..3 {
        for who in [Who::First, Who::Second] {
            let bytes = pair.post(who).send(b"mine").unwrap();
            assert_eq!(pair.post(who).refused(&bytes), 3);
            pair.post(who.other()).take(&bytes).unwrap();
            assert_eq!(pair.post(who).refused(&bytes), 3);
        }
    }
}

#[test]
fn no_more_than_256_places_are_passed_over_in_turn() {
    let mut pair = Pair::new();
    let messages = sends(&mut pair.first, 259);
    pair.second.take(&messages[0]).unwrap();
    assert_eq!(pair.second.refused(&messages[258]), 4);
    assert_eq!(
        pair.second.refused(&with_last_bit_turned(&messages[258])),
        4
    );
    assert_eq!(
        pair.second.refused(&with_last_bit_turned(&messages[257])),
        5
    );
    assert_eq!(pair.second.take(&messages[257]), Ok(Vec::new()));
    assert_eq!(pair.second.side().aside.len(), 256);
}

#[test]
fn no_more_than_256_places_are_passed_over_on_a_new_link() {
    let mut pair = Pair::new();
    let messages = sends(&mut pair.first, 258);
    assert_eq!(pair.second.refused(&messages[257]), 4);
    assert_eq!(
        pair.second.refused(&with_last_bit_turned(&messages[257])),
        4
    );
    assert_eq!(
        pair.second.refused(&with_last_bit_turned(&messages[256])),
        5
    );
    assert_eq!(pair.second.take(&messages[256]), Ok(Vec::new()));
}

#[test]
fn no_more_than_256_places_of_the_old_link_are_passed_over() {
    let mut pair = Pair::new();
    let old = sends(&mut pair.first, 258);
    pair.second.take(&old[0]).unwrap();
    pair.pass(Who::Second, b"");
    let new = pair.first.send(b"new").unwrap();
    assert_eq!(pair.second.refused(&new), 4);
    assert_eq!(pair.second.refused(&with_last_bit_turned(&new)), 4);
    pair.second.take(&old[1]).unwrap();
    assert_eq!(pair.second.refused(&with_last_bit_turned(&new)), 5);
    assert_eq!(pair.second.take(&new), Ok(b"new".to_vec()));
    assert_eq!(pair.second.take(&old[257]), Ok(Vec::new()));
}

#[test]
fn no_more_than_512_keys_are_put_aside() {
    let mut pair = Pair::new();
    let messages = sends(&mut pair.first, 516);
    pair.second.take(&messages[256]).unwrap();
    pair.second.take(&messages[513]).unwrap();
    assert_eq!(pair.second.side().aside.len(), 512);
    assert_eq!(pair.second.refused(&messages[515]), 4);
    assert_eq!(
        pair.second.refused(&with_last_bit_turned(&messages[515])),
        4
    );
    pair.second.take(&messages[7]).unwrap();
    assert_eq!(pair.second.take(&messages[515]), Ok(Vec::new()));
    assert_eq!(pair.second.side().aside.len(), 512);
}

#[test]
fn a_place_that_would_not_fit_is_refused_with_6_behind_5() {
    let mut post = Pair::new().second;
    let chain = Chain {
        place: u32::MAX - 2,
        value: ChainKey([8; 32]),
    };
    let before = Side {
        drawn: 2,
        sending: Some(chain.clone()),
        taking: Some(chain.clone()),
        ..post.side()
    };
    post.write(&before);
    let (_, last) = chain.walk(u32::MAX);
    let bytes = sealed_at(0, &last, before.half);
    assert_eq!(post.refused(&bytes), 6);
    assert_eq!(post.refused(&with_last_bit_turned(&bytes)), 5);

    let bytes = sealed_at(0, &chain.next().unwrap(), before.half);
    assert_eq!(post.take(&bytes), Ok(b"far".to_vec()));
    assert_eq!(post.side().taken(), u32::MAX);
}

/// A first side that has drawn the key with this number, and a message that begins a new link with it.
fn far_on(drawn: u32) -> (Post, Vec<u8>) {
    let mut pair = Pair::new();
    pair.pass(Who::First, b"");
    pair.pass(Who::Second, b"");
    let mut post = pair.first;
    let side = Side {
        drawn,
        ..post.side()
    };
    let half = NumberBox::new(Who::Second).draw().unwrap();
    let joint = post.keys.joint(&side.half, &half).unwrap();
    let (_, chain) = side.root.link(&joint);
    post.write(&side);
    (post, sealed_at(drawn, &chain, half))
}

#[test]
fn a_key_whose_number_would_not_fit_is_refused_with_6_behind_5() {
    let (mut post, bytes) = far_on(u32::MAX);
    assert_eq!(post.refused(&bytes), 6);
    assert_eq!(post.refused(&with_last_bit_turned(&bytes)), 5);
    let (mut post, bytes) = far_on(u32::MAX - 2);
    assert_eq!(post.take(&bytes), Ok(b"far".to_vec()));
    assert_eq!(post.side().drawn, u32::MAX);
}

#[test]
fn a_half_that_the_box_does_not_take_is_refused_with_5() {
    let mut pair = Pair::new();
    let mut bytes = pair.first.send(b"").unwrap();
    bytes[13] = 1;
    assert_eq!(pair.second.refused(&bytes), 5);
}

#[test]
fn a_half_that_is_not_the_senders_is_refused_with_5_in_turn_and_late() {
    let mut pair = Pair::new();
    let mut messages = sends(&mut pair.first, 3);
    pair.second.take(&messages[1]).unwrap();
    for index in [0, 2] {
        messages[index][13] = 1;
        assert_eq!(pair.second.refused(&messages[index]), 5);
        messages[index][13] = 0;
        assert_eq!(pair.second.take(&messages[index]), Ok(Vec::new()));
    }
}

/// A box that draws no further key, or one that goes with no half.
#[derive(Clone, Debug, PartialEq, Eq)]
struct LastKey {
    keys: NumberBox,
    /// The public half of a key that it still draws, and takes no half with.
    useless: Option<PublicHalf>,
    forgotten: bool,
}

impl KeyBox for LastKey {
    fn draw(&mut self) -> Option<PublicHalf> {
        self.useless
    }

    fn joint(&self, own: &PublicHalf, other: &PublicHalf) -> Option<JointSecret> {
        self.keys.joint(own, other)
    }

    fn keep(&mut self, named: &PublicHalf) {
        self.keys.keep(named);
        self.forgotten = true;
    }
}

#[test]
fn a_box_without_a_further_key_is_an_answer_of_its_own() {
    let mut pair = Pair::new();
    let bytes = pair.first.send(b"").unwrap();
    let side = pair.second.side();
    for useless in [None, Some(PublicHalf([99; 32]))] {
        let mut keys = LastKey {
            keys: pair.second.keys.clone(),
            useless,
            forgotten: false,
        };
        assert_eq!(side.take(&bytes, &mut keys), Err(NotTaken::NoKey));
        assert_eq!(keys.keys, pair.second.keys);
        assert!(keys.forgotten || useless.is_none());
        let damaged = with_last_bit_turned(&bytes);
        let refusal = Refusal::DoesNotOpen.into();
        assert_eq!(side.take(&damaged, &mut keys), Err(refusal));
    }
    assert_eq!(pair.second.take(&bytes), Ok(Vec::new()));
}

#[test]
fn the_first_cannot_begin_without_a_key() {
    let half = NumberBox::new(Who::Second).draw().unwrap();
    let mut keys = LastKey {
        keys: NumberBox::new(Who::First),
        useless: None,
        forgotten: false,
    };
    assert_eq!(Side::first(&root_0(), &half, &mut keys), Err(NoKey));
    let own = NumberBox::new(Who::First).draw().unwrap();
    let mut keys = NumberBox::new(Who::First);
    assert_eq!(Side::first(&root_0(), &own, &mut keys), Err(NoKey));
}
