//! Talks in which everything comes in.

use model::command::Who;
use model::side::Mark;

use crate::pair::Pair;

fn sends(pair: &mut Pair, who: Who, texts: &[&[u8]]) -> Vec<Vec<u8>> {
    let post = pair.post(who);
    texts.iter().map(|text| post.send(text).unwrap()).collect()
}

fn marks(pair: &mut Pair, who: Who) -> Vec<(u32, u32)> {
    let aside = pair.post(who).side().aside;
    aside
        .keys()
        .map(|Mark { link, place }| (*link, *place))
        .collect()
}

#[test]
fn texts_of_every_length_pass_both_ways() {
    let mut pair = Pair::new();
    for length in 0..=1_000 {
        let text: Vec<u8> = (0..length).map(|index| (index * 7) as u8).collect();
        let from = if length % 2 == 0 {
            Who::First
        } else {
            Who::Second
        };
        pair.pass(from, &text);
    }
    assert_eq!(pair.first.side().drawn, 1_001);
    assert_eq!(pair.second.side().drawn, 1_002);
}

#[test]
fn messages_of_one_link_open_in_any_order() {
    let texts: [&[u8]; 3] = [b"zero", b"one", b"two"];
    for order in [
        [0, 1, 2],
        [0, 2, 1],
        [1, 0, 2],
        [1, 2, 0],
        [2, 0, 1],
        [2, 1, 0],
    ] {
        let mut pair = Pair::new();
        let messages = sends(&mut pair, Who::First, &texts);
        for index in order {
            let text = texts[index].to_vec();
            assert_eq!(pair.second.take(&messages[index]), Ok(text), "{order:?}");
        }
        assert_eq!(marks(&mut pair, Who::Second), []);
    }
}

#[test]
fn late_messages_of_old_links_open() {
    let mut pair = Pair::new();
    let zero = sends(&mut pair, Who::First, &[b"0/0", b"0/1", b"0/2"]);
    assert_eq!(pair.second.take(&zero[1]), Ok(b"0/1".to_vec()));
    let one = sends(&mut pair, Who::Second, &[b"1/0", b"1/1"]);
    assert_eq!(pair.first.take(&one[1]), Ok(b"1/1".to_vec()));
    let two = sends(&mut pair, Who::First, &[b"2/0", b"2/1"]);
    assert_eq!(pair.second.take(&two[1]), Ok(b"2/1".to_vec()));
    assert_eq!(marks(&mut pair, Who::First), [(1, 0)]);
    assert_eq!(marks(&mut pair, Who::Second), [(0, 0), (0, 2), (2, 0)]);

    let three = sends(&mut pair, Who::Second, &[b"3/0"]);
    assert_eq!(pair.first.take(&three[0]), Ok(b"3/0".to_vec()));
    assert_eq!(pair.second.take(&zero[2]), Ok(b"0/2".to_vec()));
    assert_eq!(pair.first.take(&one[0]), Ok(b"1/0".to_vec()));
    assert_eq!(pair.second.take(&two[0]), Ok(b"2/0".to_vec()));
    assert_eq!(pair.second.take(&zero[0]), Ok(b"0/0".to_vec()));
    assert_eq!(marks(&mut pair, Who::First), []);
    assert_eq!(marks(&mut pair, Who::Second), []);
}

#[test]
fn a_take_undone_by_a_stop_is_done_again_with_another_key() {
    let mut pair = Pair::new();
    let message = pair.first.send(b"again").unwrap();
    let side = pair.second.side();
    let undone = side.take(&message, &mut pair.second.keys).unwrap();
    pair.second.come_up();
    assert_eq!(pair.second.side(), side);

    assert_eq!(pair.second.take(&message), Ok(b"again".to_vec()));
    let after = pair.second.side();
    assert_ne!(after.half, undone.after.half);
    assert_eq!(after.taking, undone.after.taking);
    pair.pass(Who::Second, b"and on");
    pair.pass(Who::First, b"and on");
}
