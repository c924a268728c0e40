//! The exchange of tests/vectors/exchange.txt, whose bytes were worked out by another program.

use std::fs;

use model::command::Who;

use crate::pair::Pair;

const PATH: &str = concat!(
    env!("CARGO_MANIFEST_DIR"),
    "/../../tests/vectors/exchange.txt"
);

/// A message of the exchange.
struct Letter {
    from: Who,
    text: Vec<u8>,
    bytes: Vec<u8>,
}

fn side(word: &str) -> Who {
    match word {
        "first" => Who::First,
        "second" => Who::Second,
        _ => panic!("{word}"),
    }
}

fn bytes(word: &str) -> Vec<u8> {
    if word == "-" {
        return Vec::new();
    }
    let digit = |at| u8::from_str_radix(&word[at..at + 2], 16).unwrap();
    (0..word.len()).step_by(2).map(digit).collect()
}

fn letter<'a>(letters: &'a [Letter], number: &str) -> &'a Letter {
    &letters[number.parse::<usize>().unwrap() - 1]
}

#[test]
fn every_message_and_page_is_the_one_that_was_worked_out() {
    let mut pair = Pair::new();
    let mut letters: Vec<Letter> = Vec::new();
    let (mut taken, mut pages) = (0, 0);
    for line in fs::read_to_string(PATH).unwrap().lines() {
        let words: Vec<&str> = line.split(' ').collect();
        match words.as_slice() {
            ["send", who, text, written] => {
                let (from, text) = (side(who), bytes(text));
                let bytes = bytes(written);
                assert_eq!(pair.post(from).send(&text).as_ref(), Ok(&bytes), "{line}");
                letters.push(Letter { from, text, bytes });
            }
            ["take", number] => {
                let Letter { from, text, bytes } = letter(&letters, number);
                let opened = pair.post(from.other()).take(bytes);
                assert_eq!(opened.as_ref(), Ok(text), "{line}");
                taken += 1;
            }
            ["undone", number] => {
                let Letter { from, text, bytes } = letter(&letters, number);
                let post = pair.post(from.other());
                let opened = post.side().take(bytes, &mut post.keys).unwrap();
                assert_eq!(opened.text, *text, "{line}");
                post.come_up();
            }
            ["page", who, written] => {
                assert_eq!(pair.post(side(who)).page, bytes(written), "{line}");
                pages += 1;
            }
            _ => assert!(line.starts_with('#'), "{line}"),
        }
    }
    assert_eq!((letters.len(), taken, pages), (8, 6, 10));
}
