//! Random texts, and bytes damaged on their way.

use crate::dice::Dice;

/// The length that one in 50 texts has: the longest that is sent.
const LONG: usize = 1_000;

/// A text of random bytes, mostly shorter than 120.
pub fn random_text(dice: &mut Dice) -> Vec<u8> {
    let length = if dice.one_in(50) {
        LONG
    } else {
        dice.below(120)
    };
    (0..length).map(|_| dice.byte()).collect()
}

/// The bytes, which are not none, with the last cut off, with one more, or mostly with a bit turned.
pub fn damaged(dice: &mut Dice, bytes: &[u8]) -> Vec<u8> {
    let mut bytes = bytes.to_vec();
    // The place is thrown for in any case, and before the kind of damage.
    let at = dice.below(bytes.len());
    match dice.below(10) {
        0 => {
            bytes.pop();
        }
        1 => bytes.push(dice.byte()),
        _ => bytes[at] ^= 1 << dice.below(8),
    }
    bytes
}

#[cfg(test)]
mod tests {
    use super::*;
    use crate::dice::Seed;

    #[test]
    fn texts_are_short_or_the_longest() {
        let mut dice = Dice::new(Seed(1));
        let lengths: Vec<usize> = (0..2_000).map(|_| random_text(&mut dice).len()).collect();
        assert!(lengths
            .iter()
            .all(|length| *length < 120 || *length == LONG));
        assert!(lengths.contains(&0) && lengths.contains(&119) && lengths.contains(&LONG));
    }

    #[test]
    fn damaged_bytes_are_other_bytes() {
        let mut dice = Dice::new(Seed(2));
        let lengths: Vec<usize> = (0..200)
            .map(|_| damaged(&mut dice, b"whole"))
            .inspect(|bytes| assert_ne!(bytes, b"whole"))
            .map(|bytes| bytes.len())
            .collect();
        assert!([4, 5, 6].iter().all(|length| lengths.contains(length)));
    }
}
