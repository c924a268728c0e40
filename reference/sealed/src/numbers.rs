//! A key box of numbers: its keys are counted and hide nothing, so that two programs agree on every byte.

use model::command::Who;

use crate::keybox::KeyBox;
use crate::secrets::{JointSecret, PublicHalf};

/// A key, by the number of the draw that it came with.
#[derive(Clone, Copy, Debug, PartialEq, Eq)]
struct Draw(u64);

/// The box of one side.
#[derive(Clone, Debug, PartialEq, Eq)]
pub struct NumberBox {
    who: Who,
    /// The number of the next draw.
    next: u64,
    in_force: Option<Draw>,
    beside: Option<Draw>,
}

impl NumberBox {
    /// A box that has drawn nothing.
    pub fn new(who: Who) -> NumberBox {
        NumberBox {
            who,
            next: 0,
            in_force: None,
            beside: None,
        }
    }

    fn half(&self, key: Draw) -> PublicHalf {
        let mut half = [0; 32];
        half[0] = number(self.who);
        half[8..16].copy_from_slice(&key.0.to_be_bytes());
        PublicHalf(half)
    }

    /// The key of the box that has this public half.
    fn key(&self, half: &PublicHalf) -> Option<Draw> {
        let mut keys = self.in_force.into_iter().chain(self.beside);
        keys.find(|key| self.half(*key) == *half)
    }
}

impl KeyBox for NumberBox {
    fn draw(&mut self) -> Option<PublicHalf> {
        let key = Draw(self.next);
        self.next = self.next.checked_add(1)?;
        self.beside = Some(key);
        Some(self.half(key))
    }

    fn joint(&self, own: &PublicHalf, other: &PublicHalf) -> Option<JointSecret> {
        self.key(own)?;
        if other.0[0] != number(self.who.other()) {
            return None;
        }
        let (first, second) = match self.who {
            Who::First => (own, other),
            Who::Second => (other, own),
        };
        let mut joint = [0; 32];
        joint[..16].copy_from_slice(&first.0[..16]);
        joint[16..].copy_from_slice(&second.0[..16]);
        Some(JointSecret(joint))
    }

    fn keep(&mut self, named: &PublicHalf) {
        if let Some(key) = self.key(named) {
            self.in_force = Some(key);
            self.beside = None;
        }
    }
}

/// The number of a side in its public halves.
fn number(who: Who) -> u8 {
    match who {
        Who::First => 0,
        Who::Second => 1,
    }
}

#[cfg(test)]
mod tests {
    use super::*;
    use crate::hex;

    fn half(written: &str) -> PublicHalf {
        PublicHalf(hex::array(written))
    }

    #[test]
    fn public_halves_say_the_side_and_the_draw() {
        let mut second = NumberBox::new(Who::Second);
        second.next = 0x0102030405060708;
        assert_eq!(
            second.draw(),
            Some(half(
                "0100000000000000 0102030405060708 0000000000000000 0000000000000000"
            ))
        );
        assert_eq!(
            NumberBox::new(Who::First).draw(),
            Some(half(&"00".repeat(32)))
        );
    }

    #[test]
    fn two_boxes_agree() {
        let (mut first, mut second) = (NumberBox::new(Who::First), NumberBox::new(Who::Second));
        let a = first.draw().unwrap();
        second.draw().unwrap();
        let b = second.draw().unwrap();
        let joint = JointSecret(hex::array(
            "0000000000000000 0000000000000000 0100000000000000 0000000000000001",
        ));
        assert_eq!(first.joint(&a, &b), Some(joint.clone()));
        assert_eq!(second.joint(&b, &a), Some(joint));
    }

    #[test]
    fn the_half_that_came_is_taken_as_it_came() {
        let mut first = NumberBox::new(Who::First);
        let own = first.draw().unwrap();
        let mut came = [9; 32];
        came[0] = 1;
        let joint = first.joint(&own, &PublicHalf(came)).unwrap();
        assert_eq!(joint.0[..16], own.0[..16]);
        assert_eq!(joint.0[16..], came[..16]);
    }

    #[test]
    fn a_half_of_its_own_side_or_of_none_is_not_taken() {
        let mut first = NumberBox::new(Who::First);
        let own = first.draw().unwrap();
        for side in (0..=255).filter(|side| *side != 1) {
            let mut came = own;
            came.0[0] = side;
            assert_eq!(first.joint(&own, &came), None, "{side}");
        }
    }

    #[test]
    fn a_key_is_kept_beside_the_one_in_force_until_one_of_them_is_named() {
        let mut first = NumberBox::new(Who::First);
        let other = NumberBox::new(Who::Second).draw().unwrap();
        let zero = first.draw().unwrap();
        first.keep(&zero);
        let one = first.draw().unwrap();
        assert!(first.joint(&zero, &other).is_some());
        assert!(first.joint(&one, &other).is_some());

        let mut undone = first.clone();
        undone.keep(&zero);
        assert!(undone.joint(&zero, &other).is_some());
        assert_eq!(undone.joint(&one, &other), None);
        let two = undone.draw().unwrap();
        assert!(two != zero && two != one);

        first.keep(&one);
        assert!(first.joint(&one, &other).is_some());
        assert_eq!(first.joint(&zero, &other), None);
    }

    #[test]
    fn behind_the_last_number_there_is_no_further_key() {
        let mut last = NumberBox {
            next: u64::MAX - 1,
            ..NumberBox::new(Who::First)
        };
        let key = last.draw().unwrap();
        let before = last.clone();
        assert_eq!(last.draw(), None);
        assert_eq!(last, before);
        assert!(last.key(&key).is_some());
    }
}
