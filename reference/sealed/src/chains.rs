//! Links and their chains: how roots, chain values and message keys come out of one another.

use crate::hkdf::hkdf;
use crate::hmac::hmac;
use crate::secrets::{ChainKey, JointSecret, MessageKey, RootKey};

impl RootKey {
    /// The next root, and the chain of the link at place 0.
    pub fn link(&self, joint: &JointSecret) -> (RootKey, Chain) {
        let made: [u8; 64] = hkdf(&self.0, &joint.0, b"");
        let (mut root, mut value) = ([0; 32], [0; 32]);
        root.copy_from_slice(&made[..32]);
        value.copy_from_slice(&made[32..]);
        let chain = Chain {
            place: 0,
            value: ChainKey(value),
        };
        (RootKey(root), chain)
    }
}

impl ChainKey {
    /// The key of the message at this place.
    pub fn key(&self) -> MessageKey {
        MessageKey(hmac(&self.0, &[1]).0)
    }

    /// The value at the next place.
    pub fn next(&self) -> ChainKey {
        ChainKey(hmac(&self.0, &[2]).0)
    }
}

/// A link's chain at one of its places.
#[derive(Clone, Debug, PartialEq, Eq)]
pub struct Chain {
    pub place: u32,
    pub value: ChainKey,
}

impl Chain {
    /// The chain at the next place; none where its number would not fit four bytes.
    pub fn next(&self) -> Option<Chain> {
        Some(Chain {
            place: self.place.checked_add(1)?,
            value: self.value.next(),
        })
    }

    /// How many places there are from this one to the one before the given.
    pub fn places_before(&self, place: u32) -> u32 {
        place.saturating_sub(self.place)
    }

    /// The keys of all places before the given one, and the chain behind them.
    pub fn walk(&self, place: u32) -> (Vec<(u32, MessageKey)>, Chain) {
        let mut chain = self.clone();
        let mut passed = Vec::new();
        for at in self.place..place {
            passed.push((at, chain.value.key()));
            chain = Chain {
                place: at + 1,
                value: chain.value.next(),
            };
        }
        (passed, chain)
    }
}

#[cfg(test)]
mod tests {
    use super::*;
    use crate::hex;

    fn chain() -> Chain {
        RootKey([3; 32]).link(&JointSecret([4; 32])).1
    }

    /// The expected values are those of Python's cryptography (HKDF) and hmac.
    #[test]
    fn a_link_from_root_and_joint_secret() {
        let (root, chain) = RootKey([3; 32]).link(&JointSecret([4; 32]));
        assert_eq!(
            root,
            RootKey(hex::array(
                "7fdeed277a98277f2d133075a335f854016c5dec4c999b9e1b285ec68203d020"
            ))
        );
        assert_eq!(chain.place, 0);
        assert_eq!(
            chain.value,
            ChainKey(hex::array(
                "831234b1f13686ccaf38d4377a02b59e8544fbaa64c437b8260a4f4e3bf81417"
            ))
        );
        assert_eq!(
            chain.value.key(),
            MessageKey(hex::array(
                "749eee7ac89c03b07b3e4288d22147b74344e9aa806b8e6428bb4c72be944dab"
            ))
        );
        assert_eq!(
            chain.value.next(),
            ChainKey(hex::array(
                "dd596b23cd43580679b808a9b82c8eddeaa786ebf4249ee5bdf28c03f77c41a4"
            ))
        );
    }

    #[test]
    fn a_walk_gives_the_key_of_each_place_it_passes() {
        let (passed, end) = chain().walk(3);
        let one = chain().next().unwrap();
        let two = one.next().unwrap();
        assert_eq!(
            passed,
            [
                (0, chain().value.key()),
                (1, one.value.key()),
                (2, two.value.key()),
            ]
        );
        assert_eq!(end, two.next().unwrap());
    }

    #[test]
    fn a_walk_to_a_place_that_is_not_ahead_stays() {
        let (_, at) = chain().walk(2);
        for place in 0..=2 {
            assert_eq!(at.walk(place), (Vec::new(), at.clone()));
            assert_eq!(at.places_before(place), 0);
        }
        assert_eq!(at.places_before(5), 3);
    }

    #[test]
    fn there_is_no_place_behind_the_last_of_four_bytes() {
        let last = Chain {
            place: u32::MAX,
            ..chain()
        };
        assert_eq!(last.next(), None);
        let before = Chain {
            place: u32::MAX - 1,
            ..chain()
        };
        assert_eq!(before.next(), Some(before.walk(u32::MAX).1));
    }
}
