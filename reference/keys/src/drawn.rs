//! The keys of two sides, drawn beforehand, and how a file has them.

use std::io::{self, Read};

use sealed::secrets::{JointSecret, PublicHalf, RootKey};

/// How many keys the two sides have together: at least those of link 0.
#[derive(Clone, Copy, Debug, PartialEq, Eq)]
pub struct KeyCount(u32);

impl KeyCount {
    /// A number of 2 to 1,000,000 in decimal digits.
    pub fn read(word: &str) -> Option<KeyCount> {
        let has_digits_only = word.bytes().all(|byte| byte.is_ascii_digit());
        let count = word.parse().ok().filter(|_| has_digits_only)?;
        (2..=1_000_000).contains(&count).then_some(KeyCount(count))
    }
}

/// Root 0, the public half of each key, and the joint secret of each key with the next.
#[derive(Debug)]
pub struct Drawn {
    root: RootKey,
    halves: Vec<PublicHalf>,
    joints: Vec<JointSecret>,
}

impl Drawn {
    /// Draws everything from a source of random bytes.
    pub fn new(count: KeyCount, source: &mut impl Read) -> io::Result<Drawn> {
        let mut next = || {
            let mut bytes = [0; 32];
            source.read_exact(&mut bytes)?;
            Ok(bytes)
        };
        Ok(Drawn {
            root: RootKey(next()?),
            halves: (0..count.0)
                .map(|_| next().map(PublicHalf))
                .collect::<io::Result<_>>()?,
            joints: (1..count.0)
                .map(|_| next().map(JointSecret))
                .collect::<io::Result<_>>()?,
        })
    }

    /// The lines of a key file.
    pub fn written(&self) -> String {
        let root = format!("root {}\n", hex(&self.root.0));
        let keys = (0..).zip(&self.halves);
        let keys = keys.map(|(n, half): (u32, _)| format!("key {n} {}\n", hex(&half.0)));
        let joints = (0..).zip(&self.joints);
        let joints = joints.map(|(n, joint): (u32, _)| format!("joint {n} {}\n", hex(&joint.0)));
        [root].into_iter().chain(keys).chain(joints).collect()
    }
}

fn hex(bytes: &[u8; 32]) -> String {
    bytes.iter().map(|byte| format!("{byte:02x}")).collect()
}

#[cfg(test)]
mod tests {
    use super::*;

    #[test]
    fn counts_have_digits_only_and_their_bounds() {
        assert_eq!(KeyCount::read("2"), Some(KeyCount(2)));
        assert_eq!(KeyCount::read("1000000"), Some(KeyCount(1_000_000)));
        for bad in [
            "",
            "0",
            "1",
            "1000001",
            "4294967298",
            "+2",
            "-2",
            " 2",
            "2.0",
            "two",
        ] {
            assert_eq!(KeyCount::read(bad), None, "{bad}");
        }
    }

    #[test]
    fn each_value_is_the_next_32_bytes_of_the_source() {
        let bytes: Vec<u8> = (0xa0..0xa6).flat_map(|byte| [byte; 32]).collect();
        let mut source = bytes.as_slice();
        let drawn = Drawn::new(KeyCount(3), &mut source).unwrap();
        assert!(source.is_empty());
        let lines = [
            ("root", "a0"),
            ("key 0", "a1"),
            ("key 1", "a2"),
            ("key 2", "a3"),
            ("joint 0", "a4"),
            ("joint 1", "a5"),
        ];
        let lines = lines.map(|(name, digits)| format!("{name} {}\n", digits.repeat(32)));
        assert_eq!(drawn.written(), lines.concat());
    }

    #[test]
    fn a_source_that_ends_early_draws_nothing() {
        for length in 0..6 * 32 {
            let bytes = vec![1; length];
            assert!(Drawn::new(KeyCount(3), &mut bytes.as_slice()).is_err());
        }
    }
}
