//! SHA-256, by FIPS 180-4.

/// What SHA-256 makes of a message.
#[derive(Clone, Copy, Debug, PartialEq, Eq)]
pub struct Digest(pub [u8; 32]);

/// How many bytes a block has.
pub const BLOCK: usize = 64;

/// The constants of section 4.2.2: the first 32 bits of the fractional parts of the cube roots of the first 64 primes.
const K: [u32; 64] = [
    0x428a2f98, 0x71374491, 0xb5c0fbcf, 0xe9b5dba5, 0x3956c25b, 0x59f111f1, 0x923f82a4, 0xab1c5ed5,
    0xd807aa98, 0x12835b01, 0x243185be, 0x550c7dc3, 0x72be5d74, 0x80deb1fe, 0x9bdc06a7, 0xc19bf174,
    0xe49b69c1, 0xefbe4786, 0x0fc19dc6, 0x240ca1cc, 0x2de92c6f, 0x4a7484aa, 0x5cb0a9dc, 0x76f988da,
    0x983e5152, 0xa831c66d, 0xb00327c8, 0xbf597fc7, 0xc6e00bf3, 0xd5a79147, 0x06ca6351, 0x14292967,
    0x27b70a85, 0x2e1b2138, 0x4d2c6dfc, 0x53380d13, 0x650a7354, 0x766a0abb, 0x81c2c92e, 0x92722c85,
    0xa2bfe8a1, 0xa81a664b, 0xc24b8b70, 0xc76c51a3, 0xd192e819, 0xd6990624, 0xf40e3585, 0x106aa070,
    0x19a4c116, 0x1e376c08, 0x2748774c, 0x34b0bcb5, 0x391c0cb3, 0x4ed8aa4a, 0x5b9cca4f, 0x682e6ff3,
    0x748f82ee, 0x78a5636f, 0x84c87814, 0x8cc70208, 0x90befffa, 0xa4506ceb, 0xbef9a3f7, 0xc67178f2,
];

/// The eight words that are carried from block to block.
#[derive(Clone, Copy)]
struct State([u32; 8]);

/// The state before the first block, section 5.3.3.
const START: State = State([
    0x6a09e667, 0xbb67ae85, 0x3c6ef372, 0xa54ff53a, 0x510e527f, 0x9b05688c, 0x1f83d9ab, 0x5be0cd19,
]);

/// The digest of a message.
pub fn sha256(message: &[u8]) -> Digest {
    let (blocks, rest) = message.as_chunks::<BLOCK>();
    let mut state = START;
    for block in blocks {
        state = state.after(block);
    }
    let padded = padded(rest, message.len());
    let (blocks, _) = padded.as_chunks::<BLOCK>();
    for block in blocks {
        state = state.after(block);
    }
    state.digest()
}

/// The last bytes of a message, then 0x80, zeros, and the message's length in bits, section 5.1.1.
fn padded(rest: &[u8], length: usize) -> Vec<u8> {
    let mut padded = rest.to_vec();
    padded.push(0x80);
    while padded.len() % BLOCK != BLOCK - 8 {
        padded.push(0);
    }
    let bits = (length as u64).wrapping_mul(8);
    padded.extend(bits.to_be_bytes());
    padded
}

/// The 64 words of a block, section 6.2.2 step 1.
fn schedule(block: &[u8; BLOCK]) -> [u32; 64] {
    let mut words = [0; 64];
    let (given, _) = block.as_chunks::<4>();
    for (word, bytes) in words.iter_mut().zip(given) {
        *word = u32::from_be_bytes(*bytes);
    }
    for t in 16..64 {
        words[t] = small_sigma_1(words[t - 2])
            .wrapping_add(words[t - 7])
            .wrapping_add(small_sigma_0(words[t - 15]))
            .wrapping_add(words[t - 16]);
    }
    words
}

impl State {
    /// The state after one more block, section 6.2.2.
    fn after(self, block: &[u8; BLOCK]) -> State {
        let mut work = self;
        for (word, constant) in schedule(block).into_iter().zip(K) {
            work = work.round(word, constant);
        }
        let mut sums = self.0;
        for (sum, word) in sums.iter_mut().zip(work.0) {
            *sum = sum.wrapping_add(word);
        }
        State(sums)
    }

    /// One round, section 6.2.2 step 3.
    fn round(self, word: u32, constant: u32) -> State {
        let State([a, b, c, d, e, f, g, h]) = self;
        let t1 = h
            .wrapping_add(big_sigma_1(e))
            .wrapping_add(ch(e, f, g))
            .wrapping_add(constant)
            .wrapping_add(word);
        let t2 = big_sigma_0(a).wrapping_add(maj(a, b, c));
        State([t1.wrapping_add(t2), a, b, c, d.wrapping_add(t1), e, f, g])
    }

    fn digest(self) -> Digest {
        let mut digest = [0; 32];
        for (bytes, word) in digest.chunks_exact_mut(4).zip(self.0) {
            bytes.copy_from_slice(&word.to_be_bytes());
        }
        Digest(digest)
    }
}

// The functions of section 4.1.2.

fn ch(x: u32, y: u32, z: u32) -> u32 {
    (x & y) ^ (!x & z)
}

fn maj(x: u32, y: u32, z: u32) -> u32 {
    (x & y) ^ (x & z) ^ (y & z)
}

fn big_sigma_0(x: u32) -> u32 {
    x.rotate_right(2) ^ x.rotate_right(13) ^ x.rotate_right(22)
}

fn big_sigma_1(x: u32) -> u32 {
    x.rotate_right(6) ^ x.rotate_right(11) ^ x.rotate_right(25)
}

fn small_sigma_0(x: u32) -> u32 {
    x.rotate_right(7) ^ x.rotate_right(18) ^ (x >> 3)
}

fn small_sigma_1(x: u32) -> u32 {
    x.rotate_right(17) ^ x.rotate_right(19) ^ (x >> 10)
}

#[cfg(test)]
mod tests {
    use super::*;
    use crate::hex;

    fn assert_digest(message: &[u8], written: &str) {
        assert_eq!(sha256(message), Digest(hex::array(written)));
    }

    #[test]
    fn of_nothing() {
        assert_digest(
            b"",
            "e3b0c44298fc1c149afbf4c8996fb92427ae41e4649b934ca495991b7852b855",
        );
    }

    #[test]
    fn of_one_block() {
        assert_digest(
            b"abc",
            "ba7816bf8f01cfea414140de5dae2223b00361a396177a9cb410ff61f20015ad",
        );
    }

    #[test]
    fn of_448_bits() {
        assert_digest(
            b"abcdbcdecdefdefgefghfghighijhijkijkljklmklmnlmnomnopnopq",
            "248d6a61d20638b8e5c026930c3e6039a33ce45964ff2167f6ecedd419db06c1",
        );
    }

    #[test]
    fn of_896_bits() {
        assert_digest(
            b"abcdefghbcdefghicdefghijdefghijkefghijklfghijklmghijklmnhijklmnoijklmnopjklmnopqklmnopqrlmnopqrsmnopqrstnopqrstu",
            "cf5b16a778af8380036ce59e7b0492370b249b11e8f07a51afac45037afee9d1",
        );
    }

    #[test]
    fn of_a_million() {
        assert_digest(
            &vec![b'a'; 1_000_000],
            "cdc76e5c9914fb9281a1c7e284d73e67f1809a48a497200e046d39ccc7112cd0",
        );
    }

    /// The digests of 0 to 199 bytes 0, 1, 2, ..., one behind the other; the expected digest is hashlib's.
    #[test]
    fn of_every_length_around_three_blocks() {
        let bytes: Vec<u8> = (0..200).collect();
        let digests: Vec<u8> = (0..200).flat_map(|n| sha256(&bytes[..n]).0).collect();
        assert_digest(
            &digests,
            "ba7b0fcea7d10c06b855b43d2b4dce1e3e842fff6be0acefb0faf4f2dd05bb47",
        );
    }
}
