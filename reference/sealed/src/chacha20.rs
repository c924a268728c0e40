//! The stream of ChaCha20, by RFC 8439, section 2.

/// A key of the stream.
#[derive(Clone, Copy, Debug, PartialEq, Eq)]
pub struct Key(pub [u8; 32]);

#[derive(Clone, Copy, Debug, PartialEq, Eq)]
pub struct Nonce(pub [u8; 12]);

/// How many bytes a block of the stream has.
const BLOCK: usize = 64;

/// The four words that every block begins with: "expand 32-byte k".
const CONSTANTS: [u32; 4] = [0x61707865, 0x3320646e, 0x79622d32, 0x6b206574];

/// Xors a text with the stream from the block with this counter on; done twice, it is the text again.
pub fn apply(key: &Key, counter: u32, nonce: &Nonce, text: &mut [u8]) {
    for (index, part) in (0u32..).zip(text.chunks_mut(BLOCK)) {
        let stream = block(key, counter.wrapping_add(index), nonce);
        for (byte, mask) in part.iter_mut().zip(stream) {
            *byte ^= mask;
        }
    }
}

/// One block of the stream, section 2.3.
fn block(key: &Key, counter: u32, nonce: &Nonce) -> [u8; BLOCK] {
    let start = start(key, counter, nonce);
    let mut state = start;
    for _ in 0..10 {
        two_rounds(&mut state);
    }
    let mut block = [0; BLOCK];
    for ((bytes, word), begun) in block.chunks_exact_mut(4).zip(state).zip(start) {
        bytes.copy_from_slice(&word.wrapping_add(begun).to_le_bytes());
    }
    block
}

/// The constants, the key, the counter and the nonce as 16 words.
fn start(key: &Key, counter: u32, nonce: &Nonce) -> [u32; 16] {
    let mut state = [0; 16];
    state[..4].copy_from_slice(&CONSTANTS);
    put_words(&mut state[4..12], &key.0);
    state[12] = counter;
    put_words(&mut state[13..], &nonce.0);
    state
}

fn put_words(words: &mut [u32], bytes: &[u8]) {
    let (given, _) = bytes.as_chunks::<4>();
    for (word, bytes) in words.iter_mut().zip(given) {
        *word = u32::from_le_bytes(*bytes);
    }
}

/// A round over the columns and one over the diagonals.
fn two_rounds(state: &mut [u32; 16]) {
    quarter_round(state, [0, 4, 8, 12]);
    quarter_round(state, [1, 5, 9, 13]);
    quarter_round(state, [2, 6, 10, 14]);
    quarter_round(state, [3, 7, 11, 15]);
    quarter_round(state, [0, 5, 10, 15]);
    quarter_round(state, [1, 6, 11, 12]);
    quarter_round(state, [2, 7, 8, 13]);
    quarter_round(state, [3, 4, 9, 14]);
}

/// Section 2.1, on four words of the state.
fn quarter_round(state: &mut [u32; 16], [a, b, c, d]: [usize; 4]) {
    state[a] = state[a].wrapping_add(state[b]);
    state[d] = (state[d] ^ state[a]).rotate_left(16);
    state[c] = state[c].wrapping_add(state[d]);
    state[b] = (state[b] ^ state[c]).rotate_left(12);
    state[a] = state[a].wrapping_add(state[b]);
    state[d] = (state[d] ^ state[a]).rotate_left(8);
    state[c] = state[c].wrapping_add(state[d]);
    state[b] = (state[b] ^ state[c]).rotate_left(7);
}

/// The values of RFC 8439.
#[cfg(test)]
mod tests {
    use super::*;
    use crate::hex;

    fn counting_key() -> Key {
        Key(hex::array(
            "000102030405060708090a0b0c0d0e0f101112131415161718191a1b1c1d1e1f",
        ))
    }

    #[test]
    fn section_2_1_1_a_quarter_round() {
        let mut state = [0; 16];
        state[..4].copy_from_slice(&[0x11111111, 0x01020304, 0x9b8d6f43, 0x01234567]);
        quarter_round(&mut state, [0, 1, 2, 3]);
        assert_eq!(state[..4], [0xea2a92f4, 0xcb1cf8ce, 0x4581472e, 0x5881c4bb]);
    }

    #[test]
    fn section_2_3_2_a_block() {
        let nonce = Nonce(hex::array("000000090000004a00000000"));
        assert_eq!(
            block(&counting_key(), 1, &nonce),
            hex::array(
                "10f1e7e4d13b5915500fdd1fa32071c4c7d1f4c733c068030422aa9ac3d46c4e
                 d2826446079faa0914c2d705d98b02a2b5129cd1de164eb9cbd083e8a2503c4e"
            ),
        );
    }

    #[test]
    fn section_2_4_2_a_text() {
        let nonce = Nonce(hex::array("000000000000004a00000000"));
        let text = b"Ladies and Gentlemen of the class of '99: If I could offer you only one tip for the future, sunscreen would be it.";
        let mut bytes = text.to_vec();
        apply(&counting_key(), 1, &nonce, &mut bytes);
        assert_eq!(
            bytes,
            hex::bytes(
                "6e2e359a2568f98041ba0728dd0d6981e97e7aec1d4360c20a27afccfd9fae0b
                 f91b65c5524733ab8f593dabcd62b3571639d624e65152ab8f530c359f0861d8
                 07ca0dbf500d6a6156a38e088a22b65e52bc514d16ccf806818ce91ab7793736
                 5af90bbf74a35be6b40b8eedf2785e42874d"
            ),
        );
        apply(&counting_key(), 1, &nonce, &mut bytes);
        assert_eq!(bytes, text);
    }

    #[test]
    fn appendix_a_1_the_first_two_blocks_of_zeros() {
        let (key, nonce) = (Key([0; 32]), Nonce([0; 12]));
        assert_eq!(
            block(&key, 0, &nonce),
            hex::array(
                "76b8e0ada0f13d90405d6ae55386bd28bdd219b8a08ded1aa836efcc8b770dc7
                 da41597c5157488d7724e03fb8d84a376a43b8f41518a11cc387b669b2ee6586"
            ),
        );
        assert_eq!(
            block(&key, 1, &nonce),
            hex::array(
                "9f07e7be5551387a98ba977c732d080dcb0f29a048e3656912c6533e32ee7aed
                 29b721769ce64e43d57133b074d839d531ed1f28510afb45ace10a1f4b794d6f"
            ),
        );
    }
}
