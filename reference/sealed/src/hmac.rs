//! HMAC with SHA-256, by RFC 2104.

use crate::sha256::{sha256, Digest, BLOCK};

/// The HMAC of a message under a key of any length.
pub fn hmac(key: &[u8], message: &[u8]) -> Digest {
    let block = block_of(key);
    let inner = digest_behind(&block, 0x36, message);
    digest_behind(&block, 0x5c, &inner.0)
}

/// The key, or its digest where it is longer than a block, with zeros up to a block.
fn block_of(key: &[u8]) -> [u8; BLOCK] {
    let digest;
    let short = if key.len() > BLOCK {
        digest = sha256(key);
        &digest.0
    } else {
        key
    };
    let mut block = [0; BLOCK];
    block[..short.len()].copy_from_slice(short);
    block
}

/// The digest of the block, each byte of it xored with the pad, and the message behind it.
fn digest_behind(block: &[u8; BLOCK], pad: u8, message: &[u8]) -> Digest {
    let mut bytes: Vec<u8> = block.iter().map(|byte| byte ^ pad).collect();
    bytes.extend(message);
    sha256(&bytes)
}

/// The cases of RFC 4231.
#[cfg(test)]
mod tests {
    use super::*;
    use crate::hex;

    fn assert_hmac(key: &[u8], message: &[u8], written: &str) {
        let expected = hex::bytes(written);
        assert_eq!(hmac(key, message).0[..expected.len()], expected);
    }

    #[test]
    fn case_1() {
        assert_hmac(
            &[0x0b; 20],
            b"Hi There",
            "b0344c61d8db38535ca8afceaf0bf12b 881dc200c9833da726e9376c2e32cff7",
        );
    }

    #[test]
    fn case_2_with_a_key_shorter_than_a_digest() {
        assert_hmac(
            b"Jefe",
            b"what do ya want for nothing?",
            "5bdcc146bf60754e6a042426089575c7 5a003f089d2739839dec58b964ec3843",
        );
    }

    #[test]
    fn case_3_with_more_than_a_block() {
        assert_hmac(
            &[0xaa; 20],
            &[0xdd; 50],
            "773ea91e36800e46854db8ebd09181a7 2959098b3ef8c122d9635514ced565fe",
        );
    }

    #[test]
    fn case_4() {
        let key: Vec<u8> = (1..=25).collect();
        assert_hmac(
            &key,
            &[0xcd; 50],
            "82558a389a443c0ea4cc819899f2083a 85f0faa3e578f8077a2e3ff46729665b",
        );
    }

    #[test]
    fn case_5_of_which_the_first_half_is_given() {
        assert_hmac(
            &[0x0c; 20],
            b"Test With Truncation",
            "a3b6167473100ee06e0c796c2955552b",
        );
    }

    #[test]
    fn case_6_with_a_key_longer_than_a_block() {
        assert_hmac(
            &[0xaa; 131],
            b"Test Using Larger Than Block-Size Key - Hash Key First",
            "60e431591ee0b67f0d8a26aacbf5b77f 8e0bc6213728c5140546040f0ee37f54",
        );
    }

    #[test]
    fn case_7_with_key_and_message_longer_than_a_block() {
        let message: &[u8] = b"This is a test using a larger than block-size key and \
            a larger than block-size data. The key needs to be hashed before being used by the HMAC algorithm.";
        assert_hmac(
            &[0xaa; 131],
            message,
            "9b09ffa71b942fcb27635fbcd5b0e944 bfdc63644f0713938a7f51535c3a35e2",
        );
    }
}
