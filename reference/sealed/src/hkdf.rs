//! HKDF with SHA-256, by RFC 5869.

use crate::hmac::hmac;
use crate::sha256::Digest;

/// So many bytes from a salt, an input and an info; at most 255 digests.
pub fn hkdf<const N: usize>(salt: &[u8], input: &[u8], info: &[u8]) -> [u8; N] {
    expand(&extract(salt, input), info)
}

/// Section 2.2. An empty salt does what 32 zeros do.
fn extract(salt: &[u8], input: &[u8]) -> Digest {
    hmac(salt, input)
}

/// Section 2.3.
fn expand<const N: usize>(key: &Digest, info: &[u8]) -> [u8; N] {
    const { assert!(N <= 255 * 32) };
    let mut output = [0; N];
    let mut previous: Vec<u8> = Vec::new();
    for (part, counter) in output.chunks_mut(32).zip(1u8..=255) {
        let message = [previous.as_slice(), info, &[counter]].concat();
        previous = hmac(&key.0, &message).0.to_vec();
        part.copy_from_slice(&previous[..part.len()]);
    }
    output
}

/// The cases of RFC 5869, appendix A.
#[cfg(test)]
mod tests {
    use super::*;
    use crate::hex;
    use crate::sha256::sha256;

    #[test]
    fn case_1() {
        let input = [0x0b; 22];
        let salt: Vec<u8> = (0x00..=0x0c).collect();
        let info: Vec<u8> = (0xf0..=0xf9).collect();
        assert_eq!(
            extract(&salt, &input).0,
            hex::array("077709362c2e32df0ddc3f0dc47bba6390b6c73bb50f9c3122ec844ad7c2b3e5"),
        );
        let output: [u8; 42] = hkdf(&salt, &input, &info);
        assert_eq!(
            output,
            hex::array(
                "3cb25f25faacd57a90434f64d0362f2a2d2d0a90cf1a5a4c5db02d56ecc4c5bf34007208d5b887185865"
            ),
        );
    }

    #[test]
    fn case_2_with_longer_inputs() {
        let input: Vec<u8> = (0x00..=0x4f).collect();
        let salt: Vec<u8> = (0x60..=0xaf).collect();
        let info: Vec<u8> = (0xb0..=0xff).collect();
        assert_eq!(
            extract(&salt, &input).0,
            hex::array("06a6b88c5853361a06104c9ceb35b45cef760014904671014a193f40c15fc244"),
        );
        let output: [u8; 82] = hkdf(&salt, &input, &info);
        assert_eq!(
            output,
            hex::array(
                "b11e398dc80327a1c8e7f78c596a49344f012eda2d4efad8a050cc4c19afa97c
                 59045a99cac7827271cb41c65e590e09da3275600c2f09b8367793a9aca3db71
                 cc30c58179ec3e87c14c01d5c1f3434f1d87"
            ),
        );
    }

    #[test]
    fn case_3_with_no_salt_and_no_info() {
        let input = [0x0b; 22];
        assert_eq!(
            extract(b"", &input).0,
            hex::array("19ef24a32c717b167f33a91d6f648bdf96596776afdb6377ac434c1c293ccb04"),
        );
        let output: [u8; 42] = hkdf(b"", &input, b"");
        assert_eq!(
            output,
            hex::array(
                "8da4e775a563c18f715f802a063c5a31b8a11f5c5ee1879ec3454e5f3c738d2d9d201395faa4b61a96c8"
            ),
        );
    }
    /// The digest of the longest output there is; the expected value is that of Python's cryptography and hashlib.
    #[test]
    fn the_longest_output() {
        let output: [u8; 255 * 32] = hkdf(b"salt", b"input", b"info");
        assert_eq!(
            sha256(&output).0,
            hex::array("82fad33febdd77bf8f89d5200ac03640bb28385814c344b10eddf1c3a1e57b69"),
        );
    }
}
