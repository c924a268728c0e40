//! Sealing: a text under the stream, and a tag over the header and the sealed text.

use crate::chacha20::{self, Nonce};
use crate::hmac::hmac;
use crate::secrets::MessageKey;

/// What shows that a header and a sealed text are those that were sealed with a key.
#[derive(Clone, Copy, Debug)]
pub struct Tag(pub [u8; 16]);

/// Tags are compared without a stop at the first difference.
impl PartialEq for Tag {
    fn eq(&self, other: &Tag) -> bool {
        let pairs = self.0.iter().zip(other.0);
        pairs.fold(0, |differs, (ours, theirs)| differs | (ours ^ theirs)) == 0
    }
}

impl Eq for Tag {}

/// A text that was sealed, and its tag.
#[derive(Clone, Debug, PartialEq, Eq)]
pub struct Sealed {
    pub text: Vec<u8>,
    pub tag: Tag,
}

/// Seals a text behind a header.
pub fn seal(key: &MessageKey, header: &[u8], text: &[u8]) -> Sealed {
    let text = under_the_stream(key, text);
    let tag = tag(key, header, &text);
    Sealed { text, tag }
}

/// The text, if header and sealed text have this tag under the key.
pub fn open(key: &MessageKey, header: &[u8], sealed: &Sealed) -> Option<Vec<u8>> {
    let opens = tag(key, header, &sealed.text) == sealed.tag;
    opens.then(|| under_the_stream(key, &sealed.text))
}

/// The text xored with the stream from the block with counter 1 on, or back again.
fn under_the_stream(key: &MessageKey, text: &[u8]) -> Vec<u8> {
    let mut bytes = text.to_vec();
    chacha20::apply(&chacha20::Key(key.0), 1, &Nonce([0; 12]), &mut bytes);
    bytes
}

fn tag(key: &MessageKey, header: &[u8], sealed_text: &[u8]) -> Tag {
    let tag_key = hmac(&key.0, &[3]);
    let digest = hmac(&tag_key.0, &[header, sealed_text].concat());
    let mut tag = [0; 16];
    tag.copy_from_slice(&digest.0[..16]);
    Tag(tag)
}

#[cfg(test)]
mod tests {
    use super::*;
    use crate::hex;

    const KEY: MessageKey = MessageKey([5; 32]);

    /// The expected bytes are those of Python's cryptography (ChaCha20) and hmac.
    #[test]
    fn a_text_sealed() {
        let sealed = seal(&KEY, b"header", b"some text");
        assert_eq!(sealed.text, hex::bytes("a259f3408e5d704df0"));
        assert_eq!(
            sealed.tag,
            Tag(hex::array("950bb4ff1947f517b59760c0ed0da004"))
        );
    }

    #[test]
    fn what_was_sealed_opens() {
        for length in [0, 1, 63, 64, 65, 1_000] {
            let text: Vec<u8> = (0..length).map(|index| index as u8).collect();
            let sealed = seal(&KEY, b"header", &text);
            assert_eq!(sealed.text.len(), length);
            assert_eq!(open(&KEY, b"header", &sealed), Some(text));
        }
    }

    #[test]
    fn another_key_or_header_or_text_or_tag_does_not_open() {
        let sealed = seal(&KEY, b"header", b"some text");
        assert_eq!(open(&MessageKey([6; 32]), b"header", &sealed), None);
        assert_eq!(open(&KEY, b"Header", &sealed), None);
        for at in 0..sealed.text.len() {
            let mut damaged = sealed.clone();
            damaged.text[at] ^= 1;
            assert_eq!(open(&KEY, b"header", &damaged), None, "text, byte {at}");
        }
        for at in 0..16 {
            let mut damaged = sealed.clone();
            damaged.tag.0[at] ^= 0x80;
            assert_eq!(open(&KEY, b"header", &damaged), None, "tag, byte {at}");
        }
    }
}
