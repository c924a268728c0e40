//! Messages as bytes: the header, the sealed text and the tag.

use model::side::{Mark, LONGEST_TEXT};

use crate::fields::Fields;
use crate::sealing::{self, Sealed, Tag};
use crate::secrets::{MessageKey, PublicHalf};

/// The byte that every message begins with.
const FIRST: u8 = 82;

/// How many bytes stand before the text.
const HEADER: usize = 47;

/// A text that is not too long to be sent.
#[derive(Clone, Copy, Debug, PartialEq, Eq)]
pub struct Text<'a>(&'a [u8]);

impl<'a> Text<'a> {
    pub fn new(bytes: &'a [u8]) -> Option<Text<'a>> {
        (bytes.len() <= LONGEST_TEXT).then_some(Text(bytes))
    }
}

/// What a message says in the clear, but for the length of its text.
#[derive(Clone, Copy, Debug, PartialEq, Eq)]
pub struct Header {
    pub mark: Mark,
    /// How many messages its sender had sent on its link before.
    pub before: u32,
    /// The public half of its sender's last key.
    pub half: PublicHalf,
}

impl Header {
    /// The bytes of the header before a text of this length.
    fn bytes(&self, length: usize) -> [u8; HEADER] {
        let mut bytes = [0; HEADER];
        bytes[0] = FIRST;
        bytes[1..5].copy_from_slice(&self.mark.link.to_be_bytes());
        bytes[5..9].copy_from_slice(&self.mark.place.to_be_bytes());
        bytes[9..13].copy_from_slice(&self.before.to_be_bytes());
        bytes[13..45].copy_from_slice(&self.half.0);
        bytes[45..].copy_from_slice(&(length as u16).to_be_bytes());
        bytes
    }
}

/// A message; its text has at most 1,000 bytes.
#[derive(Clone, Debug, PartialEq, Eq)]
pub struct Message {
    header: Header,
    sealed: Sealed,
}

impl Message {
    /// A text sealed with a key.
    pub fn seal(header: Header, key: &MessageKey, text: Text) -> Message {
        let sealed = sealing::seal(key, &header.bytes(text.0.len()), text.0);
        Message { header, sealed }
    }

    /// The text, if the tag is the one that the key gives.
    pub fn open(&self, key: &MessageKey) -> Option<Vec<u8>> {
        sealing::open(key, &self.header_bytes(), &self.sealed)
    }

    pub fn header(&self) -> &Header {
        &self.header
    }

    /// The message as it leaves.
    pub fn write(&self) -> Vec<u8> {
        let Sealed { text, tag } = &self.sealed;
        [&self.header_bytes(), text.as_slice(), &tag.0].concat()
    }

    /// The message that the bytes are, or none where they are no message.
    pub fn read(bytes: &[u8]) -> Option<Message> {
        let mut fields = Fields(bytes);
        let [first] = fields.bytes()?;
        let mark = Mark {
            link: fields.number()?,
            place: fields.number()?,
        };
        let before = fields.number()?;
        let half = PublicHalf(fields.bytes()?);
        let length = usize::from(fields.short_number()?);
        let (text, tag) = fields.0.split_last_chunk()?;
        if first != FIRST || length > LONGEST_TEXT || length != text.len() {
            return None;
        }
        let header = Header { mark, before, half };
        let sealed = Sealed {
            text: text.to_vec(),
            tag: Tag(*tag),
        };
        Some(Message { header, sealed })
    }

    fn header_bytes(&self) -> [u8; HEADER] {
        self.header.bytes(self.sealed.text.len())
    }
}

#[cfg(test)]
mod tests {
    use super::*;
    use crate::hex;

    const KEY: MessageKey = MessageKey([7; 32]);

    fn message(length: usize) -> Message {
        let header = Header {
            mark: Mark {
                link: 0x01020304,
                place: 0x05060708,
            },
            before: 0x090a0b0c,
            half: PublicHalf([0xdd; 32]),
        };
        let text = vec![b'a'; length];
        Message::seal(header, &KEY, Text::new(&text).unwrap())
    }

    #[test]
    fn the_fields_stand_in_their_order_with_the_high_byte_first() {
        let mut header = hex::bytes("52 01020304 05060708 090a0b0c");
        header.extend([0xdd; 32]);
        header.extend([0x03, 0xe8]);
        let bytes = message(1_000).write();
        assert_eq!(bytes.len(), 63 + 1_000);
        assert_eq!(bytes[..47], header);
    }

    #[test]
    fn what_was_written_is_read_back_and_opens() {
        for length in [0, 1, 255, 256, 1_000] {
            let message = message(length);
            let read = Message::read(&message.write()).unwrap();
            assert_eq!(read, message);
            assert_eq!(read.open(&KEY), Some(vec![b'a'; length]));
        }
    }

    #[test]
    fn a_text_has_at_most_1000_bytes() {
        assert!(Text::new(&[0; 1_000]).is_some());
        assert_eq!(Text::new(&[0; 1_001]), None);
    }

    #[test]
    fn fewer_or_more_bytes_are_no_message() {
        for length in [0, 5, 1_000] {
            let mut bytes = message(length).write();
            for end in 0..bytes.len() {
                assert_eq!(Message::read(&bytes[..end]), None, "{end} of {length}");
            }
            bytes.push(0);
            assert_eq!(Message::read(&bytes), None, "one more than {length}");
        }
    }

    #[test]
    fn another_first_byte_is_no_message() {
        let mut bytes = message(5).write();
        for first in (0..=255).filter(|first| *first != 82) {
            bytes[0] = first;
            assert_eq!(Message::read(&bytes), None, "{first}");
        }
    }

    #[test]
    fn a_length_above_1000_is_no_message_though_the_bytes_are_there() {
        let mut bytes = message(1_000).write();
        bytes.push(0);
        bytes[45..47].copy_from_slice(&1_001u16.to_be_bytes());
        assert_eq!(Message::read(&bytes), None);
    }

    #[test]
    fn another_length_is_no_message() {
        let bytes = message(5).write();
        for length in (0..=u16::MAX).filter(|length| *length != 5) {
            let mut bytes = bytes.clone();
            bytes[45..47].copy_from_slice(&length.to_be_bytes());
            assert_eq!(Message::read(&bytes), None, "{length}");
        }
    }

    #[test]
    fn any_other_bytes_behind_the_first_are_a_message_that_is_written_back() {
        let bytes = message(5).write();
        for at in (1..45).chain(47..bytes.len()) {
            let mut bytes = bytes.clone();
            bytes[at] ^= 0xff;
            let read = Message::read(&bytes).unwrap();
            assert_eq!(read.write(), bytes, "byte {at}");
            assert_eq!(read.open(&KEY), None, "byte {at}");
        }
    }
}
