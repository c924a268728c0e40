//! The bytes of a message: how many there are, and what they say once one of their bits is turned.

use crate::side::Header;

/// How many bytes a message has besides its text.
pub const BYTES_BESIDES_TEXT: usize = 63;

/// What a message says in the clear once a bit is turned; none where the bytes are no message any more.
pub fn turned(header: Header, bit: u32) -> Option<Header> {
    let mut turned = header;
    match bit / 8 {
        // The byte 82, and the length of the text.
        0 | 45 | 46 => return None,
        byte @ 1..=4 => turned.mark.link ^= bit_of_number(byte - 1, bit % 8),
        byte @ 5..=8 => turned.mark.place ^= bit_of_number(byte - 5, bit % 8),
        byte @ 9..=12 => turned.before ^= bit_of_number(byte - 9, bit % 8),
        // The public half, the sealed text and the tag.
        _ => {}
    }
    Some(turned)
}

/// The number in which only this bit of this one of four bytes is set; the high byte is the first.
fn bit_of_number(byte: u32, bit: u32) -> u32 {
    1 << (8 * (3 - byte) + bit)
}

#[cfg(test)]
mod tests {
    use super::*;
    use crate::side::Mark;

    /// The header 5, 6, 7 with a bit turned, as its three numbers.
    fn numbers(bit: u32) -> Option<(u32, u32, u32)> {
        let header = Header {
            mark: Mark { link: 5, place: 6 },
            before: 7,
        };
        let Header { mark, before } = turned(header, bit)?;
        Some((mark.link, mark.place, before))
    }

    #[test]
    fn the_first_byte_and_the_length_are_no_message_with_any_bit_turned() {
        for bit in (0..8).chain(8 * 45..8 * 47) {
            assert_eq!(numbers(bit), None, "{bit}");
        }
    }

    #[test]
    fn numbers_have_their_high_byte_first_and_their_low_bit_first() {
        assert_eq!(numbers(8), Some((5 + (1 << 24), 6, 7)));
        assert_eq!(numbers(15), Some((5 + (1 << 31), 6, 7)));
        assert_eq!(numbers(32), Some((4, 6, 7)));
        assert_eq!(numbers(39), Some((5 + 128, 6, 7)));
        assert_eq!(numbers(40), Some((5, 6 + (1 << 24), 7)));
        assert_eq!(numbers(64), Some((5, 7, 7)));
        assert_eq!(numbers(71), Some((5, 6 + 128, 7)));
        assert_eq!(numbers(72), Some((5, 6, 7 + (1 << 24))));
        assert_eq!(numbers(95), Some((5, 6, 7 + (1 << 15))));
        assert_eq!(numbers(96), Some((5, 6, 6)));
        assert_eq!(numbers(103), Some((5, 6, 7 + 128)));
    }

    #[test]
    fn half_text_and_tag_leave_the_numbers_as_they_are() {
        for bit in (8 * 13..8 * 45).chain(8 * 47..8 * 1_063) {
            assert_eq!(numbers(bit), Some((5, 6, 7)), "{bit}");
        }
    }
}
