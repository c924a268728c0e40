//! Bytes written as hex digits, as the standards print them; spaces are passed over.

pub fn bytes(written: &str) -> Vec<u8> {
    let digits: Vec<u8> = written
        .chars()
        .filter(|character| !character.is_whitespace())
        .map(|digit| digit.to_digit(16).unwrap() as u8)
        .collect();
    assert!(digits.len().is_multiple_of(2), "an odd digit in {written}");
    digits
        .chunks(2)
        .map(|pair| pair[0] << 4 | pair[1])
        .collect()
}

/// So many bytes that there must be exactly that many.
pub fn array<const N: usize>(written: &str) -> [u8; N] {
    bytes(written).try_into().unwrap()
}
