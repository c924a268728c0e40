//! Texts as they are written in scripts and in what is printed.

/// A backslash that does not begin `\xNN`.
#[derive(Clone, Copy, Debug, PartialEq, Eq)]
pub struct BadEscape;

/// The bytes that a written text stands for.
pub fn read(written: &[u8]) -> Result<Vec<u8>, BadEscape> {
    let mut text = Vec::with_capacity(written.len());
    let mut rest = written;
    while let Some((&byte, after)) = rest.split_first() {
        if byte != b'\\' {
            text.push(byte);
            rest = after;
            continue;
        }
        let [b'x', high, low, after @ ..] = after else {
            return Err(BadEscape);
        };
        text.push(digit(*high)? << 4 | digit(*low)?);
        rest = after;
    }
    Ok(text)
}

fn digit(byte: u8) -> Result<u8, BadEscape> {
    match byte {
        b'0'..=b'9' => Ok(byte - b'0'),
        b'a'..=b'f' => Ok(byte - b'a' + 10),
        b'A'..=b'F' => Ok(byte - b'A' + 10),
        _ => Err(BadEscape),
    }
}

/// The text as it is printed: bytes below 32, 127 and the backslash as `\xNN`, all others as they are.
pub fn written(text: &[u8]) -> Vec<u8> {
    let mut out = Vec::with_capacity(text.len());
    for &byte in text {
        match byte {
            0..=31 | 127 | b'\\' => out.extend(format!("\\x{byte:02x}").bytes()),
            _ => out.push(byte),
        }
    }
    out
}

#[cfg(test)]
mod tests {
    use super::*;

    #[test]
    fn every_text_is_read_back_as_it_was() {
        let all: Vec<u8> = (0..=255).collect();
        assert_eq!(read(&written(&all)), Ok(all));
    }

    #[test]
    fn other_backslashes_are_bad() {
        for bad in [
            r"\", r"\x", r"\x4", r"\x4g", r"\xg4", r"\X41", r"\n", r"\\", r"\x+1", r"ab\x 1",
        ] {
            assert_eq!(read(bad.as_bytes()), Err(BadEscape), "{bad}");
        }
    }
}
