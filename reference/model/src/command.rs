//! The lines of a script: which of them are commands, and what they ask for.

use crate::text;

/// One of the two sides.
#[derive(Clone, Copy, Debug, PartialEq, Eq)]
pub enum Who {
    First,
    Second,
}

impl Who {
    pub fn other(self) -> Who {
        match self {
            Who::First => Who::Second,
            Who::Second => Who::First,
        }
    }

    pub fn name(self) -> &'static str {
        match self {
            Who::First => "first",
            Who::Second => "second",
        }
    }
}

/// Whether a side stops before its write or after it.
#[derive(Clone, Copy, Debug, PartialEq, Eq)]
pub enum Moment {
    Before,
    After,
}

/// What one line asks for.
#[derive(Clone, Debug, PartialEq, Eq)]
pub enum Command {
    Send {
        who: Who,
        text: Vec<u8>,
    },
    Deliver {
        number: u32,
        flip: Option<u32>,
    },
    Stop {
        who: Who,
        moment: Moment,
        write: u32,
    },
    Read {
        who: Who,
    },
    Show,
}

/// Why a line ends the script.
#[derive(Clone, Copy, Debug, PartialEq, Eq)]
pub enum Reason {
    NotACommand,
    BadEscape,
    NoSuchMessage,
    NoSuchBit,
    NeverLeft,
    WriteZero,
    WriteHasBeen,
    StopIsSet,
}

impl Reason {
    pub fn words(self) -> &'static str {
        match self {
            Reason::NotACommand => "not a command",
            Reason::BadEscape => "a bad escape in the text",
            Reason::NoSuchMessage => "there is no such message",
            Reason::NoSuchBit => "the message has no such bit",
            Reason::NeverLeft => "the message never left",
            Reason::WriteZero => "writes are counted from 1",
            Reason::WriteHasBeen => "that write has been",
            Reason::StopIsSet => "a stop is set for that write already",
        }
    }
}

/// The command on a line, or none where the line is passed over.
pub fn parse(line: &[u8]) -> Result<Option<Command>, Reason> {
    let blank = line.iter().all(|byte| matches!(byte, b' ' | b'\t' | b'\r'));
    if blank || line.starts_with(b"#") {
        return Ok(None);
    }
    let command = match line.strip_prefix(b"send ") {
        Some(rest) => send(rest)?,
        None => words(line).ok_or(Reason::NotACommand)?,
    };
    Ok(Some(command))
}

/// What stands behind `send `: a side and, behind one space, the text.
fn send(rest: &[u8]) -> Result<Command, Reason> {
    let mut parts = rest.splitn(2, |byte| *byte == b' ');
    let who = parts.next().and_then(side).ok_or(Reason::NotACommand)?;
    let text = text::read(parts.next().unwrap_or_default()).map_err(|_| Reason::BadEscape)?;
    Ok(Command::Send { who, text })
}

/// All commands but `send`, which are words with one space between them.
fn words(line: &[u8]) -> Option<Command> {
    let words: Vec<&[u8]> = line.split(|byte| *byte == b' ').collect();
    match words.as_slice() {
        [b"deliver", m] => Some(Command::Deliver {
            number: number(m)?,
            flip: None,
        }),
        [b"deliver", m, b"flip", b] => Some(Command::Deliver {
            number: number(m)?,
            flip: Some(number(b)?),
        }),
        [b"stop", s, m, n] => Some(Command::Stop {
            who: side(s)?,
            moment: moment(m)?,
            write: number(n)?,
        }),
        [b"read", s] => Some(Command::Read { who: side(s)? }),
        [b"show"] => Some(Command::Show),
        _ => None,
    }
}

fn side(word: &[u8]) -> Option<Who> {
    match word {
        b"first" => Some(Who::First),
        b"second" => Some(Who::Second),
        _ => None,
    }
}

fn moment(word: &[u8]) -> Option<Moment> {
    match word {
        b"before" => Some(Moment::Before),
        b"after" => Some(Moment::After),
        _ => None,
    }
}

/// One or more decimal digits whose value fits four bytes.
fn number(word: &[u8]) -> Option<u32> {
    if word.is_empty() {
        return None;
    }
    word.iter().try_fold(0u32, |value, byte| {
        let digit = byte.is_ascii_digit().then(|| u32::from(byte - b'0'))?;
        value.checked_mul(10)?.checked_add(digit)
    })
}

#[cfg(test)]
mod tests {
    use super::*;

    #[test]
    fn numbers_have_digits_only_and_fit_four_bytes() {
        assert_eq!(number(b"4294967295"), Some(u32::MAX));
        assert_eq!(number(b"00000000000000000007"), Some(7));
        for bad in [
            "",
            "4294967296",
            "99999999999999999999",
            "+1",
            "-1",
            "1x",
            "0x1",
            "1\r",
            "\u{0661}",
        ] {
            assert_eq!(number(bad.as_bytes()), None, "{bad}");
        }
    }

    #[test]
    fn a_text_is_all_that_stands_behind_one_space() {
        let text = |line: &[u8]| match parse(line) {
            Ok(Some(Command::Send { text, .. })) => text,
            other => panic!("{other:?}"),
        };
        assert_eq!(text(b"send first"), b"");
        assert_eq!(text(b"send first "), b"");
        assert_eq!(text(b"send first  a \r"), b" a \r");
        assert_eq!(text(b"send second \\x4A\\x4a"), b"JJ");
    }
}
