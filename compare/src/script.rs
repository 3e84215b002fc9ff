//! What a line of a script says.

use crate::entry::Mask;
use crate::make;

/// The most that a number for a command, a name, a right or an attribute may be, where its line is to be read.
const MOST_NUMBER: u32 = 255;
/// The most that a number of records may be, and the size of a buffer.
const MOST_COUNT: u32 = 999_999;

/// What a line asks for.
#[derive(Clone, Debug, PartialEq, Eq)]
pub enum Call {
    Scheme(Vec<u8>),
    StoreBoard,
    StoreList {
        records: usize,
    },
    Filter {
        attribute: u8,
        mask: Mask,
    },
    /// What only a register can answer.
    Ask(Ask),
}

/// What a line asks of the register.
#[derive(Clone, Debug, PartialEq, Eq)]
pub enum Ask {
    List,
    Open(Vec<u8>),
    Request { command: u8, names: Vec<u8> },
    Rule { row: u8, column: u8, right: u8 },
    Check { certificate: Vec<u8>, bans: Vec<u8> },
    Make { size: usize, bans: Vec<u8> },
    Table,
    State,
}

/// A line that can't be read.
#[derive(Clone, Copy, Debug, PartialEq, Eq)]
pub struct BadLine;

/// The lines of a script.
pub fn lines(script: &[u8]) -> impl Iterator<Item = &[u8]> {
    script.split(|&byte| byte == b'\n')
}

/// What a line says, which is nothing for a blank one and a comment.
pub fn read_line(line: &[u8]) -> Result<Option<Call>, BadLine> {
    let words: Vec<&[u8]> = line
        .split(is_blank)
        .filter(|word| !word.is_empty())
        .collect();
    match words.split_first() {
        None => Ok(None),
        Some((keyword, _)) if keyword.starts_with(b"#") => Ok(None),
        Some((keyword, rest)) => read_call(keyword, rest).map(Some),
    }
}

/// No other byte is a blank, whatever else may look like one.
fn is_blank(byte: &u8) -> bool {
    matches!(byte, b' ' | b'\t' | b'\r')
}

fn read_call(keyword: &[u8], rest: &[&[u8]]) -> Result<Call, BadLine> {
    match (keyword, rest) {
        (b"scheme", tape) => Ok(Call::Scheme(read_tape(tape)?)),
        (b"store", [b"board"]) => Ok(Call::StoreBoard),
        (b"store", [b"list", records]) => {
            let records = read_number(records, MOST_COUNT)?;
            Ok(Call::StoreList {
                records: usize::try_from(records).map_err(|_| BadLine)?,
            })
        }
        (b"filter", [attribute, mask]) => Ok(Call::Filter {
            attribute: read_byte(attribute)?,
            mask: read_mask(mask)?,
        }),
        _ => read_ask(keyword, rest).map(Call::Ask),
    }
}

fn read_ask(keyword: &[u8], rest: &[&[u8]]) -> Result<Ask, BadLine> {
    match (keyword, rest) {
        (b"list", []) => Ok(Ask::List),
        (b"open", tape) => Ok(Ask::Open(read_tape(tape)?)),
        (b"request", [command, names @ ..]) => {
            let command = read_byte(command)?;
            let names = names
                .iter()
                .map(|name| read_byte(name))
                .collect::<Result<_, _>>()?;
            Ok(Ask::Request { command, names })
        }
        (b"rule", [row, column, right]) => Ok(Ask::Rule {
            row: read_byte(row)?,
            column: read_byte(column)?,
            right: read_byte(right)?,
        }),
        (b"check", tapes) => read_check(tapes),
        (b"make", words) => read_make(words),
        (b"table", []) => Ok(Ask::Table),
        (b"state", []) => Ok(Ask::State),
        _ => Err(BadLine),
    }
}

/// The two tapes of a check, beside its one slash.
fn read_check(words: &[&[u8]]) -> Result<Ask, BadLine> {
    let text = words.join(&b' ');
    let [certificate, bans] = &sides(&text)[..] else {
        return Err(BadLine);
    };
    Ok(Ask::Check {
        certificate: read_tape(certificate)?,
        bans: read_tape(bans)?,
    })
}

/// The bans of a making, behind the size and a slash where there is one.
fn read_make(words: &[&[u8]]) -> Result<Ask, BadLine> {
    let text = words.join(&b' ');
    let (size, bans) = match &sides(&text)[..] {
        [bans] => (make::ROOM, read_tape(bans)?),
        [size, bans] => (read_size(size)?, read_tape(bans)?),
        _ => return Err(BadLine),
    };
    Ok(Ask::Make { size, bans })
}

fn read_size(words: &[&[u8]]) -> Result<usize, BadLine> {
    let [size] = words else {
        return Err(BadLine);
    };
    usize::try_from(read_number(size, MOST_COUNT)?).map_err(|_| BadLine)
}

/// The words before, between and after slashes. A slash may be a word of its own or stand at either end of one.
fn sides(text: &[u8]) -> Vec<Vec<&[u8]>> {
    let words = |side| <[u8]>::split(side, is_blank).filter(|word| !word.is_empty());
    text.split(|&byte| byte == b'/')
        .map(|side| words(side).collect())
        .collect()
}

/// The bytes that words of hex digits spell. A blank stands only between pairs, so each word is whole pairs.
fn read_tape(words: &[&[u8]]) -> Result<Vec<u8>, BadLine> {
    let mut tape = Vec::new();
    for word in words {
        let pairs = word.chunks_exact(2);
        if !pairs.remainder().is_empty() {
            return Err(BadLine);
        }
        for pair in pairs {
            let mut byte = 0;
            for &digit in pair {
                byte = byte << 4 | hex_digit(digit)?;
            }
            tape.push(byte);
        }
    }
    Ok(tape)
}

fn read_mask(word: &[u8]) -> Result<Mask, BadLine> {
    if word.len() != 4 {
        return Err(BadLine);
    }
    let mut bits = 0;
    for &digit in word {
        bits = bits << 4 | u16::from(hex_digit(digit)?);
    }
    Ok(Mask::new(bits))
}

fn hex_digit(digit: u8) -> Result<u8, BadLine> {
    match digit {
        b'0'..=b'9' => Ok(digit - b'0'),
        b'a'..=b'f' => Ok(digit - b'a' + 10),
        b'A'..=b'F' => Ok(digit - b'A' + 10),
        _ => Err(BadLine),
    }
}

fn read_byte(word: &[u8]) -> Result<u8, BadLine> {
    let number = read_number(word, MOST_NUMBER)?;
    u8::try_from(number).map_err(|_| BadLine)
}

/// The value of decimal digits, if it is at most `most`.
fn read_number(word: &[u8], most: u32) -> Result<u32, BadLine> {
    if word.is_empty() {
        return Err(BadLine);
    }
    let mut number = 0_u32;
    for &digit in word {
        if !digit.is_ascii_digit() {
            return Err(BadLine);
        }
        // Zeros in front may go on for ever, so the value is held to its bound as it grows.
        number = number * 10 + u32::from(digit - b'0');
        if number > most {
            return Err(BadLine);
        }
    }
    Ok(number)
}

#[cfg(test)]
mod tests {
    use super::*;

    fn asks(ask: Ask) -> Result<Option<Call>, BadLine> {
        Ok(Some(Call::Ask(ask)))
    }

    #[test]
    fn tapes_are_pairs_of_digits() {
        assert_eq!(read_line(b"scheme"), Ok(Some(Call::Scheme(Vec::new()))));
        assert_eq!(
            read_line(b" scheme\t10aF  1f\r"),
            Ok(Some(Call::Scheme(vec![0x10, 0xAF, 0x1F])))
        );
        assert_eq!(read_line(b"scheme 1 0"), Err(BadLine));
        assert_eq!(read_line(b"scheme 1 01 0"), Err(BadLine));
        assert_eq!(read_line(b"scheme10"), Err(BadLine));
    }

    #[test]
    fn numbers_count_by_their_value() {
        assert_eq!(
            read_line(b"rule 0000000000000255 0 1"),
            asks(Ask::Rule {
                row: 255,
                column: 0,
                right: 1
            })
        );
        assert_eq!(read_line(b"rule 256 0 1"), Err(BadLine));
        assert_eq!(read_line(b"store list 18446744073709551617"), Err(BadLine));
        assert_eq!(
            read_line(b"store list 999999"),
            Ok(Some(Call::StoreList { records: 999_999 }))
        );
        assert_eq!(read_line(b"store list 1000000"), Err(BadLine));
        assert_eq!(read_line(b"request"), Err(BadLine));
        assert_eq!(
            read_line(b"request 7"),
            asks(Ask::Request {
                command: 7,
                names: Vec::new()
            })
        );
    }

    #[test]
    fn a_making_may_say_its_size() {
        let makes = |size, bans: &[u8]| {
            let bans = bans.to_vec();
            asks(Ask::Make { size, bans })
        };
        assert_eq!(read_line(b"make"), makes(5_312, &[]));
        assert_eq!(read_line(b"make 60 00"), makes(5_312, &[0x60, 0]));
        assert_eq!(read_line(b" make 0060/6000\r"), makes(60, &[0x60, 0]));
        assert_eq!(read_line(b"make\t999999 /"), makes(999_999, &[]));
        for bad in [
            "make 1000000 /",
            "make /",
            "make / 60",
            "make 60 00 /",
            "make 1 / 2 /",
            "make 6",
            "make/",
            "make -1 /",
            "make 1 / 6",
            "table 0",
        ] {
            assert_eq!(read_line(bad.as_bytes()), Err(BadLine), "{bad}");
        }
    }

    #[test]
    fn only_three_bytes_are_blanks() {
        assert_eq!(read_line(b" \t\r"), Ok(None));
        assert_eq!(read_line(b"\t# state"), Ok(None));
        assert_eq!(read_line(b"\x0Cstate"), Err(BadLine));
        assert_eq!(read_line(b"state\x00"), Err(BadLine));
    }
}
