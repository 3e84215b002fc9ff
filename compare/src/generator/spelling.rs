//! How a line is spelled, and lines that say nothing or can't be read.

use crate::dice::Dice;

/// A word of a line.
#[derive(Clone, Debug)]
enum Word {
    Plain(&'static str),
    Number(usize),
    Mask(u16),
    Tape(Vec<u8>),
    Slash,
}

/// What a line says, word by word; each of them can be spelled in several ways.
#[derive(Clone, Debug)]
pub struct Words {
    words: Vec<Word>,
}

impl Words {
    pub fn new(keyword: &'static str) -> Self {
        Words {
            words: vec![Word::Plain(keyword)],
        }
    }

    fn with(mut self, word: Word) -> Self {
        self.words.push(word);
        self
    }

    pub fn word(self, word: &'static str) -> Self {
        self.with(Word::Plain(word))
    }

    pub fn number(self, number: usize) -> Self {
        self.with(Word::Number(number))
    }

    pub fn numbers(self, numbers: &[u8]) -> Self {
        numbers
            .iter()
            .fold(self, |words, &number| words.number(number.into()))
    }

    pub fn mask(self, mask: u16) -> Self {
        self.with(Word::Mask(mask))
    }

    pub fn tape(self, tape: Vec<u8>) -> Self {
        self.with(Word::Tape(tape))
    }

    /// Around a slash there need be no blanks.
    pub fn slash(self) -> Self {
        self.with(Word::Slash)
    }

    /// The line, mostly in the plain spelling.
    pub fn spelled(&self, dice: &mut Dice) -> Vec<u8> {
        let is_plain = dice.chance(85);
        let mut line = if is_plain {
            String::new()
        } else {
            blanks(dice, 0)
        };
        let mut before: Option<&Word> = None;
        for word in &self.words {
            line.push_str(&match before {
                None => String::new(),
                Some(_) if is_plain => " ".to_owned(),
                Some(before) => blanks(dice, blanks_between(before, word)),
            });
            before = Some(word);
            match word {
                Word::Plain(text) => line.push_str(text),
                Word::Number(number) if is_plain || dice.chance(60) => {
                    line.push_str(&number.to_string())
                }
                Word::Number(number) => {
                    line.push_str(&format!("{number:0width$}", width = dice.between(2, 30)))
                }
                Word::Mask(mask) if is_plain || dice.chance(50) => {
                    line.push_str(&format!("{mask:04X}"))
                }
                Word::Mask(mask) => line.push_str(&format!("{mask:04x}")),
                Word::Tape(tape) if is_plain => line.push_str(&pairs(tape, " ")),
                Word::Tape(tape) => line.push_str(&odd_pairs(dice, tape)),
                Word::Slash => line.push('/'),
            }
        }
        if !is_plain {
            line.push_str(&blanks(dice, 0));
        }
        line.into_bytes()
    }
}

/// How many blanks there must be between two words.
fn blanks_between(one: &Word, other: &Word) -> usize {
    match (one, other) {
        (Word::Slash, _) | (_, Word::Slash) => 0,
        _ => 1,
    }
}

/// At least so many blanks, and seldom many more.
fn blanks(dice: &mut Dice, least: usize) -> String {
    let count = least + dice.one_of([0, 0, 0, 0, 1, 1, 2, 5]);
    (0..count)
        .map(|_| dice.one_of([' ', ' ', ' ', '\t', '\r']))
        .collect()
}

fn pairs(tape: &[u8], between: &str) -> String {
    tape.iter()
        .map(|byte| format!("{byte:02X}"))
        .collect::<Vec<_>>()
        .join(between)
}

/// The pairs with no blanks between them, or with blanks here and there, and in either case.
fn odd_pairs(dice: &mut Dice, tape: &[u8]) -> String {
    if dice.chance(40) {
        return pairs(tape, "");
    }
    let mut text = String::new();
    for byte in tape {
        match dice.below(3) {
            0 => text.push_str(&format!("{byte:02x}")),
            1 => text.push_str(&format!("{byte:02X}")),
            _ => text.push_str(&format!("{:x}{:X}", byte >> 4, byte & 0xF)),
        }
        if dice.chance(50) {
            text.push_str(&blanks(dice, 0));
        }
    }
    text
}

/// A line that says nothing.
pub fn remark(dice: &mut Dice) -> Vec<u8> {
    const REMARKS: [&[u8]; 8] = [
        b"",
        b"   ",
        b"\t\r",
        b"# what follows is read again",
        b"#",
        b"  #state",
        b"\t# 10 01",
        b"#\xFF\xFE\x00 rubbish",
    ];
    dice.one_of(REMARKS).to_vec()
}

/// A line that can't be read.
pub fn bad_line(dice: &mut Dice) -> Vec<u8> {
    const BAD: &[&[u8]] = &[
        b"scheme 1",
        b"scheme 1 0",
        b"scheme 10 0G 00 1F",
        b"scheme 10 01 00 1",
        b"scheme 10, 01, 00, 1F",
        b"scheme 0x10",
        b"scheme10",
        b"Scheme 10 01 00 1F",
        b"SCHEME",
        b"schem",
        b"schemes",
        b"scheme \xC3\xA9",
        b"scheme 10 01 00 1F # one command",
        b"scheme 10 01 00 1F\x00",
        b"scheme -- 10",
        b"list all",
        b"List",
        b"list 0",
        b"listing",
        b"open 4",
        b"open 40 00 FF FF FF F",
        b"open 4 000FFFFFFFF",
        b"open 40:00",
        b"open40",
        b"Open",
        b"opening",
        b"open x",
        b"request",
        b"request 256",
        b"request 256 0",
        b"request 0 256",
        b"request 0 0 300",
        b"request 0 -1",
        b"request 0 +1",
        b"request 0 1,2",
        b"request x",
        b"request 0 0x1",
        b"request 0 1.0",
        b"request 18446744073709551616 0",
        b"request 0 4294967296",
        b"request 0 00000000000000000000000000000256",
        b"request0 1",
        b"requests 0 1",
        b"REQUEST 0 1",
        b"rule",
        b"rule 0 1",
        b"rule 0 1 2 3",
        b"rule 0 1 256",
        b"rule 256 1 0",
        b"rule 0 1 A",
        b"rule 0 1 \xFF",
        b"check",
        b"check 50 01 03 FF FF FF",
        b"check 50 / 60 /",
        b"check //",
        b"check / /",
        b"check /1",
        b"check 5/0",
        b"check 5 / 0 6 0",
        b"check 5 0 /",
        b"check 500 / 60",
        b"check 50 / 0x60",
        b"check 50 \\ 60",
        b"check/",
        b"check/60",
        b"check50 /",
        b"checks /",
        b"Check /",
        b"check / # now",
        b"/",
        b"make 1000000 /",
        b"make 18446744073709551617 / 60 01 00 01 00 01",
        b"make /",
        b"make / 60 01 00 01 00 01",
        b"make//",
        b"make 5312 / / 60 01 00 01 00 01",
        b"make 5312 / 60 01 00 01 00 01 /",
        b"make 5312 / 5312 /",
        b"make 5312 5312 /",
        b"make 60 01 00 01 00 01 / 5312",
        b"make 60 01 00 01 00 01 / 60 01 00 01 00 01",
        b"make -5312 /",
        b"make +5312 /",
        b"make 0x14C0 /",
        b"make 5,312 /",
        b"make 5312 /6",
        b"make 5312 / 6 0",
        b"make 5312 \\ 60",
        b"make 6",
        b"make 6 0",
        b"make 60 0G",
        b"make 60 01 00 01 00 01 # now",
        b"make/",
        b"make/60",
        b"make5312 /",
        b"make60",
        b"makes",
        b"Make",
        b"MAKE 5312 /",
        b"table 1",
        b"table /",
        b"table#",
        b"table # now",
        b"Table",
        b"TABLE",
        b"tables",
        b"tab le",
        b"\x0Ctable",
        b"state 1",
        b"State",
        b"states",
        b"state#",
        b"state # now",
        b"\x0Cstate",
        b"state\x0B",
        b"\xEF\xBB\xBFstate",
        b"store",
        b"store list",
        b"store list 1000000",
        b"store list 18446744073709551617",
        b"store list 1 2",
        b"store Board",
        b"store board 1",
        b"storeboard",
        b"store list1",
        b"filter 0",
        b"filter 0 000",
        b"filter 0 00000",
        b"filter 0 00 00",
        b"filter 0 0x00",
        b"filter 0 000G",
        b"filter 256 0000",
        b"filter 0000",
        b"filter 0 0000 1",
        b"filter -1 0000",
        b"Filter 0 0000",
        b"ok",
        b"end",
        b"error bad line",
        b"quit",
        b"0",
        b"\x00",
        b"\xFF\xFF\xFF",
    ];
    dice.pick(BAD).unwrap_or_default().to_vec()
}

#[cfg(test)]
mod tests {
    use super::*;
    use crate::script::read_line;

    #[test]
    fn every_spelling_says_the_same() {
        let words = Words::new("filter").number(3).mask(0xAB0C);
        let tape = Words::new("open").tape(vec![0x0F, 0xF0, 0xAB]);
        let check = Words::new("check").tape(vec![0xB5]).slash().tape(vec![6]);
        let empty = Words::new("check").tape(Vec::new()).slash();
        let making = Words::new("make").number(5311).slash().tape(vec![0x60]);
        let mut dice = Dice::new(1);
        for _ in 0..300 {
            assert_eq!(
                read_line(&words.spelled(&mut dice)),
                read_line(b"filter 3 AB0C")
            );
            assert_eq!(
                read_line(&tape.spelled(&mut dice)),
                read_line(b"open 0F F0 AB")
            );
            assert_eq!(
                read_line(&check.spelled(&mut dice)),
                read_line(b"check B5/06")
            );
            assert_eq!(read_line(&empty.spelled(&mut dice)), read_line(b"check /"));
            assert_eq!(
                read_line(&making.spelled(&mut dice)),
                read_line(b"make 5311 / 60")
            );
        }
    }

    #[test]
    fn bad_lines_are_bad_and_remarks_say_nothing() {
        let mut dice = Dice::new(2);
        for _ in 0..1_000 {
            let line = bad_line(&mut dice);
            assert!(
                read_line(&line).is_err(),
                "{:?} is read",
                String::from_utf8_lossy(&line)
            );
            assert_eq!(read_line(&remark(&mut dice)), Ok(None));
        }
    }
}
