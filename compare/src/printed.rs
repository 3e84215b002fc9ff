//! What a program prints, answer by answer, and whether an answer is as wanted.

use std::collections::{BTreeMap, BTreeSet};

use crate::certificate::Certificate;
use crate::session::Answer;

/// The lines that a program printed, each up to the words for people.
#[derive(Debug)]
pub struct Printed {
    lines: std::vec::IntoIter<String>,
}

impl Printed {
    pub fn new(output: &[u8]) -> Self {
        let output = String::from_utf8_lossy(output);
        let output = output.strip_suffix('\n').unwrap_or(&output);
        let lines: Vec<String> = output
            .split('\n')
            .map(|line| compared(line).to_owned())
            .collect();
        let lines = if output.is_empty() { Vec::new() } else { lines };
        Printed {
            lines: lines.into_iter(),
        }
    }

    pub fn next_line(&mut self) -> Option<String> {
        self.lines.next()
    }

    /// Takes the lines that answer what should be answered so, and answers the certificate that is made in them, if one
    /// is. Where they are otherwise, it says what is wanted at the first such place and what is given there.
    pub fn take(&mut self, answer: &Answer) -> Result<Option<Certificate>, Otherwise> {
        match answer {
            Answer::Made(made) => {
                let given = self.next_line();
                let read = given.as_deref().and_then(read_made);
                let read = read.filter(|it| it.says_the_same(made));
                Otherwise::unless(read.is_some(), &answer.to_string(), given)?;
                Ok(read)
            }
            _ => self.take_lines(answer).map(|()| None),
        }
    }

    fn take_lines(&mut self, answer: &Answer) -> Result<(), Otherwise> {
        match answer {
            // A listing is for people, and only its end is compared.
            Answer::Listed => {
                let given = self.through_end().map(|lines| last(&lines).to_owned());
                Otherwise::unless(given.as_deref() == Some("end"), "end", given)
            }
            Answer::Table(_) => {
                let (wanted, given) = (answer.to_string(), self.through_end());
                let table = given.as_deref().and_then(Table::read);
                let is_same = table.is_some() && table == Table::read(&wanted);
                Otherwise::unless(is_same, &wanted, given)
            }
            _ => answer.to_string().split('\n').try_for_each(|wanted| {
                let given = self.next_line();
                Otherwise::unless(given.as_deref() == Some(wanted), wanted, given)
            }),
        }
    }

    /// The lines up to the next `end`, or the next line alone where it says why there are no such lines.
    fn through_end(&mut self) -> Option<String> {
        let mut lines = self.next_line()?;
        if lines.starts_with("error") || lines.starts_with("fault") {
            return Some(lines);
        }
        while last(&lines) != "end" {
            lines.push('\n');
            lines.push_str(&self.next_line()?);
        }
        Some(lines)
    }
}

/// The part of an answer that is compared.
fn compared(line: &str) -> &str {
    line.split_once(" -- ").map_or(line, |(answer, _)| answer)
}

fn last(lines: &str) -> &str {
    lines.rsplit('\n').next().unwrap_or(lines)
}

/// An answer that is not as wanted.
#[derive(Clone, Debug, PartialEq, Eq)]
pub struct Otherwise {
    pub wanted: String,
    /// What the program answered in its place, if it did.
    pub given: Option<String>,
}

impl Otherwise {
    fn unless(is_as_wanted: bool, wanted: &str, given: Option<String>) -> Result<(), Self> {
        if is_as_wanted {
            return Ok(());
        }
        Err(Otherwise {
            wanted: wanted.to_owned(),
            given,
        })
    }
}

/// The certificate in the answer to a making, where it is written in the one way for its order of stamps.
fn read_made(answer: &str) -> Option<Certificate> {
    let bytes = answer.split(' ').nth(2).unwrap_or_default();
    let pairs = bytes.as_bytes().chunks(2);
    let byte = |pair| u8::from_str_radix(std::str::from_utf8(pair).ok()?, 16).ok();
    let tape: Option<Vec<u8>> = pairs.map(byte).collect();
    let made = Certificate::read(&tape?).ok()?;
    (Answer::Made(Box::new(made.clone())).to_string() == answer).then_some(made)
}

/// A table of stamps, in whatever order its lines and columns came.
#[derive(Debug, PartialEq, Eq)]
struct Table {
    columns: BTreeSet<String>,
    rights: BTreeMap<(String, String), String>,
}

impl Table {
    /// The table in these lines, where each stamp has one column, and one line with as many places.
    fn read(lines: &str) -> Option<Self> {
        let mut lines = lines.strip_suffix("\nend")?.split('\n');
        let columns: Vec<&str> = lines.next()?.strip_prefix("| |").and_then(places)?;
        let mut rights = BTreeMap::new();
        let mut rows = BTreeSet::new();
        for line in lines {
            let (stamp, held) = line
                .strip_prefix('|')
                .and_then(places)
                .and_then(|places| Some((*places.first()?, places[1..].to_vec())))?;
            if held.len() != columns.len() || !rows.insert(stamp.to_owned()) {
                return None;
            }
            for (column, held) in columns.iter().zip(held) {
                rights.insert((stamp.to_owned(), (*column).to_owned()), held.to_owned());
            }
        }
        let names: BTreeSet<String> = columns.iter().map(|&it| it.to_owned()).collect();
        (names.len() == columns.len() && names == rows).then_some(Table {
            columns: names,
            rights,
        })
    }
}

/// What stands in the places of a line, each with a blank before and after and a stroke behind.
fn places(line: &str) -> Option<Vec<&str>> {
    if line.is_empty() {
        return Some(Vec::new());
    }
    let place = |text| str::strip_prefix(text, " ")?.strip_suffix(" ");
    line.strip_suffix('|')?.split('|').map(place).collect()
}

#[cfg(test)]
mod tests {
    use super::*;
    use crate::entry::NULL;

    const MADE: &str = "ok 22 5001FFFFFFFF5002FFFFFFFF5100018001510000000A";

    fn is_taken(wanted: &Answer, given: &str) -> bool {
        Printed::new(given.as_bytes()).take(wanted).is_ok()
    }

    fn made() -> Box<Certificate> {
        let order = [
            vec![0x50, 2, NULL, NULL, NULL, NULL],
            vec![0x50, 1, NULL, NULL, NULL, NULL],
            vec![0x51, 1, 0, 0x80, 1],
            vec![0x51, 1, 1, 0, 0x0A],
        ];
        Box::new(Certificate::read(&order.concat()).expect("the tape is lawful"))
    }

    #[test]
    fn stamps_come_in_any_order() {
        let made = Answer::Made(made());
        assert!(is_taken(&made, &made.to_string()));
        assert!(is_taken(
            &made,
            "ok 22 5001FFFFFFFF5002FFFFFFFF510000000A5100018001"
        ));
    }

    #[test]
    fn a_made_tape_is_written_in_one_way() {
        let made = Answer::Made(made());
        for wrong in [
            // The pairs in the other order, and what was printed there cut, longer, shorter or in the other case.
            MADE,
            "ok 22 5001FFFFFFFF5002FFFFFFFF510000000A51000180",
            "ok 21 5001FFFFFFFF5002FFFFFFFF510000000A5100018001",
            "ok 022 5001FFFFFFFF5002FFFFFFFF510000000A5100018001",
            "ok 22 5001ffffffff5002ffffffff510000000a5100018001",
            "ok 22 5001FFFFFFFF 5002FFFFFFFF 510000000A 5100018001",
            "ok 225001FFFFFFFF5002FFFFFFFF510000000A5100018001",
            // A mask in two parts, an empty pair, a pair and a stamp less, one more, and other values.
            "ok 27 5001FFFFFFFF5002FFFFFFFF510000000251000000085100018001",
            "ok 27 5001FFFFFFFF5002FFFFFFFF510000000A51000180015100010000",
            "ok 17 5001FFFFFFFF5002FFFFFFFF510000000A",
            "ok 11 5001FFFFFFFF510000000A",
            "ok 28 5001FFFFFFFF5002FFFFFFFF5002FF00FFFF510000000A5100018001",
            "ok 22 5001FFFFFFFF5002FFFFFFFF510000000B5100018001",
            "ok 22 5001FFFFFFFF5002FFFFFF00510000000A5100018001",
            "ok 0",
            "ok",
            "fault 6 21 0",
            "",
        ] {
            assert!(!is_taken(&made, wrong), "{wrong}");
        }
        assert!(is_taken(&Answer::Made(Box::default()), "ok 0"));
        assert!(!is_taken(&Answer::Made(Box::default()), "ok 0 "));
    }

    #[test]
    fn a_table_is_the_same_in_any_order() {
        let table = Answer::Table(made());
        assert!(is_taken(&table, &table.to_string()));
        let right = [
            "| | card FF FF FF FF | thing FF FF FF FF |",
            "| card FF FF FF FF | 1 3 | 0 15 |",
            "| thing FF FF FF FF | - | - |",
            "end",
        ];
        assert!(is_taken(&table, &right.join("\n")));
        let with = |at: usize, line| {
            let mut lines = right;
            lines[at] = line;
            lines.join("\n")
        };
        for wrong in [
            with(0, "| | thing FF FF FF FF | card FF FF FF FF |"),
            with(0, "| | card FF FF FF FF | card FF FF FF FF |"),
            with(0, "| | card FF FF FF FF | thing FF FF FF FF"),
            with(0, "| card FF FF FF FF | thing FF FF FF FF |"),
            with(1, "| card FF FF FF FF | 3 1 | 0 15 |"),
            with(1, "| card FF FF FF FF | 1 3 | 0  15 |"),
            with(1, "| card FF FF FF FF | 1 3 | 0 |"),
            with(1, "| card FF FF FF FF | 1 3 |"),
            with(2, "| thing FF FF FF FF | - |  |"),
            with(2, "| card FF FF FF FF | 1 3 | 0 15 |"),
            right[..3].join("\n"),
            [&right[..2], &right[3..]].concat().join("\n"),
            "error no certificate".to_owned(),
        ] {
            assert!(!is_taken(&table, &wrong), "{wrong}");
        }
        assert!(is_taken(&Answer::Table(Box::default()), "| |\nend"));
    }
}
