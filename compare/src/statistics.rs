//! How often each answer came up.

use std::collections::BTreeMap;
use std::fmt;

use crate::certificate::MOST_STAMPS;
use crate::fault::Fault;
use crate::generator::{self, Manner};
use crate::make::Refusal;
use crate::session::{self, Answer, Answered};

/// Every answer that scripts of many seeds should come to, as [`Statistics`] words them.
pub const WANTED: [&str; 53] = [
    "check: ok",
    "error bad line",
    "error no certificate",
    "error no register",
    "fault 1 1",
    "fault 1 2",
    "fault 1 3",
    "fault 1 4",
    "fault 1 5",
    "fault 1 6",
    "fault 2 1",
    "fault 2 2",
    "fault 2 5",
    "fault 2 7",
    "fault 2 8",
    "fault 3 1",
    "fault 3 2",
    "fault 3 4",
    "fault 3 5",
    "fault 3 7",
    "fault 4 1",
    "fault 4 2",
    "fault 4 4",
    "fault 4 5",
    "fault 5 9",
    "fault 5 10",
    "fault 5 11",
    "fault 5 12",
    "fault 5 13",
    "fault 5 14",
    "fault 5 15",
    "fault 5 16",
    "fault 6 17",
    "fault 6 18",
    "fault 6 19",
    "fault 6 20",
    "fault 6 21 for a ban",
    "fault 6 21 for the stamps",
    "fault 7 23",
    "fault 7 24",
    "filter: ok",
    "list: end",
    "make: ok",
    "make: ok 0",
    "make: ok with all stamps",
    "open: ok",
    "request: ok",
    "rule: ok no",
    "rule: ok yes",
    "scheme: ok",
    "state: end",
    "store: ok",
    "table: end",
];

#[derive(Clone, Debug, Default)]
pub struct Statistics {
    scripts: u64,
    counts: BTreeMap<String, u64>,
}

impl Statistics {
    /// What the scripts of these seeds come to, each in its own manner.
    pub fn of_seeds(seeds: impl Iterator<Item = u64>) -> Self {
        let mut statistics = Self::default();
        for seed in seeds {
            statistics.add_script(&generator::script(seed, Manner::of_seed(seed)));
        }
        statistics
    }

    fn add_script(&mut self, script: &[u8]) {
        self.scripts += 1;
        for answered in session::answers(script) {
            *self.counts.entry(label(&answered)).or_default() += 1;
        }
    }

    /// Those of the wanted answers that have not come up.
    pub fn missing(&self) -> Vec<&'static str> {
        WANTED
            .into_iter()
            .filter(|&wanted| !self.counts.contains_key(wanted))
            .collect()
    }
}

/// What kind of answer it is: a refusal without its place, and else the line's keyword with the answer's last line.
fn label(answered: &Answered<'_>) -> String {
    let keyword = answered
        .line
        .split(|byte| !byte.is_ascii_lowercase())
        .find(|word| !word.is_empty());
    let keyword = String::from_utf8_lossy(keyword.unwrap_or_default());
    match &answered.answer {
        Answer::Refused(fault) => refused(fault),
        Answer::Unmade(Refusal::Fault(fault)) => refused(fault),
        Answer::Unmade(Refusal::TooManyStamps) => "fault 6 21 for the stamps".to_owned(),
        Answer::Unmade(Refusal::BanMet) => "fault 6 21 for a ban".to_owned(),
        Answer::NoRegister | Answer::NoCertificate | Answer::BadLine => answered.answer.to_string(),
        Answer::Counted(_) => format!("{keyword}: ok"),
        Answer::Made(made) => match made.stamps().len() {
            0 => format!("{keyword}: ok 0"),
            MOST_STAMPS => format!("{keyword}: ok with all stamps"),
            _ => format!("{keyword}: ok"),
        },
        Answer::Held(_) | Answer::Table(_) => format!("{keyword}: end"),
        Answer::Done | Answer::Ruled(_) | Answer::Listed => {
            format!("{keyword}: {}", answered.answer)
        }
    }
}

fn refused(fault: &Fault) -> String {
    format!("fault {} {}", fault.layer as u8, fault.rule as u8)
}

impl fmt::Display for Statistics {
    fn fmt(&self, f: &mut fmt::Formatter<'_>) -> fmt::Result {
        writeln!(f, "{} scripts", self.scripts)?;
        for (label, count) in &self.counts {
            writeln!(f, "{count:>9}  {label}")?;
        }
        for label in self.missing() {
            writeln!(f, "{:>9}  {label}", "NONE")?;
        }
        Ok(())
    }
}

#[cfg(test)]
mod tests {
    use super::*;

    #[test]
    fn every_answer_comes_up() {
        let statistics = Statistics::of_seeds(0..400);
        assert!(statistics.missing().is_empty(), "{statistics}");
    }
}
