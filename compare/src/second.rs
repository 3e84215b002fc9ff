//! A second script, which asks a program about what it made.
//!
//! It is the first script with checks after each making: one of the certificate that the program made, which is to be
//! accepted with the same bans, and others of certificates that lack a stamp or a right of it, which are to be refused,
//! as it is to be the least.

use std::collections::BTreeMap;

use crate::certificate::Certificate;
use crate::dice::Dice;
use crate::fault::Rule;
use crate::less::{self, Thing};
use crate::script::{self, Ask, Call};
use crate::session::{Answer, Answered};
use crate::tape;

/// How many things are taken away in turn, each by itself, where that takes a while, and where it does not.
const FEW: usize = 4;
const MANY: usize = 64;
/// A check of so many stamps takes a while.
const CROWD: usize = 12;

/// What should come of a check.
#[derive(Clone, Copy, Debug, PartialEq, Eq)]
pub enum Verdict {
    Accepted,
    /// Because the certificate does not hold what it should, and not for a ban.
    Refused,
}

impl Verdict {
    fn is_of(self, answer: &Answer) -> bool {
        match (self, answer) {
            (Verdict::Accepted, Answer::Done) => true,
            (Verdict::Refused, Answer::Refused(fault)) => {
                matches!(fault.rule, Rule::NotContained | Rule::NotClosed)
            }
            _ => false,
        }
    }
}

#[derive(Clone, Debug, Default)]
pub struct Second {
    lines: Vec<Vec<u8>>,
    /// What should come of the checks that were put in, by the numbers of their lines.
    verdicts: BTreeMap<usize, Verdict>,
}

impl Second {
    /// The second script, where the first has these makings in it, by the numbers of their lines.
    pub fn of(script: &[u8], makings: &BTreeMap<usize, Certificate>) -> Self {
        let mut second = Self::default();
        for (line, number) in script::lines(script).zip(1..) {
            second.lines.push(line.to_vec());
            let made = makings.get(&number);
            if let (Some(made), Ok(Some(Call::Ask(Ask::Make { bans, .. })))) =
                (made, script::read_line(line))
            {
                second.ask_about(made, &bans, &mut Dice::new(number as u64));
            }
        }
        second
    }

    pub fn script(&self) -> Vec<u8> {
        self.lines.join(&b'\n')
    }

    /// The first of the checks that were put in whose answer is not what should come of it.
    pub fn first_wrong<'a, 's>(&self, answers: &'a [Answered<'s>]) -> Option<&'a Answered<'s>> {
        answers.iter().find(|answered| {
            let verdict = self.verdicts.get(&answered.number);
            verdict.is_some_and(|it| !it.is_of(&answered.answer))
        })
    }

    fn ask_about(&mut self, made: &Certificate, bans: &[u8], dice: &mut Dice) {
        self.ask(made, bans, Verdict::Accepted);
        for thing in some_things(made, dice) {
            self.ask(&less::without(made, thing), bans, Verdict::Refused);
        }
    }

    fn ask(&mut self, certificate: &Certificate, bans: &[u8], verdict: Verdict) {
        let tapes = [&certificate.tape(), bans].map(tape::digits);
        self.lines
            .push(format!("check {}", tapes.join(" / ")).into_bytes());
        self.verdicts.insert(self.lines.len(), verdict);
    }
}

/// All things of a small certificate, and some of a large one.
fn some_things(certificate: &Certificate, dice: &mut Dice) -> Vec<Thing> {
    let most = if certificate.stamps().len() < CROWD {
        MANY
    } else {
        FEW
    };
    let mut things = less::things(certificate);
    while things.len() > most {
        things.swap_remove(dice.below(things.len()));
    }
    things
}

#[cfg(test)]
mod tests {
    use super::*;
    use crate::entry::{Mask, NULL};
    use crate::session;

    /// A card of grade 1, and nothing that asks for more.
    const SCRIPT: &[u8] =
        b"scheme\nopen 40 00 01 FF FF FF\n# a making\nmake 60 00 00 02 00 02\nstate\n";

    /// The line that shows that this is not what should have been made there.
    fn wrong_line(made: Certificate) -> Option<usize> {
        let second = Second::of(SCRIPT, &BTreeMap::from([(4, made)]));
        let script = second.script();
        let answers: Vec<Answered> = session::answers(&script).collect();
        second.first_wrong(&answers).map(|it| it.number)
    }

    fn listing(tape: &[u8]) -> Certificate {
        Certificate::read(tape).expect("the tape is lawful")
    }

    #[test]
    fn what_was_made_is_asked_about_behind_its_line() {
        let made = listing(&[0x50, 1, 1, NULL, NULL, NULL]);
        let second = Second::of(SCRIPT, &BTreeMap::from([(4, made)]));
        let script = String::from_utf8(second.script()).expect("it is text");
        let lines: Vec<&str> = script.split('\n').collect();
        assert_eq!(lines[3], "make 60 00 00 02 00 02");
        assert_eq!(lines[4], "check 500101FFFFFF / 600000020002");
        assert_eq!(lines[5], "check  / 600000020002");
        assert_eq!(lines[6..], ["state", ""]);
    }

    #[test]
    fn only_the_least_is_right() {
        let least = listing(&[0x50, 1, 1, NULL, NULL, NULL]);
        assert_eq!(wrong_line(least.clone()), None);
        // Too little is not accepted, and of too much something can be taken away.
        assert_eq!(wrong_line(Certificate::default()), Some(5));
        let mut more = least.clone();
        assert_eq!(more.allow(0, 0, Mask::new(1)), Ok(()));
        assert_eq!(wrong_line(more), Some(7));
        let more = [&least.tape()[..], &[0x50, 2, 1, NULL, NULL, NULL]].concat();
        assert_eq!(wrong_line(listing(&more)), Some(7));
    }
}
