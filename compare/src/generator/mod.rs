//! Random scripts: lawful ones, damaged ones, and ones with much in them.
//!
//! A script follows from its seed and its manner. While it is written, the engine answers its lines, so that most of the
//! requests in it can be such as are accepted in the state that the lines before have left.

mod bans;
mod calls;
mod certificates;
mod checks;
mod crowds;
mod damage;
mod draft;
mod makings;
mod openings;
mod requests;
mod schemes;
mod spelling;
mod taste;

use std::fmt;

use crate::certificate::Certificate;
use crate::dice::Dice;
use crate::fault::Rule;
use crate::register::Register;
use crate::session::{Answer, Session};
pub use calls::calls;
use checks::Check;
use crowds::Crowd;
use damage::Tape;
use draft::Draft;
use makings::Making;
use requests::Hope;
use spelling::Words;
use taste::Taste;

/// What sort of script it is.
#[derive(Clone, Copy, Debug, PartialEq, Eq)]
pub enum Manner {
    /// Well-formed tapes and few names, with requests that are often accepted.
    Lawful,
    /// Damaged tapes and lines between lawful ones.
    Damaged,
    /// Tapes with many commands, tests, steps, entries and rights.
    Dense,
}

impl Manner {
    /// The manner that a seed's script has where none is asked for.
    pub fn of_seed(seed: u64) -> Self {
        match seed % 5 {
            0 | 2 => Manner::Lawful,
            1 | 3 => Manner::Damaged,
            _ => Manner::Dense,
        }
    }

    pub fn named(name: &str) -> Option<Self> {
        match name {
            "lawful" => Some(Manner::Lawful),
            "damaged" => Some(Manner::Damaged),
            "dense" => Some(Manner::Dense),
            _ => None,
        }
    }

    /// How many lines in a hundred after an accepted request, or after a refused one, are `state`.
    fn states(self, was_accepted: bool) -> usize {
        match (self, was_accepted) {
            (Manner::Lawful | Manner::Damaged, true) => 50,
            (Manner::Lawful | Manner::Damaged, false) => 20,
            (Manner::Dense, true) => 25,
            (Manner::Dense, false) => 8,
        }
    }
}

impl fmt::Display for Manner {
    fn fmt(&self, f: &mut fmt::Formatter<'_>) -> fmt::Result {
        f.write_str(match self {
            Manner::Lawful => "lawful",
            Manner::Damaged => "damaged",
            Manner::Dense => "dense",
        })
    }
}

/// The script of a seed.
pub fn script(seed: u64, manner: Manner) -> Vec<u8> {
    let mut dice = Dice::new(seed);
    let taste = Taste::new(&mut dice, manner);
    let goal = dice.between(20, 75);
    let mut scribe = Scribe {
        dice,
        taste,
        manner,
        goal,
        session: Session::default(),
        checked: None,
        lines: Vec::new(),
    };
    scribe.write();
    scribe.script()
}

/// Who writes a script, line by line.
struct Scribe {
    dice: Dice,
    taste: Taste,
    manner: Manner,
    /// How many lines there should be before the last.
    goal: usize,
    /// The answers to the lines so far.
    session: Session,
    /// The last check that was asked for.
    checked: Option<Check>,
    lines: Vec<Vec<u8>>,
}

impl Scribe {
    fn write(&mut self) {
        if self.dice.chance(20) {
            self.act();
        }
        while self.lines.len() < self.goal {
            self.chapter();
        }
        self.say_words(Words::new("state"));
    }

    fn script(mut self) -> Vec<u8> {
        let mut script = self.lines.join(&b'\n');
        if self.dice.chance(90) {
            script.push(b'\n');
        }
        script
    }

    /// A register, and what is done with it.
    fn chapter(&mut self) {
        let (setups, acts) = match self.manner {
            Manner::Lawful => (self.dice.between(0, 4), self.dice.between(6, 40)),
            Manner::Damaged => (self.dice.between(0, 2), self.dice.between(4, 12)),
            Manner::Dense => (self.dice.between(0, 5), self.dice.between(8, 40)),
        };
        for _ in 0..setups {
            self.choose();
        }
        self.begin();
        for _ in 0..acts {
            self.act();
        }
        if self.manner == Manner::Damaged {
            for _ in 0..self.dice.between(8, 30) {
                self.err();
            }
        }
    }

    /// A scheme and an opening, and at times what is made or asked right then.
    fn begin(&mut self) {
        if self.dice.chance(8) {
            self.crowd();
            self.make(3);
            return self.make(3);
        }
        self.scheme();
        if self.dice.chance(4) {
            self.say_words(Words::new("table"));
            self.make(3);
        }
        self.open();
    }

    /// One thing of those that a script is mostly made of.
    fn act(&mut self) {
        if self.lines.len() >= self.goal {
            return;
        }
        if self.is_bare() && self.dice.chance(70) {
            return self.open();
        }
        match self.dice.below(100) {
            0..=46 => self.request(),
            47..=57 => self.rule(),
            58..=69 => self.check(8),
            70..=75 => self.make(8),
            76..=77 => self.say_words(Words::new("table")),
            78..=81 => self.choose(),
            82..=84 => self.damaged_scheme(),
            85..=88 => self.open(),
            89..=92 => self.say_words(Words::new("state")),
            93..=94 => self.say_words(Words::new("list")),
            95..=96 => self.say(spelling::remark),
            97..=98 => self.say(spelling::bad_line),
            _ => self.say_words(Words::new("open")),
        }
    }

    /// One thing of those that are likely to be refused.
    fn err(&mut self) {
        if self.lines.len() >= self.goal {
            return;
        }
        match self.dice.below(100) {
            0..=34 => self.damaged_scheme(),
            35..=54 => self.damaged_opening(),
            55..=66 => self.check(60),
            67..=69 => self.make(60),
            70..=81 => self.say(spelling::bad_line),
            82..=85 => self.broken_line(),
            86..=93 => self.wild_request(),
            _ => self.act(),
        }
    }

    /// Whether there is a register that nothing stands in.
    fn is_bare(&self) -> bool {
        self.session
            .register()
            .is_some_and(|register| register.state().protection.entries().next().is_none())
    }

    fn limit(&self) -> Option<usize> {
        self.session
            .register()
            .map(|register| register.store().limit())
    }

    // Lines.

    fn say(&mut self, line: fn(&mut Dice) -> Vec<u8>) {
        let line = line(&mut self.dice);
        self.put(line);
    }

    fn say_words(&mut self, words: Words) {
        let line = words.spelled(&mut self.dice);
        self.put(line);
    }

    /// Puts down a line, which may be several where bytes of it were changed, and takes what the last is answered.
    fn put(&mut self, line: Vec<u8>) -> Option<Answer> {
        let mut answer = None;
        for line in line.split(|&byte| byte == b'\n') {
            answer = self.session.answer_line(line);
        }
        self.lines.push(line);
        answer
    }

    fn state_at_times(&mut self, percent: usize) {
        if self.dice.chance(percent) {
            self.say_words(Words::new("state"));
        }
    }

    // Choices for the next register.

    fn choose(&mut self) {
        let words = match self.dice.below(100) {
            0..=9 => Words::new("store").word("board"),
            10..=54 => self.list(),
            _ => self.filter(),
        };
        self.say_words(words);
    }

    fn list(&mut self) -> Words {
        let records = match (self.manner, self.dice.below(10)) {
            (_, 0) => self
                .dice
                .one_of([0, 1, 4_095, 4_096, 4_097, 5_000, 65_536, 69_632, 999_999]),
            (Manner::Dense, 1..=7) => self.dice.between(10, 220),
            (_, _) => self.dice.between(1, 9),
        };
        Words::new("store").word("list").number(records)
    }

    fn filter(&mut self) -> Words {
        let attribute = match self.dice.below(12) {
            0 => self.dice.one_of([4, 5, 64, 128, 254, 255]),
            _ => self.dice.below(4),
        };
        let mask = match self.dice.below(4) {
            0 => 0,
            1 => 0xFFFF,
            2 => u16::from_le_bytes([self.dice.byte(), self.dice.byte()]),
            _ => self.taste.mask(&mut self.dice),
        };
        Words::new("filter").number(attribute).mask(mask)
    }

    // Tapes.

    fn scheme(&mut self) {
        let draft = schemes::scheme(&mut self.dice, &self.taste, self.manner);
        self.say_tape("scheme", draft.bytes());
        if self.dice.chance(8) {
            self.say_words(Words::new("list"));
        }
        self.state_at_times(10);
    }

    fn crowd(&mut self) {
        let crowd = Crowd::new(&mut self.dice);
        self.say_tape("scheme", crowd.scheme.bytes());
        let limit = self.limit().unwrap_or(1);
        let opening = crowd.opening(&mut self.dice, limit);
        self.say_tape("open", opening.bytes());
    }

    fn open(&mut self) {
        let draft = self.opening();
        self.say_tape("open", draft.bytes());
        self.state_at_times(40);
    }

    fn opening(&mut self) -> Draft {
        let limit = self.limit().unwrap_or(9);
        openings::opening(&mut self.dice, &self.taste, self.manner, limit)
    }

    fn damaged_scheme(&mut self) {
        let draft = schemes::scheme(&mut self.dice, &self.taste, self.manner);
        let tape = damage::damaged(&mut self.dice, draft, Tape::Scheme);
        self.say_tape("scheme", tape);
        self.state_at_times(15);
    }

    fn damaged_opening(&mut self) {
        let draft = self.opening();
        let tape = damage::damaged(&mut self.dice, draft, Tape::Opening);
        self.say_tape("open", tape);
        self.state_at_times(40);
    }

    fn say_tape(&mut self, keyword: &'static str, tape: Vec<u8>) {
        self.say_words(Words::new(keyword).tape(tape));
    }

    /// A line with a tape, or another, of which a byte is not as it was.
    fn broken_line(&mut self) {
        let words = match self.dice.below(5) {
            0 => Words::new("open").tape(self.opening().bytes()),
            1 => self.filter(),
            2 => check_words(&self.checked.clone().unwrap_or_default()),
            3 => make_words(&Making {
                size: makings::size(&mut self.dice),
                bans: self.checked.clone().unwrap_or_default().bans,
            }),
            _ => Words::new("request")
                .number(self.dice.below(3))
                .number(self.dice.below(64)),
        };
        let mut line = words.spelled(&mut self.dice);
        damage::change_bytes(&mut self.dice, &mut line);
        self.put(line);
    }

    // Requests and questions.

    fn request(&mut self) {
        let hope = match self.dice.below(100) {
            0..=64 => Hope::Accepted,
            65..=73 => Hope::Refused(Rule::PassesLimit),
            74..=81 => Hope::Refused(Rule::TestFails),
            82..=83 => Hope::Refused(Rule::ThingAsCard),
            _ => return self.wild_request(),
        };
        let request = self
            .session
            .register()
            .and_then(|it| requests::hoped(&mut self.dice, &self.taste, it, hope));
        match request {
            Some(request) => self.say_request(&request),
            None => self.wild_request(),
        }
    }

    fn wild_request(&mut self) {
        let request = requests::wild(&mut self.dice, &self.taste, self.session.register());
        self.say_request(&request);
    }

    fn say_request(&mut self, request: &requests::Request) {
        let words = Words::new("request")
            .number(request.command.into())
            .numbers(&request.names);
        let line = words.spelled(&mut self.dice);
        let answer = self.put(line);
        let was_accepted = matches!(answer, Some(Answer::Counted(_)));
        self.state_at_times(self.manner.states(was_accepted));
    }

    // Checks.

    /// Checks of which so many in a hundred have a damaged tape.
    fn check(&mut self, damaged: usize) {
        match &self.checked {
            Some(check) if self.dice.chance(20) => {
                // What was accepted holds for good, as long as there is the same register.
                let words = check_words(check);
                return self.say_words(words);
            }
            _ => {}
        }
        let Some(register) = self.session.register() else {
            return self.say_words(check_words(&Check::default()));
        };
        let count = self.dice.one_of([1, 1, 2, 3]);
        let (dice, taste) = (&mut self.dice, &self.taste);
        for check in checks::checks(dice, taste, register, count, damaged) {
            self.say_words(check_words(&check));
            self.checked = Some(check);
        }
    }

    // Makings.

    /// A making, with a damaged ban tape so many times in a hundred, and at times what follows from it.
    fn make(&mut self, damaged: usize) {
        let Some(register) = self.session.register() else {
            return self.say_words(make_words(&Making::default()));
        };
        let making = makings::making(&mut self.dice, &self.taste, register, damaged);
        let line = make_words(&making).spelled(&mut self.dice);
        let answer = self.put(line);
        if self.dice.chance(15) {
            self.say_words(Words::new("table"));
        }
        if let Some(Answer::Made(made)) = answer {
            self.doubt(&made, making.bans);
        }
    }

    /// Puts what was made to a check, or what is nearly that.
    fn doubt(&mut self, made: &Certificate, bans: Vec<u8>) {
        for _ in 0..self.dice.one_of([0, 0, 0, 1, 1, 2, 3]) {
            let check = Check {
                certificate: makings::doubted(&mut self.dice, made).tape(),
                bans: bans.clone(),
            };
            self.say_words(check_words(&check));
            self.checked = Some(check);
        }
        if self.dice.chance(15) {
            self.say_words(Words::new("table"));
        }
    }

    fn rule(&mut self) {
        let question = requests::question(&mut self.dice, &self.taste, self.session.register());
        self.say_words(Words::new("rule").numbers(&question));
    }
}

fn check_words(check: &Check) -> Words {
    Words::new("check")
        .tape(check.certificate.clone())
        .slash()
        .tape(check.bans.clone())
}

fn make_words(making: &Making) -> Words {
    let words = Words::new("make");
    let words = match making.size {
        Some(size) => words.number(size).slash(),
        None => words,
    };
    words.tape(making.bans.clone())
}

/// The names under which entries stand, and of these the cards' names.
fn standing(register: &Register) -> (Vec<u8>, Vec<u8>) {
    let entries = || register.state().protection.entries();
    let all = entries().map(|(name, _)| name.number()).collect();
    let cards = entries()
        .filter(|(_, entry)| entry.is_card())
        .map(|(name, _)| name.number())
        .collect();
    (all, cards)
}

#[cfg(test)]
mod tests {
    use super::*;

    #[test]
    fn a_seed_has_one_script() {
        for seed in 0..20 {
            assert_eq!(
                script(seed, Manner::of_seed(seed)),
                script(seed, Manner::of_seed(seed))
            );
        }
    }

    #[test]
    fn scripts_have_some_twenty_to_eighty_lines() {
        for seed in 0..200 {
            let lines = script(seed, Manner::of_seed(seed))
                .split(|&byte| byte == b'\n')
                .count();
            assert!(
                (20..=85).contains(&lines),
                "the script of {seed} has {lines} lines"
            );
        }
    }
}
