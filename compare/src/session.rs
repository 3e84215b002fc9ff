//! What a script's lines are answered, one after the other.

use std::fmt;

use crate::certificate::Certificate;
use crate::entry::{Mask, Right, Stamp};
use crate::fault::Fault;
use crate::make;
use crate::register::{Register, State};
use crate::ruling::Filters;
use crate::scheme::Scheme;
use crate::script::{self, Ask, BadLine, Call};
use crate::store::Store;
use crate::tape;

/// What a line that says something is answered. It is printed as one line, or as several without the last line's end.
#[derive(Clone, Debug, PartialEq, Eq)]
pub enum Answer {
    Done,
    Counted(u32),
    Ruled(bool),
    /// The commands in words. They are for people, so here they are left out.
    Listed,
    Held(State),
    Made(Box<Certificate>),
    Table(Box<Certificate>),
    Refused(Fault),
    /// A making was refused.
    Unmade(make::Refusal),
    NoRegister,
    NoCertificate,
    BadLine,
}

impl fmt::Display for Answer {
    fn fmt(&self, f: &mut fmt::Formatter<'_>) -> fmt::Result {
        match self {
            Answer::Done => f.write_str("ok"),
            Answer::Counted(count) => write!(f, "ok {count}"),
            Answer::Ruled(true) => f.write_str("ok yes"),
            Answer::Ruled(false) => f.write_str("ok no"),
            Answer::Listed => f.write_str("end"),
            Answer::Held(state) => write_state(state, f),
            Answer::Made(certificate) => write_made(&certificate.tape(), f),
            Answer::Table(certificate) => write_table(certificate, f),
            Answer::Refused(fault) => write!(f, "{fault}"),
            Answer::Unmade(refusal) => write!(f, "{}", refusal.fault()),
            Answer::NoRegister => f.write_str("error no register"),
            Answer::NoCertificate => f.write_str("error no certificate"),
            Answer::BadLine => f.write_str("error bad line"),
        }
    }
}

fn write_state(state: &State, f: &mut fmt::Formatter<'_>) -> fmt::Result {
    for (name, entry) in state.protection.entries() {
        writeln!(
            f,
            "entry {} {} {}",
            name.number(),
            entry.kind,
            entry.attributes
        )?;
    }
    for (row, column, mask) in state.protection.cells().iter() {
        writeln!(f, "cell {} {} {mask}", row.number(), column.number())?;
    }
    write!(f, "count {}\nend", state.count)
}

fn write_made(tape: &[u8], f: &mut fmt::Formatter<'_>) -> fmt::Result {
    match tape.len() {
        0 => f.write_str("ok 0"),
        length => write!(f, "ok {length} {}", tape::digits(tape)),
    }
}

fn write_table(certificate: &Certificate, f: &mut fmt::Formatter<'_>) -> fmt::Result {
    let words = |stamp: &Stamp| format!("{} {}", stamp.kind, stamp.attributes);
    let stamps = certificate.stamps();
    f.write_str("| |")?;
    for stamp in stamps {
        write!(f, " {} |", words(stamp))?;
    }
    writeln!(f)?;
    for (row, stamp) in stamps.iter().enumerate() {
        write!(f, "| {} |", words(stamp))?;
        for column in 0..stamps.len() {
            write!(f, " {} |", rights(certificate.between(row, column)))?;
        }
        writeln!(f)?;
    }
    f.write_str("end")
}

/// The rights of a mask by rising number.
fn rights(mask: Mask) -> String {
    if mask.is_empty() {
        return "-".to_owned();
    }
    let held = Right::all().filter(|&right| mask.has(right));
    let numbers: Vec<String> = held.map(|right| right.number().to_string()).collect();
    numbers.join(" ")
}

impl From<Result<(), Fault>> for Answer {
    fn from(result: Result<(), Fault>) -> Self {
        match result {
            Ok(()) => Answer::Done,
            Err(fault) => Answer::Refused(fault),
        }
    }
}

/// The register of a script, and what is chosen for the next one.
#[derive(Clone, Debug, Default)]
pub struct Session {
    store: Store,
    filters: Filters,
    desk: Option<Desk>,
}

/// A register, and the certificate that was last made for it, or accepted by a check of it.
#[derive(Clone, Debug)]
struct Desk {
    register: Register,
    certificate: Option<Box<Certificate>>,
}

impl Session {
    pub fn register(&self) -> Option<&Register> {
        self.desk.as_ref().map(|desk| &desk.register)
    }

    /// Answers a line, unless it says nothing.
    pub fn answer_line(&mut self, line: &[u8]) -> Option<Answer> {
        match script::read_line(line) {
            Ok(call) => call.map(|call| self.answer(&call)),
            Err(BadLine) => Some(Answer::BadLine),
        }
    }

    fn answer(&mut self, call: &Call) -> Answer {
        match call {
            Call::Scheme(tape) => self.make_register(tape).into(),
            Call::StoreBoard => {
                self.store = Store::Board;
                Answer::Done
            }
            Call::StoreList { records } => self.choose_list(*records).into(),
            Call::Filter { attribute, mask } => self.filters.choose(*attribute, *mask).into(),
            Call::Ask(ask) => match &mut self.desk {
                Some(desk) => desk.answer(ask),
                None => Answer::NoRegister,
            },
        }
    }

    fn make_register(&mut self, tape: &[u8]) -> Result<(), Fault> {
        let scheme = Scheme::read(tape)?;
        self.desk = Some(Desk {
            register: Register::new(scheme, self.store, self.filters),
            certificate: None,
        });
        Ok(())
    }

    fn choose_list(&mut self, records: usize) -> Result<(), Fault> {
        self.store = Store::list(records)?;
        Ok(())
    }
}

impl Desk {
    fn answer(&mut self, ask: &Ask) -> Answer {
        let register = &mut self.register;
        match ask {
            Ask::List => Answer::Listed,
            Ask::Open(tape) => register.open(tape).into(),
            Ask::Request { command, names } => match register.request(*command, names) {
                Ok(count) => Answer::Counted(count),
                Err(fault) => Answer::Refused(fault),
            },
            Ask::Rule { row, column, right } => Answer::Ruled(register.rule(*row, *column, *right)),
            Ask::Check { certificate, bans } => self.check(certificate, bans).into(),
            Ask::Make { size, bans } => self.make(*size, bans),
            Ask::Table => match &self.certificate {
                Some(certificate) => Answer::Table(certificate.clone()),
                None => Answer::NoCertificate,
            },
            Ask::State => Answer::Held(register.state().clone()),
        }
    }

    fn check(&mut self, certificate: &[u8], bans: &[u8]) -> Result<(), Fault> {
        let accepted = self.register.check(certificate, bans)?;
        self.certificate = Some(Box::new(accepted));
        Ok(())
    }

    fn make(&mut self, size: usize, bans: &[u8]) -> Answer {
        match self.register.make(size, bans) {
            Ok(made) => {
                let made = Box::new(made);
                self.certificate = Some(made.clone());
                Answer::Made(made)
            }
            Err(refusal) => Answer::Unmade(refusal),
        }
    }
}

/// A line of a script that is answered, by its number from 1, with its answer.
#[derive(Clone, Debug)]
pub struct Answered<'s> {
    pub number: usize,
    pub line: &'s [u8],
    pub answer: Answer,
}

/// The answers to a script.
pub fn answers(script: &[u8]) -> impl Iterator<Item = Answered<'_>> {
    let mut session = Session::default();
    script::lines(script)
        .zip(1..)
        .filter_map(move |(line, number)| {
            let answer = session.answer_line(line)?;
            Some(Answered {
                number,
                line,
                answer,
            })
        })
}

#[cfg(test)]
mod tests {
    use super::*;
    use crate::generator::{self, Manner};

    /// What a certificate says once it is accepted holds for good: no request takes the register out of it.
    #[test]
    fn what_is_accepted_stays_accepted() {
        let mut times = 0;
        for seed in 0..150 {
            let script = generator::script(seed, Manner::of_seed(seed));
            let mut session = Session::default();
            let mut accepted = Vec::new();
            for line in script::lines(&script) {
                let answer = session.answer_line(line);
                match (script::read_line(line), answer) {
                    (Ok(Some(Call::Ask(Ask::Check { .. }))), Some(Answer::Done)) => {
                        accepted.push(line.to_vec());
                    }
                    (Ok(Some(Call::Ask(Ask::Make { bans, .. }))), Some(Answer::Made(made))) => {
                        let tapes = [&made.tape(), &bans].map(|it| tape::digits(it));
                        accepted.push(format!("check {}", tapes.join("/")).into_bytes());
                    }
                    (Ok(Some(Call::Scheme(_) | Call::Ask(Ask::Open(_)))), _) => accepted.clear(),
                    (_, Some(Answer::Counted(_))) => {
                        for line in &accepted {
                            assert_eq!(session.answer_line(line), Some(Answer::Done));
                            times += 1;
                        }
                    }
                    _ => {}
                }
            }
        }
        assert!(times > 200, "only {times} checks were made again");
    }
}
