//! The making of the least certificate.
//!
//! It begins with the stamps and cells that stand, and grows by what the commands ask for until they ask for nothing
//! more. Whatever certificate contains the register and is closed under its commands has each thing that is added.

use crate::ban;
use crate::casting::{Castings, Outcome};
use crate::certificate::{Certificate, MOST_STAMPS};
use crate::check::{self, Rises};
use crate::entry::{Mask, Stamp};
use crate::fault::{Fault, Layer, Rule};
use crate::register::Protection;
use crate::scheme::{Command, Scheme};

/// The least size of a buffer: the room of as many stamps as there may be, and of all their pairs.
pub const ROOM: usize = MOST_STAMPS * 6 + MOST_STAMPS * MOST_STAMPS * 5;

/// Why nothing is made.
#[derive(Clone, Copy, Debug, PartialEq, Eq)]
pub enum Refusal {
    /// The ban tape or the buffer is not as it should be.
    Fault(Fault),
    /// No certificate would be accepted, as it would have to list too many stamps.
    TooManyStamps,
    /// No certificate would be accepted, as each that holds the register meets a ban.
    BanMet,
}

impl Refusal {
    pub fn fault(self) -> Fault {
        match self {
            Refusal::Fault(fault) => fault,
            Refusal::TooManyStamps | Refusal::BanMet => refused(Rule::NoneAccepted),
        }
    }
}

impl From<Fault> for Refusal {
    fn from(fault: Fault) -> Self {
        Refusal::Fault(fault)
    }
}

impl From<Full> for Refusal {
    fn from(_: Full) -> Self {
        Refusal::TooManyStamps
    }
}

fn refused(rule: Rule) -> Fault {
    rule.at(Layer::Checker, 0)
}

/// Makes the least certificate that a check with the bans of this tape would accept on what a register of this scheme
/// holds, for a buffer of so many bytes.
pub fn make(
    scheme: &Scheme,
    held: &Protection,
    size: usize,
    bans: &[u8],
) -> Result<Certificate, Refusal> {
    let bans = ban::read(bans)?;
    if size < ROOM {
        return Err(refused(Rule::SmallBuffer).into());
    }
    let least = least(scheme, held)?;
    // What the least allows every other one allows too.
    if bans.iter().any(|ban| ban.is_met(&least)) {
        return Err(Refusal::BanMet);
    }
    Ok(least)
}

/// A certificate would have to list one stamp more than it can.
#[derive(Clone, Copy, Debug, PartialEq, Eq, PartialOrd, Ord)]
pub struct Full;

/// The least certificate that contains what a register of this scheme holds and is closed under its commands.
pub fn least(scheme: &Scheme, held: &Protection) -> Result<Certificate, Full> {
    let mut certificate = Certificate::default();
    contain(&mut certificate, held)?;
    close(&mut certificate, scheme.commands())?;
    Ok(certificate)
}

/// Adds what there must be for the state to be contained.
pub fn contain(certificate: &mut Certificate, held: &Protection) -> Result<(), Full> {
    for (_, stamp) in held.entries() {
        list(certificate, *stamp)?;
    }
    for (row, column, mask) in held.cells().iter() {
        if let (Some(&row), Some(&column)) = (held.entry(row), held.entry(column)) {
            allow(certificate, row, column, mask)?;
        }
    }
    Ok(())
}

/// Adds what the commands ask for, until they ask for nothing more.
pub fn close<'c>(
    certificate: &mut Certificate,
    commands: impl IntoIterator<Item = &'c Command> + Clone,
) -> Result<(), Full> {
    loop {
        let before = certificate.clone();
        for command in commands.clone() {
            keep_all(certificate, command)?;
        }
        if *certificate == before {
            return Ok(());
        }
    }
}

/// Adds what the outcomes of a command ask for, on castings with what is there before.
pub fn keep_all(certificate: &mut Certificate, command: &Command) -> Result<(), Full> {
    let before = certificate.clone();
    let rises = Rises::of(&before);
    let mut kept = Ok(());
    Castings::new(&before, command).all(&mut |outcome| {
        if !check::is_kept(&before, &rises, outcome) {
            kept = keep(certificate, outcome);
        }
        kept.is_ok()
    });
    kept
}

/// Adds what there must be for this outcome to stay within the certificate.
fn keep(certificate: &mut Certificate, outcome: &Outcome) -> Result<(), Full> {
    for (_, stamp) in outcome.standing() {
        list(certificate, stamp)?;
    }
    for (place, mask) in outcome.cells() {
        if let (Some(row), Some(column)) = (outcome.stamp(place.row), outcome.stamp(place.column)) {
            allow(certificate, row, column, mask)?;
        }
    }
    for (parameter, old) in outcome.kept() {
        if let Some(new) = outcome.stamp(parameter) {
            let new = list(certificate, new)?;
            rise(certificate, old, new);
        }
    }
    Ok(())
}

/// Allows the stamp of the number `new` on each, and each on it, what is allowed with that of `old`.
fn rise(certificate: &mut Certificate, old: usize, new: usize) {
    for other in 0..certificate.stamps().len() {
        // Where the row is a thing's, nothing was allowed.
        let _ = certificate.allow(new, other, certificate.between(old, other));
        let _ = certificate.allow(other, new, certificate.between(other, old));
    }
}

/// The number of a stamp, which is listed if it was not.
fn list(certificate: &mut Certificate, stamp: Stamp) -> Result<usize, Full> {
    if let Some(number) = certificate.number(&stamp) {
        return Ok(number);
    }
    certificate.list(stamp).map_err(|_| Full)?;
    Ok(certificate.stamps().len() - 1)
}

fn allow(certificate: &mut Certificate, row: Stamp, column: Stamp, mask: Mask) -> Result<(), Full> {
    if mask.is_empty() {
        return Ok(());
    }
    let (row, column) = (list(certificate, row)?, list(certificate, column)?);
    // The row holds rights, so it is a card.
    let _ = certificate.allow(row, column, mask);
    Ok(())
}

#[cfg(test)]
mod tests {
    use super::*;
    use crate::generator::{self, Manner};
    use crate::less;
    use crate::script::{self, Ask, Call};
    use crate::session::{Answer, Session};

    /// No more things are taken from a certificate in turn.
    const MOST: usize = 60;

    /// What is made at the lines of scripts of some seeds, each with its bans and the register as it was.
    fn makings(seeds: std::ops::Range<u64>, mut made: impl FnMut(&Session, &Certificate, &[u8])) {
        for seed in seeds {
            let mut session = Session::default();
            for line in script::lines(&generator::script(seed, Manner::of_seed(seed))) {
                if let (Some(Answer::Made(it)), Ok(Some(Call::Ask(Ask::Make { bans, .. })))) =
                    (session.answer_line(line), script::read_line(line))
                {
                    made(&session, &it, &bans);
                }
            }
        }
    }

    #[test]
    fn what_is_made_is_accepted_and_nothing_less_is() {
        let mut times = 0;
        makings(0..150, |session, made, bans| {
            let check = |it: &Certificate| session.register()?.check(&it.tape(), bans).err();
            assert_eq!(check(made), None);
            for thing in less::things(made).into_iter().take(MOST) {
                let refusal = check(&less::without(made, thing)).map(|fault| fault.rule);
                assert!(
                    matches!(refusal, Some(Rule::NotContained | Rule::NotClosed)),
                    "{refusal:?} without {thing:?}"
                );
                times += 1;
            }
        });
        assert!(times > 500, "only {times} things were taken away");
    }

    #[test]
    fn what_is_made_is_read_back() {
        makings(0..50, |_, made, _| {
            let tape = made.tape();
            assert!(tape.len() <= ROOM);
            assert_eq!(Certificate::read(&tape).as_ref(), Ok(made));
        });
    }

    /// Where a check accepts a certificate one is made with these bans, and the accepted one says all that it says.
    #[test]
    fn what_is_accepted_says_all_that_is_made() {
        let mut times = 0;
        for seed in 0..150 {
            let mut session = Session::default();
            for line in script::lines(&generator::script(seed, Manner::of_seed(seed))) {
                let answer = session.answer_line(line);
                if let (Some(Answer::Done), Ok(Some(Call::Ask(Ask::Check { certificate, bans })))) =
                    (answer, script::read_line(line))
                {
                    let made = session.register().map(|it| it.make(ROOM, &bans));
                    let made = made.expect("there is a register").expect("one is made");
                    let accepted = Certificate::read(&certificate).expect("it was accepted");
                    for &row in made.stamps() {
                        assert!(accepted.number(&row).is_some());
                        for column in made.stamps() {
                            let allowed = made.allows(&row, column);
                            assert!(allowed.is_within(accepted.allows(&row, column)));
                        }
                    }
                    times += 1;
                }
            }
        }
        assert!(times > 150, "only {times} certificates were accepted");
    }

    #[test]
    fn the_room_is_that_of_the_largest() {
        assert_eq!(ROOM, 5_312);
    }
}
