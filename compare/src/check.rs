//! The check of a certificate and of bans on a register.

use crate::ban;
use crate::casting::{Castings, Outcome, MOST};
use crate::certificate::{Certificate, MOST_STAMPS};
use crate::entry::{Name, Stamp};
use crate::fault::{Fault, Layer, Rule};
use crate::register::Protection;
use crate::scheme::{Command, Parameter, Scheme};

/// Checks the certificate and the bans of two tapes on what a register of this scheme holds, and answers the certificate
/// that it accepts.
pub fn check(
    scheme: &Scheme,
    held: &Protection,
    certificate: &[u8],
    bans: &[u8],
) -> Result<Certificate, Fault> {
    let certificate = Certificate::read(certificate)?;
    let bans = ban::read(bans)?;
    if let Some(name) = first_stray(&certificate, held) {
        return Err(refused(Rule::NotContained, usize::from(name.number())));
    }
    let rises = Rises::of(&certificate);
    let mut commands = scheme.commands().iter();
    if let Some(command) = commands.position(|it| !is_closed(&certificate, &rises, it)) {
        return Err(refused(Rule::NotClosed, command));
    }
    match bans.iter().position(|ban| ban.is_met(&certificate)) {
        Some(ban) => Err(refused(Rule::BanMet, ban)),
        None => Ok(certificate),
    }
}

fn refused(rule: Rule, place: usize) -> Fault {
    rule.at(Layer::Checker, place)
}

/// The lowest name whose stamp is not listed, or whose row has a right that is not allowed.
pub fn first_stray(certificate: &Certificate, held: &Protection) -> Option<Name> {
    held.entries()
        .find(|&(name, entry)| {
            certificate.number(entry).is_none() || !is_row_allowed(certificate, held, name, entry)
        })
        .map(|(name, _)| name)
}

fn is_row_allowed(
    certificate: &Certificate,
    held: &Protection,
    row: Name,
    row_stamp: &Stamp,
) -> bool {
    let mut cells = held.cells().iter().filter(|cell| cell.0 == row);
    cells.all(|(_, column, mask)| {
        let column_stamp = held.entry(column);
        column_stamp.is_some_and(|it| mask.is_within(certificate.allows(row_stamp, it)))
    })
}

/// Whether what the command makes of each passing casting stays within the certificate.
fn is_closed(certificate: &Certificate, rises: &Rises, command: &Command) -> bool {
    Castings::new(certificate, command).all(&mut |outcome| is_kept(certificate, rises, outcome))
}

/// Whether what the command makes of one casting does.
pub fn is_kept(certificate: &Certificate, rises: &Rises, outcome: &Outcome) -> bool {
    let mut new = [0; MOST];
    for (parameter, stamp) in outcome.standing() {
        match certificate.number(&stamp) {
            Some(number) => new[parameter.index()] = number,
            None => return false,
        }
    }
    let new = |parameter: Parameter| new[parameter.index()];
    outcome
        .cells()
        .all(|(place, mask)| mask.is_within(certificate.between(new(place.row), new(place.column))))
        && outcome
            .kept()
            .all(|(parameter, cast)| rises.has(cast, new(parameter)))
}

/// Which listed stamps an entry may take on in the place of which, as far as its cells with all others go: the new one
/// is allowed on each listed stamp, and each on it, all that was allowed with the old one.
#[derive(Clone, Debug)]
pub struct Rises([[bool; MOST_STAMPS]; MOST_STAMPS]);

impl Rises {
    pub fn of(certificate: &Certificate) -> Self {
        let numbers = || 0..certificate.stamps().len();
        let between = |row, column| certificate.between(row, column);
        let mut rises = Rises([[false; MOST_STAMPS]; MOST_STAMPS]);
        for from in numbers() {
            for to in numbers() {
                rises.0[from][to] = numbers().all(|other| {
                    between(from, other).is_within(between(to, other))
                        && between(other, from).is_within(between(other, to))
                });
            }
        }
        rises
    }

    fn has(&self, from: usize, to: usize) -> bool {
        self.0[from][to]
    }
}
