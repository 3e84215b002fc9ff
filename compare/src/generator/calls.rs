//! What calls of the C library are handed: four tapes that belong together, at times with one of them damaged.

use super::checks;
use super::damage::{self, Tape};
use super::draft::Draft;
use super::openings;
use super::schemes;
use super::taste::Taste;
use super::Manner;
use crate::calls::Tapes;
use crate::dice::Dice;
use crate::register::Register;
use crate::ruling::Filters;
use crate::scheme::Scheme;
use crate::store::Store;

/// A few calls on one register, or the like of it.
pub fn calls(seed: u64) -> Vec<Tapes> {
    let mut dice = Dice::new(seed);
    let manner = Manner::of_seed(seed);
    let taste = Taste::new(&mut dice, manner);
    let scheme = schemes::scheme(&mut dice, &taste, manner);
    let opening = openings::opening(&mut dice, &taste, manner, Store::Board.limit());
    let Ok(read) = Scheme::read(&scheme.bytes()) else {
        return Vec::new();
    };
    let mut register = Register::new(read, Store::Board, Filters::default());
    // After an opening that is refused the checks are made for an empty register.
    let _ = register.open(&opening.bytes());
    let checks = checks::checks(&mut dice, &taste, &register, 4, 10);
    checks
        .into_iter()
        .map(|check| Tapes {
            scheme: at_times_damaged(&mut dice, &scheme, Tape::Scheme),
            opening: at_times_damaged(&mut dice, &opening, Tape::Opening),
            certificate: check.certificate,
            bans: check.bans,
        })
        .collect()
}

fn at_times_damaged(dice: &mut Dice, draft: &Draft, tape: Tape) -> Vec<u8> {
    if dice.chance(8) {
        damage::damaged(dice, draft.clone(), tape)
    } else {
        draft.bytes()
    }
}
