//! What a making is handed: a ban tape that the least certificate meets, or just does not, and the size of a buffer.

use super::bans;
use super::certificates;
use super::damage::{self, Tape};
use super::taste::Taste;
use crate::certificate::Certificate;
use crate::dice::Dice;
use crate::less;
use crate::make;
use crate::register::Register;

/// What a line says, where it says a size.
#[derive(Clone, Debug, Default)]
pub struct Making {
    pub size: Option<usize>,
    pub bans: Vec<u8>,
}

/// A making on this register, with a damaged ban tape so many times in a hundred.
pub fn making(dice: &mut Dice, taste: &Taste, register: &Register, damaged: usize) -> Making {
    let least = make::least(register.scheme(), &register.state().protection);
    let certificate = least.unwrap_or_else(|_| certificates::fitting(dice, taste, register));
    let bans = bans::bans(dice, taste, &certificate);
    if dice.chance(damaged) {
        // The tape's fault is the answer, also where the buffer is too small.
        let small = dice.chance(40).then_some(make::ROOM - 1);
        return Making {
            size: small.or_else(|| size(dice)),
            bans: damage::damaged(dice, bans, Tape::Bans),
        };
    }
    Making {
        size: size(dice),
        bans: bans.bytes(),
    }
}

/// Mostly none, and else one that is large enough, or just not.
pub fn size(dice: &mut Dice) -> Option<usize> {
    match dice.below(20) {
        0..=12 => None,
        13..=14 => Some(make::ROOM),
        15 => Some(make::ROOM - 1),
        16 => Some(make::ROOM + 1),
        17 => Some(dice.one_of([0, 1, 33, 255, 256, 5_056, 5_280])),
        18 => Some(dice.one_of([8_192, 65_535, 65_536, 70_848, 999_999])),
        _ => Some(dice.between(5_000, 5_600)),
    }
}

/// What was made, at times with one thing less.
pub fn doubted(dice: &mut Dice, made: &Certificate) -> Certificate {
    let things = less::things(made);
    match dice.pick(&things) {
        Some(thing) if dice.chance(75) => less::without(made, thing),
        _ => made.clone(),
    }
}
