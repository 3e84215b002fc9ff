//! What a check is handed: the tapes of a certificate and of bans, which come close to being accepted.

use super::bans;
use super::certificates::{self, Sketch};
use super::damage::{self, Tape};
use super::draft::Draft;
use super::taste::Taste;
use crate::certificate::Certificate;
use crate::check;
use crate::dice::Dice;
use crate::register::Register;

/// The two tapes of a check.
#[derive(Clone, Debug, Default)]
pub struct Check {
    pub certificate: Vec<u8>,
    pub bans: Vec<u8>,
}

/// Checks on one register, from certificates that are alike, of which so many in a hundred have a damaged tape.
pub fn checks(
    dice: &mut Dice,
    taste: &Taste,
    register: &Register,
    count: usize,
    damaged: usize,
) -> Vec<Check> {
    let certificate = certificates::fitting(dice, taste, register);
    (0..count)
        .map(|_| check(dice, taste, register, &certificate, damaged))
        .collect()
}

fn check(
    dice: &mut Dice,
    taste: &Taste,
    register: &Register,
    certificate: &Certificate,
    damaged: usize,
) -> Check {
    let mut sketch = changed(dice, taste, register, certificate);
    if dice.chance(30) {
        sketch.shuffle(dice);
    }
    let draft = sketch.draft(dice);
    // Where the rules are broken, the bans go by what was there before.
    let changed = Certificate::read(&draft.bytes());
    let bans = bans::bans(dice, taste, changed.as_ref().unwrap_or(certificate));
    let mut tape = |draft: Draft, tape: Tape| {
        if dice.chance(damaged) {
            damage::damaged(dice, draft, tape)
        } else {
            draft.bytes()
        }
    };
    Check {
        certificate: tape(draft, Tape::Certificate),
        bans: tape(bans, Tape::Bans),
    }
}

/// The certificate as it is, or with a change or two, which mostly leave the register contained.
fn changed(
    dice: &mut Dice,
    taste: &Taste,
    register: &Register,
    certificate: &Certificate,
) -> Sketch {
    if dice.chance(3) {
        return Sketch::default();
    }
    let changes = dice.one_of([0, 0, 0, 1, 1, 2]);
    let tries = dice.one_of([1, 4, 4]);
    let mut sketch = Sketch::of(certificate);
    for _ in 0..tries {
        sketch = Sketch::of(certificate);
        for _ in 0..changes {
            sketch.change(dice, taste);
        }
        let read = sketch.read();
        if read.is_ok_and(|it| check::first_stray(&it, &register.state().protection).is_none()) {
            break;
        }
    }
    sketch
}
