//! Which names, rights and values a script keeps coming back to.
//!
//! A script that took each of them from everywhere would hardly ever meet the same cell twice.

use super::Manner;
use crate::dice::Dice;
use crate::entry::NULL;

/// The number of values of each attribute.
const SIZES: [u8; 4] = [8, 16, 16, 8];

#[derive(Debug)]
pub struct Taste {
    names: Vec<u8>,
    rights: Vec<u8>,
    values: [Vec<u8>; 4],
}

impl Taste {
    pub fn new(dice: &mut Dice, manner: Manner) -> Self {
        let (names, rights, values) = match manner {
            Manner::Lawful | Manner::Damaged => {
                (dice.between(3, 8), dice.between(1, 4), dice.between(1, 4))
            }
            Manner::Dense => (
                dice.between(12, 64),
                dice.between(2, 16),
                dice.between(2, 16),
            ),
        };
        let values = SIZES.map(|size| some_below(dice, size, values));
        Taste {
            names: some_below(dice, 64, names),
            rights: some_below(dice, 16, rights),
            values,
        }
    }

    pub fn names(&self) -> &[u8] {
        &self.names
    }

    pub fn name(&self, dice: &mut Dice) -> u8 {
        dice.pick(&self.names).unwrap_or(0)
    }

    pub fn right(&self, dice: &mut Dice) -> u8 {
        if dice.chance(4) {
            return dice.one_of([0, 7, 8, 15]);
        }
        dice.pick(&self.rights).unwrap_or(0)
    }

    /// A mask with some of the rights.
    pub fn mask(&self, dice: &mut Dice) -> u16 {
        self.rights
            .iter()
            .filter(|_| dice.chance(60))
            .fold(0, |mask, &right| mask | 1 << right)
    }

    pub fn attribute(&self, dice: &mut Dice) -> u8 {
        dice.one_of([0, 1, 2, 3])
    }

    /// A value of this attribute, and never null.
    pub fn value(&self, dice: &mut Dice, attribute: u8) -> u8 {
        let at = usize::from(attribute) % SIZES.len();
        if dice.chance(4) {
            return dice.one_of([0, SIZES[at] - 1]);
        }
        dice.pick(&self.values[at]).unwrap_or(0)
    }

    pub fn value_or_null(&self, dice: &mut Dice, attribute: u8) -> u8 {
        if dice.chance(30) {
            NULL
        } else {
            self.value(dice, attribute)
        }
    }
}

/// So many numbers below `end`, each at most once; its ends are somewhat more likely.
fn some_below(dice: &mut Dice, end: u8, count: usize) -> Vec<u8> {
    let mut left: Vec<u8> = (0..end).collect();
    let mut taken = Vec::new();
    while taken.len() < count && !left.is_empty() {
        let at = match dice.below(8) {
            0 => 0,
            1 => left.len() - 1,
            _ => dice.below(left.len()),
        };
        taken.push(left.remove(at));
    }
    taken
}
