//! Schemes and openings that come to about as many stamps as a certificate may list.

use super::draft::Draft;
use crate::certificate::MOST_STAMPS;
use crate::dice::Dice;
use crate::entry::NULL;

/// A scheme has no more commands.
const MOST_COMMANDS: usize = 16;

/// How many values a card comes to have of each attribute. Together they make no more stamps than may be listed.
const WALKS: [[u8; 4]; 12] = [
    [2, 2, 2, 4],
    [4, 2, 4, 1],
    [1, 8, 4, 1],
    [8, 1, 1, 4],
    [1, 1, 16, 2],
    [1, 16, 1, 1],
    [3, 3, 3, 1],
    [5, 2, 3, 1],
    [2, 5, 1, 3],
    [1, 1, 1, 8],
    [2, 1, 2, 1],
    [1, 1, 1, 1],
];

/// A scheme, and what is to stand at its opening.
#[derive(Clone, Debug, Default)]
pub struct Crowd {
    pub scheme: Draft,
    /// The attributes of a card.
    first: [u8; 4],
    /// How many things there are, each of a stamp of its own.
    things: usize,
}

impl Crowd {
    pub fn new(dice: &mut Dice) -> Self {
        let mut crowd = Self::default();
        let counts = dice.one_of(WALKS);
        crowd.first = crowd.walk(dice, counts);
        let stamps: usize = counts.iter().map(|&it| usize::from(it)).product();
        let wanted = MOST_STAMPS - 2 + dice.one_of([0, 1, 2, 2, 2, 3, 3, 4, 12]);
        crowd.things = wanted.saturating_sub(stamps);
        if dice.chance(50) {
            crowd.hand_on(dice);
        }
        if dice.chance(20) {
            // The new card walks as well, and may come to other stamps.
            crowd.command(&[&[0x10, 0x02, 0x01], &[0x33, 0x00]]);
        }
        crowd
    }

    /// Commands that take a card through so many values of each attribute. It answers with what it begins.
    fn walk(&mut self, dice: &mut Dice, counts: [u8; 4]) -> [u8; 4] {
        let mut first = [NULL; 4];
        let is_asked = dice.chance(60);
        for (attribute, count) in (0..).zip(counts) {
            let mut old = if dice.chance(50) { NULL } else { count - 1 };
            first[usize::from(attribute)] = old;
            for value in 0..count - 1 {
                let test = [0x21, 0x00, attribute, old];
                let step = [0x32, 0x00, attribute, value];
                // Where it is not asked for the value before, it goes to each from any.
                let tests: &[u8] = if is_asked { &test } else { &[] };
                self.command(&[&[0x10, 0x01, 0x01], tests, &step]);
                old = value;
            }
        }
        first
    }

    /// The card, the things, and some rights, which fill no more cells than there may be.
    pub fn opening(&self, dice: &mut Dice, limit: usize) -> Draft {
        let mut draft = Draft::default();
        let [a, b, c, d] = self.first;
        let card = dice.one_of([0, 0, 63]);
        draft.push(&[0x40, card, a, b, c, d]);
        let mut names = vec![card];
        for (name, number) in (1..).zip(0..self.things) {
            let number = u8::try_from(number).unwrap_or(NULL);
            draft.push(&[0x41, name, number / 16, number % 16, 15, NULL]);
            names.push(name);
        }
        for _ in 0..dice.below(4).min(limit) {
            let column = dice.pick(&names).unwrap_or(card);
            draft.push(&[0x42, dice.byte() % 16, card, column]);
        }
        draft
    }

    /// A card hands on to a card what it has on itself, or on some entry.
    fn hand_on(&mut self, dice: &mut Dice) {
        let right = dice.byte() % 16;
        let (parameters, column) = dice.one_of([([2, 3], 0), ([2, 3], 1), ([3, 3], 2)]);
        let [count, cards] = parameters;
        let begin = [0x10, count, cards];
        let (test, step) = ([0x20, right, 0, column], [0x30, right, 1, column]);
        if dice.chance(50) {
            self.command(&[&begin, &test, &step]);
        } else {
            self.command(&[&begin, &step]);
        }
    }

    /// Writes a command, unless there are as many as there may be.
    fn command(&mut self, orders: &[&[u8]]) {
        let ends = self
            .scheme
            .orders
            .iter()
            .filter(|order| order[..] == [0x1F]);
        if ends.count() == MOST_COMMANDS {
            return;
        }
        for order in orders.iter().filter(|order| !order.is_empty()) {
            self.scheme.push(order);
        }
        self.scheme.push(&[0x1F]);
    }
}

#[cfg(test)]
mod tests {
    use super::*;
    use crate::make::{self, Full};
    use crate::register::Register;
    use crate::ruling::Filters;
    use crate::scheme::Scheme;
    use crate::store::Store;
    use std::collections::BTreeMap;

    #[test]
    fn they_come_to_about_as_many_stamps_as_there_may_be() {
        let mut times = BTreeMap::new();
        for seed in 0..200 {
            let mut dice = Dice::new(seed);
            let crowd = Crowd::new(&mut dice);
            let opening = crowd.opening(&mut dice, 4_096).bytes();
            let scheme = Scheme::read(&crowd.scheme.bytes());
            let mut register = scheme
                .map(|it| Register::new(it, Store::Board, Filters::default()))
                .expect("the scheme is well-formed");
            assert_eq!(register.open(&opening), Ok(()));
            let least = make::least(register.scheme(), &register.state().protection);
            *times.entry(least.map(|it| it.stamps().len())).or_insert(0) += 1;
        }
        for wanted in [Ok(MOST_STAMPS - 1), Ok(MOST_STAMPS), Err(Full)] {
            let times = times.get(&wanted).copied().unwrap_or(0);
            assert!(times >= 5, "only {times} times {wanted:?}");
        }
    }
}
