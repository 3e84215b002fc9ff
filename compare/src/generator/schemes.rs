//! Well-formed schemes.

use super::draft::Draft;
use super::taste::Taste;
use super::Manner;
use crate::dice::Dice;

/// The most tests, and the most steps, that a command has.
const MOST: usize = 16;

pub fn scheme(dice: &mut Dice, taste: &Taste, manner: Manner) -> Draft {
    let commands = match (manner, dice.below(20)) {
        (_, 0) => dice.one_of([0, 16]),
        (Manner::Dense, _) => dice.between(4, 16),
        (_, 1..=3) => dice.between(1, 10),
        (_, _) => dice.between(2, 5),
    };
    let mut draft = Draft::default();
    for _ in 0..commands {
        Sketch::new(dice, taste, &mut draft).command(manner);
    }
    draft
}

/// A set of parameters, with bit i for parameter i.
#[derive(Clone, Copy, Debug, Default)]
struct ParameterSet(u8);

impl ParameterSet {
    fn has(self, parameter: u8) -> bool {
        self.0 & (1 << parameter) != 0
    }

    fn add(&mut self, parameter: u8) {
        self.0 |= 1 << parameter;
    }

    fn remove(&mut self, parameter: u8) {
        self.0 &= !(1 << parameter);
    }
}

/// A command that is being written.
struct Sketch<'a> {
    dice: &'a mut Dice,
    taste: &'a Taste,
    draft: &'a mut Draft,
    count: u8,
    cards: ParameterSet,
    /// The parameters that are yet to be created.
    unborn: ParameterSet,
    /// Those that were created.
    born: ParameterSet,
    /// Those that were destroyed.
    gone: ParameterSet,
    steps: usize,
}

impl<'a> Sketch<'a> {
    fn new(dice: &'a mut Dice, taste: &'a Taste, draft: &'a mut Draft) -> Self {
        let count = dice.one_of([1, 2, 2, 2, 3, 3]);
        let mut cards = ParameterSet::default();
        let mut unborn = ParameterSet::default();
        let founds = dice.chance(8);
        for parameter in 0..count {
            if dice.chance(70) {
                cards.add(parameter);
            }
            if founds || dice.chance(15) {
                unborn.add(parameter);
            }
        }
        let none = ParameterSet::default();
        Sketch {
            dice,
            taste,
            draft,
            count,
            cards,
            unborn,
            born: none,
            gone: none,
            steps: 0,
        }
    }

    fn command(mut self, manner: Manner) {
        self.draft.push(&[0x10, self.count, self.cards.0]);
        let mut tests = self.number_of_tests(manner);
        let rise = if self.dice.chance(20) {
            tests = tests.min(MOST - 1);
            self.rise()
        } else {
            None
        };
        if self.dice.chance(5) {
            self.all_tests(MOST - usize::from(rise.is_some()));
        } else {
            for _ in 0..tests {
                self.test();
            }
        }
        let steps = self.number_of_steps(manner);
        if self.dice.chance(20) {
            self.detour();
        }
        let at = self.dice.below(steps + 1);
        for step in 0..=steps {
            if let (true, Some(order)) = (step == at, rise) {
                self.set_to(order);
            }
            if step < steps {
                self.step();
            }
        }
        self.draft.push(&[0x1F]);
    }

    /// Writes a test that a parameter does not have a value as yet, and answers the step that gives it that value.
    fn rise(&mut self) -> Option<[u8; 4]> {
        let parameter = self.parameter()?;
        let attribute = self.taste.attribute(self.dice);
        let value = self.taste.value(self.dice, attribute);
        let before = self.taste.value_or_null(self.dice, attribute);
        if before == value || self.dice.chance(30) {
            self.draft.push(&[0x22, parameter, attribute, value]);
        } else {
            self.draft.push(&[0x21, parameter, attribute, before]);
        }
        Some([0x32, parameter, attribute, value])
    }

    fn number_of_tests(&mut self, manner: Manner) -> usize {
        match (manner, self.dice.below(20)) {
            (_, 0..=5) => 0,
            (_, 6..=11) => 1,
            (Manner::Dense, 12..=16) | (_, 12..=18) => self.dice.between(2, 3),
            _ => self.dice.between(4, MOST),
        }
    }

    fn number_of_steps(&mut self, manner: Manner) -> usize {
        match (manner, self.dice.below(20)) {
            (_, 0) => 0,
            (Manner::Dense, 12..=19) => self.dice.between(5, MOST),
            (_, 18..=19) => self.dice.between(5, MOST),
            _ => self.dice.between(1, 4),
        }
    }

    /// One of the parameters that may be named now.
    fn parameter(&mut self) -> Option<u8> {
        let named: Vec<u8> = (0..self.count)
            .filter(|&it| !self.unborn.has(it) && !self.gone.has(it))
            .collect();
        self.dice.pick(&named)
    }

    /// One of those that may be a row.
    fn row(&mut self) -> Option<u8> {
        let rows: Vec<u8> = (0..self.count)
            .filter(|&it| self.cards.has(it) && !self.unborn.has(it) && !self.gone.has(it))
            .collect();
        self.dice.pick(&rows)
    }

    /// Writes a test, unless there is nothing that it could name.
    fn test(&mut self) {
        if let Some(order) = self.some_test() {
            self.draft.push(&order);
        }
    }

    /// Writes as many tests as are left, of which often the last alone decides.
    fn all_tests(&mut self, left: usize) {
        if let (Some(first), Some(last)) = (self.some_test(), self.some_test()) {
            for _ in 1..left {
                self.draft.push(&first);
            }
            self.draft.push(&last);
        }
    }

    fn some_test(&mut self) -> Option<[u8; 4]> {
        let one = self.parameter()?;
        let other = self.parameter()?;
        let attribute = self.taste.attribute(self.dice);
        Some(match self.dice.below(10) {
            0..=2 => [0x20, self.taste.right(self.dice), self.row()?, other],
            3..=4 => [
                0x21,
                one,
                attribute,
                self.taste.value_or_null(self.dice, attribute),
            ],
            5..=6 => [
                0x22,
                one,
                attribute,
                self.taste.value_or_null(self.dice, attribute),
            ],
            _ => [0x23, one, attribute, other],
        })
    }

    fn push_step(&mut self, order: &[u8]) {
        if self.steps < MOST {
            self.draft.push(order);
            self.steps += 1;
        }
    }

    fn step(&mut self) {
        match self.dice.below(20) {
            0..=8 => self.cell_step(0x30),
            9..=11 => self.cell_step(0x31),
            12..=14 => self.set(),
            15..=17 => self.create(),
            18 => self.destroy(),
            _ => self.detour(),
        }
    }

    fn cell_step(&mut self, code: u8) {
        if let (Some(row), Some(column)) = (self.row(), self.parameter()) {
            let right = self.taste.right(self.dice);
            self.push_step(&[code, right, row, column]);
        }
    }

    fn set(&mut self) {
        if let Some(parameter) = self.parameter() {
            let attribute = self.taste.attribute(self.dice);
            let value = self.taste.value(self.dice, attribute);
            self.push_step(&[0x32, parameter, attribute, value]);
        }
    }

    /// Sets an attribute, unless its parameter is gone.
    fn set_to(&mut self, order: [u8; 4]) {
        if !self.gone.has(order[1]) {
            self.push_step(&order);
        }
    }

    fn create(&mut self) {
        let unborn: Vec<u8> = (0..self.count).filter(|&it| self.unborn.has(it)).collect();
        match self.dice.pick(&unborn) {
            Some(parameter) if self.steps < MOST => {
                self.push_step(&[0x33, parameter]);
                self.unborn.remove(parameter);
                self.born.add(parameter);
            }
            _ => self.cell_step(0x30),
        }
    }

    fn destroy(&mut self) {
        match self.parameter() {
            Some(parameter) if !self.born.has(parameter) && self.steps < MOST => {
                self.push_step(&[0x34, parameter]);
                self.gone.add(parameter);
            }
            _ => self.cell_step(0x31),
        }
    }

    /// Steps that fill cells and empty them again, or the other way round, so that a count between them says nothing.
    fn detour(&mut self) {
        let right = self.taste.right(self.dice);
        let mut cells = Vec::new();
        for _ in 0..self.dice.between(1, 3) {
            if let (Some(row), Some(column)) = (self.row(), self.parameter()) {
                cells.push([row, column]);
            }
        }
        let (first, then) = self.dice.one_of([(0x30, 0x31), (0x30, 0x31), (0x31, 0x30)]);
        for &[row, column] in &cells {
            self.push_step(&[first, right, row, column]);
        }
        for &[row, column] in &cells {
            if self.dice.chance(85) {
                self.push_step(&[then, right, row, column]);
            }
        }
    }
}

#[cfg(test)]
mod tests {
    use super::*;
    use crate::scheme::Scheme;

    #[test]
    fn they_are_accepted() {
        for seed in 0..500 {
            let mut dice = Dice::new(seed);
            let manner = Manner::of_seed(seed);
            let taste = Taste::new(&mut dice, manner);
            let tape = scheme(&mut dice, &taste, manner).bytes();
            assert!(
                Scheme::read(&tape).is_ok(),
                "the scheme of {seed} is refused: {:?}",
                Scheme::read(&tape)
            );
        }
    }
}
