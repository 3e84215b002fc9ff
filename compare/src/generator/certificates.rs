//! Certificates that hold just enough for a register, and such as hold a little less or more.

use std::collections::BTreeMap;

use super::draft::Draft;
use super::taste::Taste;
use crate::certificate::{pair_order, stamp_order, Certificate, MOST_STAMPS};
use crate::dice::Dice;
use crate::entry::{Kind, Mask, Stamp};
use crate::fault::Fault;
use crate::make;
use crate::register::Register;

/// A certificate for the register, mostly one that is closed under all its commands and lists what must be listed and
/// no more.
pub fn fitting(dice: &mut Dice, taste: &Taste, register: &Register) -> Certificate {
    let mut certificate = Certificate::default();
    // What there is no room for is left out, here and below.
    let _ = make::contain(&mut certificate, &register.state().protection);
    if dice.chance(25) {
        add_some(dice, taste, &mut certificate);
    }
    let all = register.scheme().commands();
    match dice.below(20) {
        0 => {}
        1 => {
            // Each command is asked once, and may ask for more after the others.
            for command in all {
                let _ = make::keep_all(&mut certificate, command);
            }
        }
        2..=5 => {
            // A command that is passed over is one under which it may not be closed.
            let left_out = dice.below(all.len());
            let commands = all.iter().enumerate();
            let others = commands.filter(|&(at, _)| at != left_out);
            let _ = make::close(&mut certificate, others.map(|(_, command)| command));
        }
        _ => drop(make::close(&mut certificate, all)),
    }
    certificate
}

/// A few stamps and rights that nothing may ask for, or as many stamps as there may be.
fn add_some(dice: &mut Dice, taste: &Taste, certificate: &mut Certificate) {
    let stamps = dice.one_of([0, 1, 1, 2, 3, 5, MOST_STAMPS]);
    for _ in 0..stamps {
        // A stamp that is there already is none more.
        if let Some(stamp) = stamp(dice, taste) {
            let _ = certificate.list(stamp);
        }
    }
    let count = certificate.stamps().len();
    for _ in 0..dice.one_of([0, 1, 2, 4, 60]) {
        let (row, column) = (dice.below(count), dice.below(count));
        let mask = Mask::new(taste.mask(dice));
        // Where the row is a thing's, nothing is allowed.
        let _ = certificate.allow(row, column, mask);
    }
}

/// The operands that say a stamp.
pub fn stamp_operands(stamp: &Stamp) -> [u8; 5] {
    let [_, operands @ ..] = stamp_order(stamp);
    operands
}

/// A stamp with such values as the script has.
fn some_operands(dice: &mut Dice, taste: &Taste) -> [u8; 5] {
    let kind = dice.one_of([1, 1, 2]);
    let mut operands = [kind, 0, 0, 0, 0];
    for (operand, attribute) in operands[1..].iter_mut().zip(0..) {
        *operand = taste.value_or_null(dice, attribute);
    }
    operands
}

fn stamp(dice: &mut Dice, taste: &Taste) -> Option<Stamp> {
    let [kind, attributes @ ..] = some_operands(dice, taste);
    Some(Stamp {
        kind: if kind == 1 { Kind::Card } else { Kind::Thing },
        attributes: crate::entry::Attributes::read(attributes)?,
    })
}

/// A certificate that nothing holds to the rules.
#[derive(Clone, Debug, Default)]
pub struct Sketch {
    /// The operands of each stamp.
    stamps: Vec<[u8; 5]>,
    allowed: BTreeMap<(usize, usize), u16>,
}

impl Sketch {
    pub fn of(certificate: &Certificate) -> Self {
        let stamps = certificate.stamps().iter().map(stamp_operands).collect();
        let pairs = certificate.pairs();
        let allowed = pairs
            .map(|(row, column, mask)| ((row, column), mask.bits()))
            .collect();
        Sketch { stamps, allowed }
    }

    /// Something is not there any more, or is there besides, or elsewhere.
    pub fn change(&mut self, dice: &mut Dice, taste: &Taste) {
        let count = self.stamps.len();
        let at = dice.below(count);
        let pairs: Vec<(usize, usize)> = self.allowed.keys().copied().collect();
        let pair = dice.pick(&pairs);
        match (dice.below(20), pair) {
            (0..=2, _) => self.drop_stamp(at),
            (3..=6, Some(pair)) => self.drop_right(dice, pair),
            (7, Some(pair)) => drop(self.allowed.remove(&pair)),
            (8..=9, Some(pair)) => {
                let right = taste.right(dice);
                self.add(pair, 1 << right);
            }
            (10..=11, _) => self.add_where_a_card_is(dice, taste),
            (12..=14, _) => self.change_value(dice, taste, at),
            (15, Some((row, column))) => {
                let mask = self.allowed.remove(&(row, column)).unwrap_or(0);
                self.add((column, row), mask);
            }
            (16, Some((row, column))) => {
                let mask = self.allowed.remove(&(row, column)).unwrap_or(0);
                self.add((row, dice.below(count)), mask);
            }
            (17, _) => self.stamps.push(some_operands(dice, taste)),
            (18, _) if dice.chance(40) => {
                if let Some(operands) = self.stamps.get_mut(at) {
                    operands[0] = 3 - operands[0];
                }
            }
            (_, _) => self.drop_stamp(at),
        }
    }

    fn add(&mut self, pair: (usize, usize), mask: u16) {
        *self.allowed.entry(pair).or_default() |= mask;
    }

    fn add_where_a_card_is(&mut self, dice: &mut Dice, taste: &Taste) {
        let cards: Vec<usize> = (0..self.stamps.len())
            .filter(|&it| self.stamps[it][0] == 1)
            .collect();
        if let Some(row) = dice.pick(&cards) {
            let column = dice.below(self.stamps.len());
            let mask = taste.mask(dice) | 1 << taste.right(dice);
            self.add((row, column), mask);
        }
    }

    fn drop_right(&mut self, dice: &mut Dice, pair: (usize, usize)) {
        let Some(mask) = self.allowed.get_mut(&pair) else {
            return;
        };
        let rights: Vec<u16> = (0..16).filter(|right| *mask & 1 << right != 0).collect();
        if let Some(right) = dice.pick(&rights) {
            *mask &= !(1 << right);
        }
    }

    fn change_value(&mut self, dice: &mut Dice, taste: &Taste, at: usize) {
        let attribute = taste.attribute(dice);
        let value = taste.value_or_null(dice, attribute);
        if let Some(operands) = self.stamps.get_mut(at) {
            operands[1 + usize::from(attribute)] = value;
        }
    }

    /// Takes a stamp out; the later ones have lower numbers then.
    fn drop_stamp(&mut self, at: usize) {
        if at >= self.stamps.len() {
            return;
        }
        self.stamps.remove(at);
        let down = |number: usize| number - usize::from(number > at);
        self.allowed = std::mem::take(&mut self.allowed)
            .into_iter()
            .filter(|&((row, column), _)| row != at && column != at)
            .map(|((row, column), mask)| ((down(row), down(column)), mask))
            .collect();
    }

    /// Lists the stamps in another order, with the same allowed between them.
    pub fn shuffle(&mut self, dice: &mut Dice) {
        let mut order: Vec<usize> = (0..self.stamps.len()).collect();
        shuffle(dice, &mut order);
        let mut number = vec![0; order.len()];
        for (new, &old) in order.iter().enumerate() {
            number[old] = new;
        }
        self.stamps = order.iter().map(|&old| self.stamps[old]).collect();
        let new = |old: usize| number.get(old).copied().unwrap_or(old);
        self.allowed = std::mem::take(&mut self.allowed)
            .into_iter()
            .map(|((row, column), mask)| ((new(row), new(column)), mask))
            .collect();
    }

    /// The certificate that it is, unless a rule is broken.
    pub fn read(&self) -> Result<Certificate, Fault> {
        Certificate::read(&self.plain_draft().bytes())
    }

    fn plain_draft(&self) -> Draft {
        with_pairs(self.stamps_draft(), &self.pairs())
    }

    fn stamps_draft(&self) -> Draft {
        let mut draft = Draft::default();
        for operands in &self.stamps {
            draft.push(&[&[0x50], &operands[..]].concat());
        }
        draft
    }

    fn pairs(&self) -> Vec<((usize, usize), u16)> {
        self.allowed
            .iter()
            .map(|(&pair, &mask)| (pair, mask))
            .collect()
    }

    /// The orders that list it: mostly stamps first, and each pair once.
    pub fn draft(&self, dice: &mut Dice) -> Draft {
        if dice.chance(50) {
            return self.plain_draft();
        }
        let mut draft = self.stamps_draft();
        let mut pairs = self.pairs();
        if dice.chance(50) {
            self.split(dice, &mut pairs);
        }
        shuffle(dice, &mut pairs);
        if dice.chance(50) {
            return with_pairs(draft, &pairs);
        }
        // Each pair anywhere behind its two stamps.
        for &((row, column), mask) in &pairs {
            let mut stamps = (0..draft.orders.len()).filter(|&at| draft.orders[at][0] == 0x50);
            let least = stamps.nth(row.max(column)).map_or(0, |at| at + 1);
            let at = dice.between(least, draft.orders.len());
            draft
                .orders
                .insert(at, pair_order(row, column, mask).to_vec());
        }
        draft
    }

    /// Some masks come in two parts, some a second time, and some are empty.
    fn split(&self, dice: &mut Dice, pairs: &mut Vec<((usize, usize), u16)>) {
        for at in 0..pairs.len() {
            let (pair, mask) = pairs[at];
            match dice.below(6) {
                0 => {
                    let part = mask & u16::from_be_bytes([dice.byte(), dice.byte()]);
                    pairs[at].1 = part;
                    pairs.push((pair, mask & !part));
                }
                1 => pairs.push((pair, mask)),
                2 => pairs.push((pair, 0)),
                _ => {}
            }
        }
        let cards = (0..self.stamps.len()).filter(|&it| self.stamps[it][0] == 1);
        for row in cards.take(2) {
            pairs.push(((row, dice.below(self.stamps.len())), 0));
        }
    }
}

fn with_pairs(draft: Draft, pairs: &[((usize, usize), u16)]) -> Draft {
    let mut draft = draft;
    for &((row, column), mask) in pairs {
        draft.push(&pair_order(row, column, mask));
    }
    draft
}

fn shuffle<T>(dice: &mut Dice, items: &mut [T]) {
    for end in (1..items.len()).rev() {
        items.swap(end, dice.below(end + 1));
    }
}
