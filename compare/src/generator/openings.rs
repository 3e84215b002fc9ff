//! Openings that list entries and rights, and that mostly keep to the store's limit.

use std::collections::BTreeSet;

use super::draft::Draft;
use super::taste::Taste;
use super::Manner;
use crate::dice::Dice;

pub fn opening(dice: &mut Dice, taste: &Taste, manner: Manner, limit: usize) -> Draft {
    let (entries, rights) = match manner {
        Manner::Lawful | Manner::Damaged => (dice.between(2, 6), dice.between(0, 12)),
        Manner::Dense => (dice.between(6, 40), dice.between(0, 150)),
    };
    let limit = if dice.chance(85) { limit } else { usize::MAX };
    let mut list = List {
        dice,
        taste,
        limit,
        draft: Draft::default(),
        names: Vec::new(),
        cards: Vec::new(),
        cells: BTreeSet::new(),
    };
    list.write(entries, rights);
    list.draft
}

/// What is listed so far.
struct List<'a> {
    dice: &'a mut Dice,
    taste: &'a Taste,
    limit: usize,
    draft: Draft,
    names: Vec<u8>,
    cards: Vec<u8>,
    cells: BTreeSet<(u8, u8)>,
}

impl List<'_> {
    fn write(&mut self, mut entries: usize, mut rights: usize) {
        while entries + rights > 0 {
            let lists_entry =
                entries > 0 && (self.cards.is_empty() || rights == 0 || self.dice.chance(60));
            if lists_entry {
                self.entry();
                entries -= 1;
            } else {
                self.right();
                rights -= 1;
            }
            if entries == 0 && self.cards.is_empty() {
                rights = 0;
            }
        }
    }

    fn entry(&mut self) {
        let name = self.taste.name(self.dice);
        if self.names.contains(&name) {
            return;
        }
        self.names.push(name);
        let is_card = self.dice.chance(65);
        if is_card {
            self.cards.push(name);
        }
        let mut order = vec![if is_card { 0x40 } else { 0x41 }, name];
        for attribute in 0..4 {
            order.push(self.taste.value_or_null(self.dice, attribute));
        }
        self.draft.push(&order);
    }

    fn right(&mut self) {
        let (Some(row), Some(column)) = (self.dice.pick(&self.cards), self.dice.pick(&self.names))
        else {
            return;
        };
        let is_filled = self.cells.contains(&(row, column));
        if is_filled || self.cells.len() < self.limit {
            self.cells.insert((row, column));
            let right = self.taste.right(self.dice);
            self.draft.push(&[0x42, right, row, column]);
        }
    }
}
