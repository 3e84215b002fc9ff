//! The cells of a register, and how many of them its store has room for.

use std::collections::BTreeMap;

use crate::entry::{Mask, Name};
use crate::fault::{Fault, Layer, Rule};

/// Where the cells of a register lie. For the answers only the room matters.
#[derive(Clone, Copy, Debug, Default, PartialEq, Eq)]
pub enum Store {
    #[default]
    Board,
    List {
        records: usize,
    },
}

impl Store {
    /// As many cells as there are pairs of names.
    const MOST: usize = 4_096;

    pub fn list(records: usize) -> Result<Self, Fault> {
        if (1..=Self::MOST).contains(&records) {
            Ok(Store::List { records })
        } else {
            Err(Rule::ListSize.at(Layer::Parts, 0))
        }
    }

    /// How many cells may be non-empty.
    pub fn limit(self) -> usize {
        match self {
            Store::Board => Self::MOST,
            Store::List { records } => records,
        }
    }
}

/// An access matrix: a mask for each pair of names. Only the masks that are not empty are kept.
#[derive(Clone, Debug, Default, PartialEq, Eq)]
pub struct Cells {
    filled: BTreeMap<(Name, Name), Mask>,
}

impl Cells {
    pub fn get(&self, row: Name, column: Name) -> Mask {
        self.filled
            .get(&(row, column))
            .copied()
            .unwrap_or(Mask::EMPTY)
    }

    pub fn set(&mut self, row: Name, column: Name, mask: Mask) {
        if mask.is_empty() {
            self.filled.remove(&(row, column));
        } else {
            self.filled.insert((row, column), mask);
        }
    }

    /// Empties the row and the column of a name.
    pub fn clear(&mut self, name: Name) {
        self.filled
            .retain(|&(row, column), _| row != name && column != name);
    }

    /// How many cells are not empty.
    pub fn count(&self) -> usize {
        self.filled.len()
    }

    /// The cells that are not empty, by rising row and then column.
    pub fn iter(&self) -> impl Iterator<Item = (Name, Name, Mask)> + '_ {
        self.filled
            .iter()
            .map(|(&(row, column), &mask)| (row, column, mask))
    }
}
