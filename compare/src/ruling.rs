//! The rights for which the ruling also looks at attributes.

use crate::entry::{Attribute, Entry, Mask, Right};
use crate::fault::{Fault, Layer, Rule};

/// A filter for each attribute: the rights that it filters.
#[derive(Clone, Copy, Debug, Default, PartialEq, Eq)]
pub struct Filters {
    masks: [Mask; 4],
}

impl Filters {
    /// Puts the mask in the place of the one before.
    pub fn choose(&mut self, attribute: u8, mask: Mask) -> Result<(), Fault> {
        match Attribute::new(attribute) {
            Some(attribute) => {
                self.masks[attribute.index()] = mask;
                Ok(())
            }
            None => Err(Rule::FilterAttribute.at(Layer::Parts, usize::from(attribute))),
        }
    }

    /// Whether for each attribute whose filter has the right, the row's value covers the column's.
    pub fn pass(&self, right: Right, row: &Entry, column: &Entry) -> bool {
        Attribute::ALL.into_iter().all(|attribute| {
            !self.masks[attribute.index()].has(right) || row.covers(attribute, column)
        })
    }
}
