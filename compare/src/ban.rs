//! Bans, and how they are read from a tape.

use crate::certificate::Certificate;
use crate::entry::{value_or_null, Attribute, Right, Stamp};
use crate::fault::{Fault, Layer, Rule};
use crate::scale::Value;
use crate::tape::{Code, Orders};

const MOST_BANS: usize = 16;

/// An attribute that is just this value, or null.
#[derive(Clone, Copy, Debug, PartialEq, Eq)]
struct Trait {
    attribute: Attribute,
    value: Option<Value>,
}

impl Trait {
    fn read(attribute: u8, value: u8) -> Option<Self> {
        let attribute = Attribute::new(attribute)?;
        let value = value_or_null(attribute, value)?;
        Some(Trait { attribute, value })
    }

    fn is_of(self, stamp: &Stamp) -> bool {
        stamp.attributes.get(self.attribute) == self.value
    }
}

/// A right that no card with the one trait is to hold on an entry with the other.
#[derive(Clone, Copy, Debug, PartialEq, Eq)]
pub struct Ban {
    right: Right,
    card: Trait,
    entry: Trait,
}

impl Ban {
    fn read(operands: [u8; 5]) -> Option<Self> {
        let [right, attribute, value, other_attribute, other_value] = operands;
        Some(Ban {
            right: Right::new(right)?,
            card: Trait::read(attribute, value)?,
            entry: Trait::read(other_attribute, other_value)?,
        })
    }

    /// Whether the certificate allows what is banned.
    pub fn is_met(self, certificate: &Certificate) -> bool {
        let stamps = || certificate.stamps().iter().enumerate();
        stamps().any(|(row, card)| {
            card.is_card()
                && self.card.is_of(card)
                && stamps().any(|(column, entry)| {
                    self.entry.is_of(entry) && certificate.between(row, column).has(self.right)
                })
        })
    }
}

/// The bans that are on a tape.
pub fn read(tape: &[u8]) -> Result<Vec<Ban>, Fault> {
    let mut bans = Vec::new();
    for order in Orders::<BanCode>::of(tape)? {
        let order = order?;
        let refused = |rule: Rule| rule.at(Layer::BanTape, order.offset);
        // Tried before the operands, whatever they are.
        if bans.len() == MOST_BANS {
            return Err(refused(Rule::TooMany));
        }
        bans.push(Ban::read(order.operands).ok_or(refused(Rule::OutOfRange))?);
    }
    Ok(bans)
}

/// The one order of the ban tape.
#[derive(Clone, Copy, Debug)]
struct BanCode;

impl Code for BanCode {
    const LAYER: Layer = Layer::BanTape;

    fn of(byte: u8) -> Option<Self> {
        (byte == 0x60).then_some(BanCode)
    }

    fn operands(self) -> usize {
        5
    }
}
