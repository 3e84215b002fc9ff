//! Certificates, and how they are read from a tape.

use crate::entry::{Attribute, Attributes, Kind, Mask, Stamp, NULL};
use crate::fault::{Fault, Layer, Rule};
use crate::scale::Value;
use crate::tape::{Code, Order, Orders};

/// No certificate lists more stamps.
pub const MOST_STAMPS: usize = 32;

/// Which stamps there may ever be, and what each may ever hold on each.
#[derive(Clone, Debug, Default, PartialEq, Eq)]
pub struct Certificate {
    /// The listed stamps, each once. A stamp's number is its place here.
    stamps: Vec<Stamp>,
    /// What the stamp of the first number is allowed on that of the second.
    allowed: [[Mask; MOST_STAMPS]; MOST_STAMPS],
}

impl Certificate {
    /// The certificate that is on a tape.
    pub fn read(tape: &[u8]) -> Result<Self, Fault> {
        let mut certificate = Self::default();
        for order in Orders::of(tape)? {
            let order = order?;
            certificate
                .take(&order)
                .map_err(|rule| rule.at(Layer::CertificateTape, order.offset))?;
        }
        Ok(certificate)
    }

    pub fn stamps(&self) -> &[Stamp] {
        &self.stamps
    }

    /// The number of a stamp, if it is listed.
    pub fn number(&self, stamp: &Stamp) -> Option<usize> {
        self.stamps.iter().position(|listed| listed == stamp)
    }

    /// What is allowed between two listed stamps of these numbers.
    pub fn between(&self, row: usize, column: usize) -> Mask {
        self.allowed[row][column]
    }

    /// What a stamp is allowed on a stamp, which is nothing where one of them is not listed.
    pub fn allows(&self, row: &Stamp, column: &Stamp) -> Mask {
        match (self.number(row), self.number(column)) {
            (Some(row), Some(column)) => self.between(row, column),
            _ => Mask::EMPTY,
        }
    }

    /// The pairs of numbers of which the first is allowed something on the second, by rising numbers.
    pub fn pairs(&self) -> impl Iterator<Item = (usize, usize, Mask)> + '_ {
        let numbers = || 0..self.stamps.len();
        numbers()
            .flat_map(move |row| numbers().map(move |column| (row, column)))
            .map(|(row, column)| (row, column, self.between(row, column)))
            .filter(|(_, _, mask)| !mask.is_empty())
    }

    /// The tape that lists this and is written as made certificates are: first the stamps, and then each of the pairs.
    pub fn tape(&self) -> Vec<u8> {
        let stamps = self.stamps.iter().flat_map(stamp_order);
        let pairs = self.pairs();
        let pairs = pairs.flat_map(|(row, column, mask)| pair_order(row, column, mask.bits()));
        stamps.chain(pairs).collect()
    }

    /// Whether the other lists the same stamps, in whatever order, and allows the same between them.
    pub fn says_the_same(&self, other: &Certificate) -> bool {
        let allows_the_same = |row| {
            let mut columns = self.stamps.iter();
            columns.all(|column| self.allows(row, column) == other.allows(row, column))
        };
        self.stamps.len() == other.stamps.len()
            && self.stamps.iter().all(|it| other.stamps.contains(it))
            && self.stamps.iter().all(allows_the_same)
    }

    /// Lists one stamp more, or says the lowest rule that it breaks.
    pub fn list(&mut self, stamp: Stamp) -> Result<(), Rule> {
        if self.stamps.len() == MOST_STAMPS {
            return Err(Rule::TooMany);
        }
        if self.number(&stamp).is_some() {
            return Err(Rule::WrongName);
        }
        self.stamps.push(stamp);
        Ok(())
    }

    /// Allows the stamp of the first number more on that of the second.
    pub fn allow(&mut self, row: usize, column: usize, mask: Mask) -> Result<(), Rule> {
        let row_is_card = self.stamps.get(row).is_some_and(Stamp::is_card);
        if !row_is_card || column >= self.stamps.len() {
            return Err(Rule::WrongName);
        }
        self.allowed[row][column] = self.allowed[row][column].and(mask);
        Ok(())
    }

    /// Takes the next order in, or says the lowest rule that it breaks.
    fn take(&mut self, order: &Order<CertificateCode>) -> Result<(), Rule> {
        match order.code {
            CertificateCode::Stamp => {
                // Tried before the operands, whatever they are.
                if self.stamps.len() == MOST_STAMPS {
                    return Err(Rule::TooMany);
                }
                self.list(read_stamp(order.operands).ok_or(Rule::OutOfRange)?)
            }
            CertificateCode::Allowed => {
                let [row, column, high, low, ..] = order.operands;
                let row = read_number(row).ok_or(Rule::OutOfRange)?;
                let column = read_number(column).ok_or(Rule::OutOfRange)?;
                self.allow(row, column, Mask::new(u16::from_be_bytes([high, low])))
            }
        }
    }
}

fn read_stamp(operands: [u8; 5]) -> Option<Stamp> {
    let [kind, attributes @ ..] = operands;
    let kind = match kind {
        1 => Kind::Card,
        2 => Kind::Thing,
        _ => return None,
    };
    Some(Stamp {
        kind,
        attributes: Attributes::read(attributes)?,
    })
}

/// The order that lists a stamp.
pub fn stamp_order(stamp: &Stamp) -> [u8; 6] {
    let kind = match stamp.kind {
        Kind::Card => 1,
        Kind::Thing => 2,
    };
    let mut order = [0x50, kind, NULL, NULL, NULL, NULL];
    for attribute in Attribute::ALL {
        let value = stamp.attributes.get(attribute);
        order[2 + attribute.index()] = value.map_or(NULL, Value::number);
    }
    order
}

/// The order that adds a mask to what a stamp is allowed on a stamp.
pub fn pair_order(row: usize, column: usize, mask: u16) -> [u8; 5] {
    let number = |it: usize| u8::try_from(it).unwrap_or(NULL);
    let [high, low] = mask.to_be_bytes();
    [0x51, number(row), number(column), high, low]
}

/// The number that some stamp may have, whether there is one or not.
fn read_number(operand: u8) -> Option<usize> {
    Some(usize::from(operand)).filter(|&number| number < MOST_STAMPS)
}

/// The orders of the certificate tape.
#[derive(Clone, Copy, Debug)]
enum CertificateCode {
    Stamp,
    Allowed,
}

impl Code for CertificateCode {
    const LAYER: Layer = Layer::CertificateTape;

    fn of(byte: u8) -> Option<Self> {
        match byte {
            0x50 => Some(CertificateCode::Stamp),
            0x51 => Some(CertificateCode::Allowed),
            _ => None,
        }
    }

    fn operands(self) -> usize {
        match self {
            CertificateCode::Stamp => 5,
            CertificateCode::Allowed => 4,
        }
    }
}
