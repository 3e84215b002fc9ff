//! Names, rights, masks, attributes, and the entries that have them.

use std::fmt;

use crate::scale::{Scale, Value};

/// A name of an entry: a number from 0 to 63.
#[derive(Clone, Copy, Debug, PartialEq, Eq, PartialOrd, Ord)]
pub struct Name(u8);

impl Name {
    pub const COUNT: u8 = 64;

    pub fn new(number: u8) -> Option<Self> {
        (number < Self::COUNT).then_some(Name(number))
    }

    pub fn number(self) -> u8 {
        self.0
    }
}

/// A right: a number from 0 to 15.
#[derive(Clone, Copy, Debug, PartialEq, Eq)]
pub struct Right(u8);

impl Right {
    pub const COUNT: u8 = 16;

    pub fn new(number: u8) -> Option<Self> {
        (number < Self::COUNT).then_some(Right(number))
    }

    pub fn all() -> impl Iterator<Item = Self> {
        (0..Self::COUNT).map(Right)
    }

    pub fn number(self) -> u8 {
        self.0
    }
}

/// A set of rights.
#[derive(Clone, Copy, Debug, Default, PartialEq, Eq)]
pub struct Mask(u16);

impl Mask {
    pub const EMPTY: Mask = Mask(0);

    pub fn new(bits: u16) -> Self {
        Mask(bits)
    }

    pub fn has(self, right: Right) -> bool {
        self.0 & (1 << right.0) != 0
    }

    pub fn with(self, right: Right) -> Self {
        Mask(self.0 | 1 << right.0)
    }

    pub fn without(self, right: Right) -> Self {
        Mask(self.0 & !(1 << right.0))
    }

    pub fn is_empty(self) -> bool {
        self.0 == 0
    }

    pub fn bits(self) -> u16 {
        self.0
    }

    /// The rights of both.
    pub fn and(self, other: Mask) -> Self {
        Mask(self.0 | other.0)
    }

    /// Whether the other has every right of this one.
    pub fn is_within(self, other: Mask) -> bool {
        self.0 & !other.0 == 0
    }
}

impl fmt::Display for Mask {
    fn fmt(&self, f: &mut fmt::Formatter<'_>) -> fmt::Result {
        write!(f, "{:04X}", self.0)
    }
}

/// Which of the four attributes.
#[derive(Clone, Copy, Debug, PartialEq, Eq)]
pub struct Attribute(u8);

impl Attribute {
    pub const ALL: [Attribute; 4] = [Attribute(0), Attribute(1), Attribute(2), Attribute(3)];

    pub fn new(number: u8) -> Option<Self> {
        Self::ALL.get(usize::from(number)).copied()
    }

    pub fn index(self) -> usize {
        usize::from(self.0)
    }

    /// The scale that the kiosk has for this attribute.
    pub fn scale(self) -> Scale {
        match self.0 {
            0 | 3 => Scale::Ladder,
            _ => Scale::Labels,
        }
    }
}

/// What stands for null in the place of a value on a tape.
pub const NULL: u8 = 0xFF;

/// What an operand says that may be a value of this attribute or null, unless it is out of range.
pub fn value_or_null(attribute: Attribute, operand: u8) -> Option<Option<Value>> {
    match operand {
        NULL => Some(None),
        number => attribute.scale().value(number).map(Some),
    }
}

/// The four attributes of an entry; `None` is null.
#[derive(Clone, Copy, Debug, Default, PartialEq, Eq)]
pub struct Attributes([Option<Value>; 4]);

impl Attributes {
    /// What four operands of a tape say, unless one is out of range.
    pub fn read(operands: [u8; 4]) -> Option<Self> {
        let mut attributes = Self::default();
        for (attribute, operand) in Attribute::ALL.into_iter().zip(operands) {
            attributes.0[attribute.index()] = value_or_null(attribute, operand)?;
        }
        Some(attributes)
    }

    pub fn get(&self, attribute: Attribute) -> Option<Value> {
        self.0[attribute.index()]
    }

    pub fn set(&mut self, attribute: Attribute, value: Value) {
        self.0[attribute.index()] = Some(value);
    }
}

impl fmt::Display for Attributes {
    fn fmt(&self, f: &mut fmt::Formatter<'_>) -> fmt::Result {
        for (attribute, gap) in Attribute::ALL.into_iter().zip(["", " ", " ", " "]) {
            match self.get(attribute) {
                Some(value) => write!(f, "{gap}{}", value.number())?,
                None => write!(f, "{gap}FF")?,
            }
        }
        Ok(())
    }
}

/// A card can have rights; a thing can only be what rights are on.
#[derive(Clone, Copy, Debug, PartialEq, Eq)]
pub enum Kind {
    Card,
    Thing,
}

impl fmt::Display for Kind {
    fn fmt(&self, f: &mut fmt::Formatter<'_>) -> fmt::Result {
        f.write_str(match self {
            Kind::Card => "card",
            Kind::Thing => "thing",
        })
    }
}

/// An entry, apart from its name.
#[derive(Clone, Copy, Debug, PartialEq, Eq)]
pub struct Entry {
    pub kind: Kind,
    pub attributes: Attributes,
}

/// What sort of entry it is, which is all that there is of an entry besides its name.
pub type Stamp = Entry;

impl Entry {
    /// An entry as it is created.
    pub fn created(is_card: bool) -> Self {
        Entry {
            kind: if is_card { Kind::Card } else { Kind::Thing },
            attributes: Attributes::default(),
        }
    }

    pub fn is_card(&self) -> bool {
        self.kind == Kind::Card
    }

    /// Whether this entry's value of the attribute covers the other's. Null covers nothing, and nothing covers it.
    pub fn covers(&self, attribute: Attribute, other: &Entry) -> bool {
        match (
            self.attributes.get(attribute),
            other.attributes.get(attribute),
        ) {
            (Some(one), Some(other)) => attribute.scale().covers(one, other),
            _ => false,
        }
    }
}
