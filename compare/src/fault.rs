//! Why a call is refused: a layer, the number of the rule that is broken, and a place.

use std::fmt;

/// What was at work when a rule was broken.
#[derive(Clone, Copy, Debug, PartialEq, Eq)]
pub enum Layer {
    SchemeTape = 1,
    OpeningTape = 2,
    CertificateTape = 3,
    BanTape = 4,
    Register = 5,
    Checker = 6,
    Parts = 7,
}

/// A rule by its number.
///
/// The checks are written in rising order of these numbers, since the lowest rule that is broken decides.
#[derive(Clone, Copy, Debug, PartialEq, Eq)]
pub enum Rule {
    LongTape = 1,
    NoOrder = 2,
    OutOfPlace = 3,
    TooMany = 4,
    OutOfRange = 5,
    MisusedParameter = 6,
    WrongName = 7,
    OpeningPassesLimit = 8,
    NoCommand = 9,
    NumberOfNames = 10,
    NoName = 11,
    RepeatedName = 12,
    Standing = 13,
    ThingAsCard = 14,
    TestFails = 15,
    PassesLimit = 16,
    NotContained = 17,
    NotClosed = 18,
    BanMet = 19,
    SmallBuffer = 20,
    NoneAccepted = 21,
    ListSize = 23,
    FilterAttribute = 24,
}

impl Rule {
    /// The fault of a call that breaks this rule.
    pub fn at(self, layer: Layer, place: usize) -> Fault {
        Fault {
            layer,
            rule: self,
            place,
        }
    }
}

/// What a refused call answers.
#[derive(Clone, Copy, Debug, PartialEq, Eq)]
pub struct Fault {
    pub layer: Layer,
    pub rule: Rule,
    pub place: usize,
}

impl fmt::Display for Fault {
    fn fmt(&self, f: &mut fmt::Formatter<'_>) -> fmt::Result {
        write!(
            f,
            "fault {} {} {}",
            self.layer as u8, self.rule as u8, self.place
        )
    }
}
