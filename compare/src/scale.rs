//! The finite domains of the four attributes, with their relations.

/// A value of some scale.
#[derive(Clone, Copy, Debug, PartialEq, Eq)]
pub struct Value(u8);

impl Value {
    pub fn number(self) -> u8 {
        self.0
    }
}

/// The domain of an attribute.
#[derive(Clone, Copy, Debug, PartialEq, Eq)]
pub enum Scale {
    /// Eight values, and a covers b if a ≥ b.
    Ladder,
    /// Sixteen values read as sets of four bits, and a covers b if every bit of b is a bit of a.
    Labels,
}

impl Scale {
    pub fn size(self) -> u8 {
        match self {
            Scale::Ladder => 8,
            Scale::Labels => 16,
        }
    }

    /// The value of this number, if the scale has it.
    pub fn value(self, number: u8) -> Option<Value> {
        (number < self.size()).then_some(Value(number))
    }

    pub fn covers(self, one: Value, other: Value) -> bool {
        match self {
            Scale::Ladder => one.0 >= other.0,
            Scale::Labels => one.0 & other.0 == other.0,
        }
    }
}

#[cfg(test)]
mod tests {
    use super::*;

    fn asked(scale: Scale, one: u8, other: u8) -> Option<bool> {
        Some(scale.covers(scale.value(one)?, scale.value(other)?))
    }

    #[test]
    fn the_ladder_goes_by_size() {
        assert_eq!(asked(Scale::Ladder, 3, 3), Some(true));
        assert_eq!(asked(Scale::Ladder, 3, 4), Some(false));
        assert_eq!(asked(Scale::Ladder, 8, 0), None);
    }

    #[test]
    fn labels_go_by_containment() {
        assert_eq!(asked(Scale::Labels, 0b0110, 0b0100), Some(true));
        assert_eq!(asked(Scale::Labels, 0b1000, 0b0111), Some(false));
        assert_eq!(asked(Scale::Labels, 0, 0), Some(true));
        assert_eq!(asked(Scale::Labels, 16, 0), None);
    }
}
