//! Tapes as rows of orders.
//!
//! A tape has nothing but orders on it, and each order takes a fixed number of bytes. So where an order stands follows
//! from those before it, and its operands can be cut out before anyone looks at them.

use std::marker::PhantomData;

use crate::fault::{Fault, Layer, Rule};

/// No tape is longer.
pub const LONGEST: usize = 65_535;

/// The bytes of a tape as pairs of hex digits, without blanks.
pub fn digits(tape: &[u8]) -> String {
    tape.iter().map(|byte| format!("{byte:02X}")).collect()
}

/// The most operands that an order has.
const MOST_OPERANDS: usize = 5;

/// The orders of one of the tapes, without their operands.
pub trait Code: Copy {
    /// The layer that refuses such a tape.
    const LAYER: Layer;

    /// The order that this byte begins on this tape, if it begins one.
    fn of(byte: u8) -> Option<Self>;

    /// How many operands follow it.
    fn operands(self) -> usize;
}

/// An order as it stands on a tape, its operands as yet unread.
#[derive(Clone, Copy, Debug)]
pub struct Order<C> {
    /// How many bytes stand before it.
    pub offset: usize,
    pub code: C,
    /// The operands, and zeros in the places after them.
    pub operands: [u8; MOST_OPERANDS],
}

/// The orders of a tape, one after the other; after a fault there are no more.
#[derive(Debug)]
pub struct Orders<'t, C> {
    tape: &'t [u8],
    offset: usize,
    code: PhantomData<C>,
}

impl<'t, C: Code> Orders<'t, C> {
    /// The orders of this tape, unless it is too long to be looked into.
    pub fn of(tape: &'t [u8]) -> Result<Self, Fault> {
        if tape.len() > LONGEST {
            return Err(Rule::LongTape.at(C::LAYER, LONGEST));
        }
        Ok(Orders {
            tape,
            offset: 0,
            code: PhantomData,
        })
    }

    /// The order whose bytes are the first of `rest`.
    fn first(&self, rest: &[u8]) -> Option<Order<C>> {
        let (&byte, after) = rest.split_first()?;
        let code = C::of(byte)?;
        let taken = after.get(..code.operands())?;
        let mut operands = [0; MOST_OPERANDS];
        operands[..taken.len()].copy_from_slice(taken);
        Some(Order {
            offset: self.offset,
            code,
            operands,
        })
    }
}

impl<C: Code> Iterator for Orders<'_, C> {
    type Item = Result<Order<C>, Fault>;

    fn next(&mut self) -> Option<Self::Item> {
        let rest = self
            .tape
            .get(self.offset..)
            .filter(|rest| !rest.is_empty())?;
        let Some(order) = self.first(rest) else {
            let fault = Rule::NoOrder.at(C::LAYER, self.offset);
            self.offset = self.tape.len();
            return Some(Err(fault));
        };
        self.offset += 1 + order.code.operands();
        Some(Ok(order))
    }
}
