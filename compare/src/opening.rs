//! How the opening tape is read onto a register that has nothing.

use crate::entry::{Attributes, Entry, Kind, Name, Right};
use crate::fault::{Fault, Layer, Rule};
use crate::register::Protection;
use crate::tape::{Code, Order, Orders};

/// The orders of the opening tape.
#[derive(Clone, Copy, Debug)]
enum OpeningCode {
    Entry(Kind),
    Right,
}

impl Code for OpeningCode {
    const LAYER: Layer = Layer::OpeningTape;

    fn of(byte: u8) -> Option<Self> {
        match byte {
            0x40 => Some(OpeningCode::Entry(Kind::Card)),
            0x41 => Some(OpeningCode::Entry(Kind::Thing)),
            0x42 => Some(OpeningCode::Right),
            _ => None,
        }
    }

    fn operands(self) -> usize {
        match self {
            OpeningCode::Entry(_) => 5,
            OpeningCode::Right => 3,
        }
    }
}

/// What an opening tape lists, where at most `limit` cells may be non-empty.
pub fn read(tape: &[u8], limit: usize) -> Result<Protection, Fault> {
    let mut opened = Protection::default();
    for order in Orders::of(tape)? {
        let order = order?;
        take(&mut opened, &order, limit)
            .map_err(|rule| rule.at(Layer::OpeningTape, order.offset))?;
    }
    Ok(opened)
}

/// Puts what an order lists onto what those before it listed, or says the lowest rule that it breaks.
fn take(opened: &mut Protection, order: &Order<OpeningCode>, limit: usize) -> Result<(), Rule> {
    match order.code {
        OpeningCode::Entry(kind) => {
            let [name, attributes @ ..] = order.operands;
            let name = Name::new(name).ok_or(Rule::OutOfRange)?;
            let attributes = Attributes::read(attributes).ok_or(Rule::OutOfRange)?;
            list_entry(opened, name, Entry { kind, attributes })
        }
        OpeningCode::Right => {
            let [right, row, column, ..] = order.operands;
            let right = Right::new(right).ok_or(Rule::OutOfRange)?;
            let row = Name::new(row).ok_or(Rule::OutOfRange)?;
            let column = Name::new(column).ok_or(Rule::OutOfRange)?;
            list_right(opened, right, row, column, limit)
        }
    }
}

fn list_entry(opened: &mut Protection, name: Name, entry: Entry) -> Result<(), Rule> {
    if opened.entry(name).is_some() {
        return Err(Rule::WrongName);
    }
    opened.list(name, entry);
    Ok(())
}

fn list_right(
    opened: &mut Protection,
    right: Right,
    row: Name,
    column: Name,
    limit: usize,
) -> Result<(), Rule> {
    let row_is_card = opened.entry(row).is_some_and(Entry::is_card);
    if !row_is_card || opened.entry(column).is_none() {
        return Err(Rule::WrongName);
    }
    let fills_a_cell = opened.cells().get(row, column).is_empty();
    if fills_a_cell && opened.cells().count() >= limit {
        return Err(Rule::OpeningPassesLimit);
    }
    opened.enter(right, row, column);
    Ok(())
}
