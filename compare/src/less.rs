//! Certificates that lack one thing of another.

use crate::certificate::Certificate;
use crate::entry::{Mask, Right};

/// One of the things that a certificate says.
#[derive(Clone, Copy, Debug, PartialEq, Eq)]
pub enum Thing {
    /// That the stamp of this number is listed.
    Stamp(usize),
    /// That the stamp of the first number is allowed this right on that of the second.
    Right(usize, usize, Right),
}

/// All that a certificate says.
pub fn things(certificate: &Certificate) -> Vec<Thing> {
    let stamps = (0..certificate.stamps().len()).map(Thing::Stamp);
    let rights = certificate.pairs().flat_map(|(row, column, mask)| {
        let held = Right::all().filter(move |&right| mask.has(right));
        held.map(move |right| Thing::Right(row, column, right))
    });
    stamps.chain(rights).collect()
}

/// The certificate that says all this but one thing; without a stamp nothing is allowed to it or on it.
pub fn without(certificate: &Certificate, thing: Thing) -> Certificate {
    let mut less = Certificate::default();
    for (number, stamp) in certificate.stamps().iter().enumerate() {
        if thing != Thing::Stamp(number) {
            // It was listed once, and there was room.
            let _ = less.list(*stamp);
        }
    }
    for (row, column, mask) in certificate.pairs() {
        let number = |old: usize| less.number(&certificate.stamps()[old]);
        if let (Some(new_row), Some(new_column)) = (number(row), number(column)) {
            // The row was a card's before.
            let _ = less.allow(new_row, new_column, left(mask, row, column, thing));
        }
    }
    less
}

fn left(mask: Mask, row: usize, column: usize, thing: Thing) -> Mask {
    match thing {
        Thing::Right(of, on, right) if (of, on) == (row, column) => mask.without(right),
        _ => mask,
    }
}
