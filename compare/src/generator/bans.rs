//! Bans that a certificate meets, or just does not.

use super::certificates::stamp_operands;
use super::draft::{Draft, OrderBytes};
use super::taste::Taste;
use crate::ban;
use crate::certificate::Certificate;
use crate::dice::Dice;
use crate::entry::{Right, NULL};

/// How often a ban is looked for that is met, or that is not.
const TRIES: usize = 12;

/// A few bans, mostly such as are not met, and often one among them that is.
pub fn bans(dice: &mut Dice, taste: &Taste, certificate: &Certificate) -> Draft {
    let count = dice.one_of([0, 1, 1, 1, 2, 2, 3, 5, 8, 15, 16]);
    let met = if dice.chance(40) {
        dice.below(count)
    } else {
        count
    };
    let mut draft = Draft::default();
    for at in 0..count {
        let hope = match at {
            at if at < met => Some(false),
            at if at == met => Some(true),
            _ => None,
        };
        draft.orders.extend(hoped(dice, taste, certificate, hope));
    }
    draft
}

/// A ban that is met or not, as it is hoped, where one is found soon.
fn hoped(
    dice: &mut Dice,
    taste: &Taste,
    certificate: &Certificate,
    hope: Option<bool>,
) -> Option<OrderBytes> {
    let is_hoped = |order: &OrderBytes| match (hope, ban::read(order).as_deref()) {
        (Some(hope), Ok([ban])) => ban.is_met(certificate) == hope,
        (_, read) => read.is_ok(),
    };
    (0..TRIES)
        .map(|_| near(dice, taste, certificate))
        .find(is_hoped)
}

/// A ban that fits two stamps of the certificate, with a right that is allowed between them; but mostly something of it
/// is then changed.
fn near(dice: &mut Dice, taste: &Taste, certificate: &Certificate) -> OrderBytes {
    let count = certificate.stamps().len();
    let numbers = || (0..count).flat_map(|row| (0..count).map(move |column| (row, column)));
    let filled: Vec<(usize, usize)> = numbers()
        .filter(|&(row, column)| !certificate.between(row, column).is_empty())
        .collect();
    let pair = match dice.pick(&filled) {
        Some(pair) if dice.chance(80) => pair,
        _ => (dice.below(count), dice.below(count)),
    };
    let (Some(card), Some(entry)) = (
        certificate.stamps().get(pair.0),
        certificate.stamps().get(pair.1),
    ) else {
        return any(dice, taste);
    };
    let mask = certificate.between(pair.0, pair.1);
    let held: Vec<u8> = Right::all()
        .filter(|&right| mask.has(right))
        .map(Right::number)
        .collect();
    let right = dice.pick(&held).unwrap_or_else(|| taste.right(dice));
    let (attribute, other_attribute) = (taste.attribute(dice), taste.attribute(dice));
    let value_of = |stamp, attribute: u8| stamp_operands(stamp)[1 + usize::from(attribute)];
    let mut order = vec![
        0x60,
        right,
        attribute,
        value_of(card, attribute),
        other_attribute,
        value_of(entry, other_attribute),
    ];
    match dice.below(10) {
        0..=1 => order[1] = taste.right(dice),
        2 => order[1] = dice.byte() % Right::COUNT,
        3 => order[3] = taste.value_or_null(dice, attribute),
        4 => order[5] = taste.value_or_null(dice, other_attribute),
        5 => order[3] = NULL,
        6 => order[5] = NULL,
        7 => {
            order.swap(2, 4);
            order.swap(3, 5);
        }
        _ => {}
    }
    order
}

fn any(dice: &mut Dice, taste: &Taste) -> OrderBytes {
    let (attribute, other_attribute) = (taste.attribute(dice), taste.attribute(dice));
    vec![
        0x60,
        taste.right(dice),
        attribute,
        taste.value_or_null(dice, attribute),
        other_attribute,
        taste.value_or_null(dice, other_attribute),
    ]
}
