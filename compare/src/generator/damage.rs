//! Tapes that are not quite as they should be.

use std::collections::BTreeSet;

use super::draft::{Draft, OrderBytes};
use crate::dice::Dice;
use crate::entry::NULL;

/// Which tape is being damaged.
#[derive(Clone, Copy, Debug, PartialEq, Eq)]
pub enum Tape {
    Scheme,
    Opening,
    Certificate,
    Bans,
}

impl Tape {
    /// Where its orders stand in the table.
    fn orders(self) -> &'static [(u8, usize)] {
        match self {
            Tape::Scheme => &ORDERS[..11],
            Tape::Opening => &ORDERS[11..14],
            Tape::Certificate => &ORDERS[14..16],
            Tape::Bans => &ORDERS[16..],
        }
    }
}

/// The bytes of the orders of all four tapes, with how many operands follow each.
const ORDERS: [(u8, usize); 17] = [
    (0x10, 2),
    (0x1F, 0),
    (0x20, 3),
    (0x21, 3),
    (0x22, 3),
    (0x23, 3),
    (0x30, 3),
    (0x31, 3),
    (0x32, 3),
    (0x33, 1),
    (0x34, 1),
    (0x40, 5),
    (0x41, 5),
    (0x42, 3),
    (0x50, 5),
    (0x51, 4),
    (0x60, 5),
];

/// Operands at the ends of ranges, and just past them.
const EDGES: [u8; 22] = [
    0, 1, 2, 3, 4, 5, 6, 7, 8, 9, 15, 16, 17, 31, 32, 63, 64, 65, 127, 128, 254, 255,
];

/// The longest tape there is, and the shortest that is too long.
const LONGEST: usize = 65_535;

pub fn damaged(dice: &mut Dice, draft: Draft, tape: Tape) -> Vec<u8> {
    let one_in = match tape {
        Tape::Scheme => 200,
        Tape::Opening => 80,
        Tape::Certificate | Tape::Bans => 50,
    };
    if dice.below(one_in) == 0 {
        return long(dice, tape);
    }
    let mut draft = draft;
    for _ in 0..dice.one_of([0, 1, 1, 1, 2, 2]) {
        change_orders(dice, &mut draft, tape);
    }
    let mut bytes = draft.bytes();
    if dice.chance(25) {
        change_bytes(dice, &mut bytes);
    }
    bytes
}

/// A tape at or near the longest that there is.
fn long(dice: &mut Dice, tape: Tape) -> Vec<u8> {
    let mut bytes = match tape {
        Tape::Scheme => [0x10, 0x01, 0x01, 0x1F].repeat(LONGEST / 4 + 1),
        Tape::Opening => {
            let mut bytes = [0x40, 0x05, 0xFF, 0xFF, 0xFF, 0xFF].to_vec();
            bytes.extend([0x42, 0x0F, 0x05, 0x05].repeat(LONGEST / 4 + 1));
            bytes
        }
        Tape::Certificate => {
            // With five stamps the longest tape ends with an order.
            let mut bytes = Vec::new();
            for value in 0..5 {
                bytes.extend([0x50, 0x01, 0xFF, 0xFF, value, 0xFF]);
            }
            bytes.extend([0x51, 0x04, 0x00, 0x80, 0x01].repeat(LONGEST / 5 + 1));
            bytes
        }
        Tape::Bans => [0x60, 0x0F, 0x00, 0xFF, 0x03, 0xFF].repeat(LONGEST / 6 + 1),
    };
    if dice.chance(30) {
        bytes.fill(0xEE);
    }
    bytes.truncate(dice.one_of([LONGEST - 1, LONGEST, LONGEST + 1, LONGEST + 2]));
    bytes
}

fn change_orders(dice: &mut Dice, draft: &mut Draft, tape: Tape) {
    let at = dice.below(draft.orders.len());
    match dice.below(24) {
        0..=4 => {
            let at = one_of_each_sort(dice, draft).unwrap_or(at);
            if let Some(order) = draft.orders.get_mut(at) {
                change_operand(dice, order);
            }
        }
        5..=8 => {
            let order = match tape {
                Tape::Opening if dice.chance(70) => stray_item(dice, draft),
                Tape::Certificate if dice.chance(70) => stray_line(dice, draft),
                _ => stray(dice, tape),
            };
            draft.orders.insert(at, order);
        }
        9 => {
            if at < draft.orders.len() {
                draft.orders.remove(at);
            }
        }
        10..=11 => {
            let other = dice.below(draft.orders.len());
            if at < draft.orders.len() {
                draft.orders.swap(at, other);
            }
        }
        12 => {
            let other = dice.below(draft.orders.len());
            if let Some(order) = draft.orders.get(at).cloned() {
                draft.orders.insert(other, order);
            }
        }
        13..=14 => repeat_order(dice, draft),
        15..=16 => repeat_all(dice, draft),
        _ => match tape {
            Tape::Scheme | Tape::Opening => misuse(dice, draft),
            Tape::Certificate => list_many(dice, draft),
            Tape::Bans => ban_many(dice, draft),
        },
    }
}

/// Lists stamps until there are about as many as there may be.
fn list_many(dice: &mut Dice, draft: &mut Draft) {
    let is_stamp = |order: &OrderBytes| order.first() == Some(&0x50);
    let count = draft.orders.iter().filter(|order| is_stamp(order)).count();
    let wanted = dice.one_of([31, 32, 32, 33, 33, 33, 34]);
    let numbers = (0..=u8::MAX).map(|it| [0x50, 1 + it % 2, it / 2 % 8, it / 16, 15, 7]);
    for order in numbers.take(wanted - count.min(wanted)) {
        draft.orders.push(order.to_vec());
    }
    let stamps: Vec<usize> = (0..draft.orders.len())
        .filter(|&at| is_stamp(&draft.orders[at]))
        .collect();
    // What is one too many may be wrong besides: out of range, or there already.
    if let Some(&last) = stamps.get(32) {
        match dice.below(4) {
            0 => change_operand(dice, &mut draft.orders[last]),
            1 => draft.orders[last] = draft.orders[stamps[dice.below(32)]].clone(),
            _ => {}
        }
    }
    if dice.chance(50) {
        let number = dice.one_of([0, 15, 30, 31, 32]);
        let other = dice.one_of([0, 31, number]);
        let at = draft.orders.len();
        let at = dice.one_of([at, at, at.saturating_sub(1)]);
        draft.orders.insert(at, vec![0x51, number, other, 0, 1]);
    }
}

/// Puts bans down again until there are about as many as there may be.
fn ban_many(dice: &mut Dice, draft: &mut Draft) {
    if draft.orders.is_empty() {
        draft.push(&[0x60, 15, 0, 7, 1, 15]);
    }
    let wanted = dice.one_of([15, 16, 16, 17, 17, 18]);
    draft.orders = (0..wanted)
        .map(|_| draft.orders[dice.below(draft.orders.len())].clone())
        .collect();
    if dice.chance(50) {
        let at = dice.one_of([wanted - 1, 15]).min(wanted - 1);
        change_operand(dice, &mut draft.orders[at]);
    }
}

/// Puts a step with operands in their ranges among those of a command.
fn misuse(dice: &mut Dice, draft: &mut Draft) {
    let ends: Vec<usize> = (0..draft.orders.len())
        .filter(|&at| draft.orders[at].first() == Some(&0x1F))
        .collect();
    let Some(end) = dice.pick(&ends) else {
        return;
    };
    let count = draft.orders[..end]
        .iter()
        .rev()
        .find(|order| order.first() == Some(&0x10))
        .and_then(|it| it.get(1));
    let parameters = count.map_or(1, |&count| usize::from(count));
    let mut parameter = || u8::try_from(dice.below(parameters)).unwrap_or(0);
    let (one, other) = (parameter(), parameter());
    let order = match dice.below(8) {
        0 => vec![0x30, 0, one, other],
        1 => vec![0x31, 0, one, other],
        2 => vec![0x32, one, 0, 0],
        3..=5 => vec![0x33, one],
        _ => vec![0x34, one],
    };
    // Mostly near the end, after the steps that it may clash with, or before all of them, where only tests may.
    let back = dice.one_of([40, 80, 100]);
    let mut at = end;
    while at > 0 && dice.chance(back) && matches!(draft.orders[at - 1].first(), Some(0x30..=0x34)) {
        at -= 1;
    }
    draft.orders.insert(at, order);
}

/// The place of an order, for which rare orders are as likely as frequent ones.
fn one_of_each_sort(dice: &mut Dice, draft: &Draft) -> Option<usize> {
    let sorts: BTreeSet<u8> = draft
        .orders
        .iter()
        .filter_map(|order| order.first().copied())
        .collect();
    let sort = dice.pick(&sorts.into_iter().collect::<Vec<_>>())?;
    let places: Vec<usize> = (0..draft.orders.len())
        .filter(|&at| draft.orders[at].first() == Some(&sort))
        .collect();
    dice.pick(&places)
}

fn change_operand(dice: &mut Dice, order: &mut OrderBytes) {
    if order.len() < 2 {
        return;
    }
    let at = dice.between(1, order.len() - 1);
    let byte = match dice.below(10) {
        0..=6 => dice.pick(&edges_of(order, at)).unwrap_or(0),
        7..=8 => dice.one_of(EDGES),
        _ => dice.byte(),
    };
    order[at] = byte;
}

/// The ends of the range that this operand has.
fn edges_of(order: &[u8], at: usize) -> Vec<u8> {
    match (order, at) {
        ([0x10, ..], 1) => vec![0, 3, 4],
        ([0x10, count @ 1..=3, _], _) => vec![(1 << count) - 1, 1 << count],
        ([0x20 | 0x30 | 0x31 | 0x42, ..], 1) => vec![15, 16, NULL],
        ([0x21..=0x23 | 0x32, ..], 2) => vec![3, 4, NULL],
        ([0x21 | 0x22 | 0x32, _, attribute, _], 3) => edges_of_values(usize::from(*attribute)),
        ([0x20..=0x34, ..], _) => vec![0, 1, 2, 3, NULL],
        ([0x40 | 0x41 | 0x50, ..], 2..) => edges_of_values(at - 2),
        ([0x50, ..], _) => vec![0, 1, 2, 3],
        ([0x51, ..], 1 | 2) => vec![0, 31, 32, NULL],
        ([0x51, ..], _) => vec![0, 1, 128, NULL],
        ([0x60, ..], 1) => vec![15, 16, NULL],
        ([0x60, ..], 2 | 4) => vec![0, 3, 4, NULL],
        ([0x60, _, attribute, ..], 3) => edges_of_values(usize::from(*attribute)),
        ([0x60, _, _, _, attribute, _], _) => edges_of_values(usize::from(*attribute)),
        _ => vec![63, 64, NULL],
    }
}

fn edges_of_values(attribute: usize) -> Vec<u8> {
    match attribute {
        0 | 3 => vec![7, 8, NULL - 1, NULL],
        _ => vec![15, 16, NULL - 1, NULL],
    }
}

/// An order out of nowhere, mostly of this tape and with small operands.
fn stray(dice: &mut Dice, tape: Tape) -> OrderBytes {
    let from = if dice.chance(93) {
        tape.orders()
    } else {
        &ORDERS[..]
    };
    let (byte, operands) = dice.pick(from).unwrap_or((0, 0));
    let mut order = vec![byte];
    for _ in 0..operands {
        let small = dice.one_of([0, 0, 0, 1, 1, 1, 2, 2, 3]);
        order.push(small);
    }
    if dice.chance(20) {
        change_operand(dice, &mut order);
    }
    order
}

/// An entry or a right with names that are on the tape, whether before or after.
fn stray_item(dice: &mut Dice, draft: &Draft) -> OrderBytes {
    let names: Vec<u8> = (draft.orders.iter())
        .filter(|order| matches!(order.first(), Some(0x40 | 0x41)))
        .filter_map(|order| order.get(1).copied())
        .collect();
    let mut name = || dice.pick(&names).unwrap_or(0);
    let (one, other) = (name(), name());
    let mut order = match dice.below(4) {
        0 => vec![0x40, one, 0, 0, 0, 0],
        1 => vec![0x41, one, 0xFF, 0xFF, 0xFF, 0xFF],
        _ => vec![0x42, 0, one, other],
    };
    if dice.chance(30) {
        change_operand(dice, &mut order);
    }
    order
}

/// A stamp that is on the tape, or a pair with numbers of such stamps, or of one more, whether before or after.
fn stray_line(dice: &mut Dice, draft: &Draft) -> OrderBytes {
    let stamps: Vec<&OrderBytes> = (draft.orders.iter())
        .filter(|order| order.first() == Some(&0x50))
        .collect();
    let mut number = || u8::try_from(dice.below(stamps.len() + 1)).unwrap_or(NULL);
    let (one, other) = (number(), number());
    let mut order = match dice.pick(&stamps) {
        Some(stamp) if dice.chance(35) => stamp.clone(),
        _ => vec![0x51, one, other, 0, 1],
    };
    if dice.chance(25) {
        change_operand(dice, &mut order);
    }
    order
}

/// Repeats a test, a step or a right as often as it may stand in a command, or once more.
fn repeat_order(dice: &mut Dice, draft: &mut Draft) {
    let repeatable: Vec<usize> = (0..draft.orders.len())
        .filter(|&at| {
            matches!(
                draft.orders[at].first(),
                Some(0x20..=0x23 | 0x30..=0x32 | 0x42 | 0x51 | 0x60)
            )
        })
        .collect();
    let Some(at) = dice.pick(&repeatable) else {
        return;
    };
    let order = draft.orders[at].clone();
    let times = dice.one_of([1, 14, 15, 15, 16, 16, 17]);
    let mut copies = vec![order.clone(); times];
    if let (Some(last), true) = (copies.last_mut(), dice.chance(30)) {
        change_operand(dice, last);
    }
    draft.orders.splice(at..at, copies);
    if dice.chance(20) {
        // Once more at the end of the command, where it may be both too many and out of place.
        let after = draft.orders[at..]
            .iter()
            .position(|it| it.first() == Some(&0x1F));
        draft.orders.insert(at + after.unwrap_or(0), order);
    }
}

/// Puts the orders down again and again, until there are about as many commands as there may be.
fn repeat_all(dice: &mut Dice, draft: &mut Draft) {
    let is_begin = |order: &OrderBytes| order.first() == Some(&0x10);
    let commands = draft.orders.iter().filter(|order| is_begin(order)).count();
    let times = 17 / commands.max(1) + dice.below(2);
    let orders = draft.orders.clone();
    for _ in 1..times {
        draft.orders.extend(orders.iter().cloned());
    }
    if dice.chance(40) {
        if let Some(seventeenth) = draft
            .orders
            .iter_mut()
            .filter(|order| is_begin(order))
            .nth(16)
        {
            change_operand(dice, seventeenth);
        }
    }
}

/// Changes a byte or two, whatever they stand for.
pub fn change_bytes(dice: &mut Dice, bytes: &mut Vec<u8>) {
    for _ in 0..dice.one_of([1, 1, 2]) {
        let at = dice.below(bytes.len());
        match dice.below(6) {
            0..=1 => {
                let byte = dice.byte();
                if let Some(old) = bytes.get_mut(at) {
                    *old = byte;
                }
            }
            2 => {
                let bit = dice.below(8);
                if let Some(old) = bytes.get_mut(at) {
                    *old ^= 1 << bit;
                }
            }
            3 => bytes.truncate(at),
            4 => {
                if at < bytes.len() {
                    bytes.remove(at);
                }
            }
            _ => {
                let byte = dice.byte();
                bytes.insert(at, byte);
            }
        }
    }
}
