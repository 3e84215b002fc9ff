//! Requests that come out as hoped, wild ones, and questions to the ruling.

use super::standing;
use super::taste::Taste;
use crate::dice::Dice;
use crate::entry::Right;
use crate::fault::Rule;
use crate::register::Register;
use crate::scheme::Command;

/// How often a request that comes out as hoped is looked for.
const TRIES: usize = 24;

#[derive(Clone, Debug, Default)]
pub struct Request {
    pub command: u8,
    pub names: Vec<u8>,
}

/// What a request is hoped to come to.
#[derive(Clone, Copy, Debug, PartialEq, Eq)]
pub enum Hope {
    Accepted,
    Refused(Rule),
}

impl Hope {
    fn is_met(self, register: &Register, request: &Request) -> bool {
        match (self, register.after(request.command, &request.names)) {
            (Hope::Accepted, Ok(_)) => true,
            (Hope::Refused(rule), Err(fault)) => fault.rule == rule,
            _ => false,
        }
    }
}

/// A request that comes out as hoped, where one is found soon, and else one that keeps most rules on names. There is
/// none where the register has too few entries for any.
pub fn hoped(dice: &mut Dice, taste: &Taste, register: &Register, hope: Hope) -> Option<Request> {
    let mut last = None;
    for _ in 0..TRIES {
        if let Some(request) = fitting(dice, taste, register) {
            if hope.is_met(register, &request) {
                return Some(request);
            }
            last = Some(request);
        }
    }
    last
}

/// A request with names such as the command asks for, each once; but seldom with a thing for a card.
fn fitting(dice: &mut Dice, taste: &Taste, register: &Register) -> Option<Request> {
    let commands = register.scheme().commands();
    let number = dice.below(commands.len());
    let command = commands.get(number)?;
    let names = fitting_names(dice, taste, register, command)?;
    Some(Request {
        command: u8::try_from(number).ok()?,
        names,
    })
}

fn fitting_names(
    dice: &mut Dice,
    taste: &Taste,
    register: &Register,
    command: &Command,
) -> Option<Vec<u8>> {
    let (all, cards) = standing(register);
    let free: Vec<u8> = taste
        .names()
        .iter()
        .copied()
        .filter(|name| !all.contains(name))
        .collect();
    let mut names = Vec::new();
    for parameter in command.parameters.all() {
        let from = if command.creates(parameter) {
            &free
        } else if command.parameters.is_card(parameter) && dice.chance(94) {
            &cards
        } else {
            &all
        };
        let left: Vec<u8> = from
            .iter()
            .copied()
            .filter(|name| !names.contains(name))
            .collect();
        names.push(dice.pick(&left)?);
    }
    Some(names)
}

/// A request with some fault in it.
pub fn wild(dice: &mut Dice, taste: &Taste, register: Option<&Register>) -> Request {
    let mut request = register
        .and_then(|it| fitting(dice, taste, it))
        .unwrap_or_else(|| any(dice, taste, register));
    let standing = register.map(|it| standing(it).0).unwrap_or_default();
    for _ in 0..dice.one_of([1, 1, 1, 2, 3]) {
        spoil(dice, taste, &standing, &mut request);
    }
    request
}

fn any(dice: &mut Dice, taste: &Taste, register: Option<&Register>) -> Request {
    let commands = register
        .map(|it| it.scheme().commands())
        .unwrap_or_default();
    let number = dice.below(commands.len());
    let count = commands
        .get(number)
        .map_or(2, |command| command.parameters.count());
    let names = (0..count).map(|_| taste.name(dice)).collect();
    Request {
        command: u8::try_from(number).unwrap_or(0),
        names,
    }
}

fn spoil(dice: &mut Dice, taste: &Taste, standing: &[u8], request: &mut Request) {
    let at = dice.below(request.names.len());
    match dice.below(20) {
        0 => request.command = dice.one_of([1, 5, 15, 16, 17, 255]),
        1 => request.names.push(taste.name(dice)),
        2 => drop(request.names.pop()),
        3 => request.names = (0..dice.between(0, 9)).map(|_| dice.byte()).collect(),
        4..=7 => replace(request, at, dice.one_of([64, 64, 65, 128, 192, 255])),
        8..=12 => {
            if let Some(name) = dice.pick(&request.names) {
                replace(request, at, name);
            }
        }
        13..=14 => replace(request, at, taste.name(dice)),
        15..=17 => {
            if let Some(name) = dice.pick(standing) {
                replace(request, at, name);
            }
        }
        _ => {
            let byte = dice.byte() % 64;
            replace(request, at, byte);
        }
    }
}

fn replace(request: &mut Request, at: usize, name: u8) {
    if let Some(old) = request.names.get_mut(at) {
        *old = name;
    }
}

/// Two names and a right, mostly of a cell that holds it.
pub fn question(dice: &mut Dice, taste: &Taste, register: Option<&Register>) -> [u8; 3] {
    let mut question = register
        .filter(|_| dice.chance(80))
        .and_then(|it| held(dice, it))
        .unwrap_or_else(|| [taste.name(dice), taste.name(dice), taste.right(dice)]);
    if dice.chance(10) {
        question[2] = taste.right(dice);
    }
    if dice.chance(10) {
        question[dice.below(2)] = dice.one_of([63, 64, 65, 128, 255]);
    }
    if dice.chance(6) {
        question[2] = dice.one_of([16, 17, 31, 32, 64, 128, 255]);
    }
    question
}

/// A cell that is not empty, and a right in it.
fn held(dice: &mut Dice, register: &Register) -> Option<[u8; 3]> {
    let cells: Vec<_> = register.state().protection.cells().iter().collect();
    let (row, column, mask) = dice.pick(&cells)?;
    let holds = |&number: &u8| Right::new(number).is_some_and(|right| mask.has(right));
    let rights: Vec<u8> = (0..Right::COUNT).filter(holds).collect();
    Some([row.number(), column.number(), dice.pick(&rights)?])
}
