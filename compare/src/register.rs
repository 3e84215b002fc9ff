//! The register: what it holds, what a request does to it, and what its ruling says.

use std::collections::BTreeMap;

use crate::certificate::Certificate;
use crate::check;
use crate::entry::{Attribute, Entry, Mask, Name, Right};
use crate::fault::{Fault, Layer, Rule};
use crate::make;
use crate::opening;
use crate::ruling::Filters;
use crate::scale::Value;
use crate::scheme::{Command, Parameter, Place, Scheme, Sight, Step};
use crate::store::{Cells, Store};

/// Which entry stands under which name, and the access matrix.
#[derive(Clone, Debug, Default, PartialEq, Eq)]
pub struct Protection {
    entries: BTreeMap<Name, Entry>,
    cells: Cells,
}

impl Protection {
    pub fn entry(&self, name: Name) -> Option<&Entry> {
        self.entries.get(&name)
    }

    /// The entries by rising name.
    pub fn entries(&self) -> impl Iterator<Item = (Name, &Entry)> {
        self.entries.iter().map(|(&name, entry)| (name, entry))
    }

    pub fn cells(&self) -> &Cells {
        &self.cells
    }

    /// Puts an entry under a name that has none.
    pub fn list(&mut self, name: Name, entry: Entry) {
        self.entries.insert(name, entry);
    }

    pub fn enter(&mut self, right: Right, row: Name, column: Name) {
        let mask = self.cells.get(row, column).with(right);
        self.cells.set(row, column, mask);
    }

    fn delete(&mut self, right: Right, row: Name, column: Name) {
        let mask = self.cells.get(row, column).without(right);
        self.cells.set(row, column, mask);
    }

    fn set(&mut self, name: Name, attribute: Attribute, value: Value) {
        if let Some(entry) = self.entries.get_mut(&name) {
            entry.attributes.set(attribute, value);
        }
    }

    fn create(&mut self, name: Name, entry: Entry) {
        self.entries.insert(name, entry);
        self.cells.clear(name);
    }

    fn destroy(&mut self, name: Name) {
        self.entries.remove(&name);
        self.cells.clear(name);
    }
}

/// What a register holds.
#[derive(Clone, Debug, Default, PartialEq, Eq)]
pub struct State {
    pub protection: Protection,
    /// How many requests have been accepted since the opening.
    pub count: u32,
}

#[derive(Clone, Debug)]
pub struct Register {
    scheme: Scheme,
    store: Store,
    filters: Filters,
    state: State,
}

impl Register {
    /// A register with no entries.
    pub fn new(scheme: Scheme, store: Store, filters: Filters) -> Self {
        Register {
            scheme,
            store,
            filters,
            state: State::default(),
        }
    }

    pub fn scheme(&self) -> &Scheme {
        &self.scheme
    }

    pub fn store(&self) -> Store {
        self.store
    }

    pub fn state(&self) -> &State {
        &self.state
    }

    /// Reads an opening tape onto the register. A refused one leaves it empty.
    pub fn open(&mut self, tape: &[u8]) -> Result<(), Fault> {
        self.state = State::default();
        self.state.protection = opening::read(tape, self.store.limit())?;
        Ok(())
    }

    /// Puts the names for the command's parameters and asks for it. An accepted request changes the state and answers
    /// its new count; a refused one changes nothing.
    pub fn request(&mut self, command: u8, names: &[u8]) -> Result<u32, Fault> {
        self.state = self.after(command, names)?;
        Ok(self.state.count)
    }

    /// The state that this request would leave.
    pub fn after(&self, command: u8, names: &[u8]) -> Result<State, Fault> {
        let before = &self.state.protection;
        let command = self
            .scheme
            .command(command)
            .ok_or(refused(Rule::NoCommand, 0))?;
        if names.len() != command.parameters.count() {
            return Err(refused(Rule::NumberOfNames, 0));
        }
        let request = Request {
            command,
            names: named(names)?,
        };
        request.check_parameters(before)?;
        request.check_tests(before)?;
        let mut after = before.clone();
        for step in &command.steps {
            request.step(step, &mut after);
        }
        // Cells that were filled and emptied on the way, or the other way round, do not count.
        if after.cells.count() > self.store.limit() {
            return Err(refused(Rule::PassesLimit, 0));
        }
        Ok(State {
            protection: after,
            count: self.state.count.saturating_add(1),
        })
    }

    /// Checks the certificate and the bans of two tapes on what the register holds.
    pub fn check(&self, certificate: &[u8], bans: &[u8]) -> Result<Certificate, Fault> {
        check::check(&self.scheme, &self.state.protection, certificate, bans)
    }

    /// Makes the least certificate that a check with these bans would accept, for a buffer of so many bytes.
    pub fn make(&self, size: usize, bans: &[u8]) -> Result<Certificate, make::Refusal> {
        make::make(&self.scheme, &self.state.protection, size, bans)
    }

    /// Whether the entry `row` has the right on the entry `column`, and every filter lets it.
    pub fn rule(&self, row: u8, column: u8, right: u8) -> bool {
        self.is_ruled(row, column, right).unwrap_or(false)
    }

    /// `None` where a name or the right is none, or no entry stands under a name.
    fn is_ruled(&self, row: u8, column: u8, right: u8) -> Option<bool> {
        let (row, column, right) = (Name::new(row)?, Name::new(column)?, Right::new(right)?);
        let protection = &self.state.protection;
        let (row_entry, column_entry) = (protection.entry(row)?, protection.entry(column)?);
        let holds = protection.cells.get(row, column).has(right);
        Some(holds && self.filters.pass(right, row_entry, column_entry))
    }
}

fn refused(rule: Rule, place: usize) -> Fault {
    rule.at(Layer::Register, place)
}

/// The numbers as names.
fn named(numbers: &[u8]) -> Result<Vec<Name>, Fault> {
    let names = numbers.iter().enumerate();
    names
        .map(|(place, &number)| Name::new(number).ok_or(refused(Rule::NoName, place)))
        .collect()
}

/// A command with a name for each of its parameters.
struct Request<'s> {
    command: &'s Command,
    names: Vec<Name>,
}

impl Request<'_> {
    fn name(&self, parameter: Parameter) -> Name {
        self.names[parameter.index()]
    }

    fn cell(&self, place: Place) -> (Name, Name) {
        (self.name(place.row), self.name(place.column))
    }

    /// Tries the rules on names, each over all parameters before the next.
    fn check_parameters(&self, before: &Protection) -> Result<(), Fault> {
        self.check(Rule::RepeatedName, |parameter| {
            self.names[..parameter.index()].contains(&self.name(parameter))
        })?;
        self.check(Rule::Standing, |parameter| {
            before.entry(self.name(parameter)).is_some() == self.command.creates(parameter)
        })?;
        self.check(Rule::ThingAsCard, |parameter| {
            let entry = before.entry(self.name(parameter));
            self.command.parameters.is_card(parameter) && entry.is_some_and(|it| !it.is_card())
        })
    }

    /// Refuses by this rule at the lowest parameter that breaks it.
    fn check(&self, rule: Rule, breaks: impl Fn(Parameter) -> bool) -> Result<(), Fault> {
        match self
            .command
            .parameters
            .all()
            .find(|&parameter| breaks(parameter))
        {
            Some(parameter) => Err(refused(rule, parameter.index())),
            None => Ok(()),
        }
    }

    fn check_tests(&self, before: &Protection) -> Result<(), Fault> {
        let seen = Seen {
            request: self,
            state: before,
        };
        match self
            .command
            .tests
            .iter()
            .position(|test| !test.passes(&seen))
        {
            Some(place) => Err(refused(Rule::TestFails, place)),
            None => Ok(()),
        }
    }

    fn step(&self, step: &Step, state: &mut Protection) {
        match *step {
            Step::Enter { right, place } => {
                let (row, column) = self.cell(place);
                state.enter(right, row, column);
            }
            Step::Delete { right, place } => {
                let (row, column) = self.cell(place);
                state.delete(right, row, column);
            }
            Step::Set {
                parameter,
                attribute,
                value,
            } => state.set(self.name(parameter), attribute, value),
            Step::Create(parameter) => {
                let is_card = self.command.parameters.is_card(parameter);
                state.create(self.name(parameter), Entry::created(is_card));
            }
            Step::Destroy(parameter) => state.destroy(self.name(parameter)),
        }
    }
}

/// A state as a request's parameters see it.
struct Seen<'s> {
    request: &'s Request<'s>,
    state: &'s Protection,
}

impl Sight for Seen<'_> {
    fn entry(&self, parameter: Parameter) -> Option<&Entry> {
        self.state.entry(self.request.name(parameter))
    }

    fn cell(&self, place: Place) -> Mask {
        let (row, column) = self.request.cell(place);
        self.state.cells.get(row, column)
    }
}
