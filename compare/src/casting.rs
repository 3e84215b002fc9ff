//! Castings: listed stamps put for a command's parameters, and what the command makes of them.

use crate::certificate::Certificate;
use crate::entry::{Mask, Stamp};
use crate::scheme::{Command, Parameter, Place, Sight, Step, Test};

/// A command has at most so many parameters.
pub const MOST: usize = 3;

/// Stamps for parameters, and the cells between them. A parameter that is not there has neither.
#[derive(Clone, Copy, Debug, Default, PartialEq, Eq)]
struct Excerpt {
    stamps: [Option<Stamp>; MOST],
    cells: [[Mask; MOST]; MOST],
}

impl Excerpt {
    fn cell_mut(&mut self, place: Place) -> &mut Mask {
        &mut self.cells[place.row.index()][place.column.index()]
    }

    fn clear(&mut self, parameter: Parameter) {
        self.cells[parameter.index()] = [Mask::EMPTY; MOST];
        for row in &mut self.cells {
            row[parameter.index()] = Mask::EMPTY;
        }
    }

    fn step(&mut self, command: &Command, step: Step) {
        match step {
            Step::Enter { right, place } => {
                let cell = self.cell_mut(place);
                *cell = cell.with(right);
            }
            Step::Delete { right, place } => {
                let cell = self.cell_mut(place);
                *cell = cell.without(right);
            }
            Step::Set {
                parameter,
                attribute,
                value,
            } => {
                if let Some(stamp) = &mut self.stamps[parameter.index()] {
                    stamp.attributes.set(attribute, value);
                }
            }
            Step::Create(parameter) => {
                let is_card = command.parameters.is_card(parameter);
                self.stamps[parameter.index()] = Some(Stamp::created(is_card));
                self.clear(parameter);
            }
            Step::Destroy(parameter) => {
                self.stamps[parameter.index()] = None;
                self.clear(parameter);
            }
        }
    }
}

impl Sight for Excerpt {
    fn entry(&self, parameter: Parameter) -> Option<&Stamp> {
        self.stamps[parameter.index()].as_ref()
    }

    fn cell(&self, place: Place) -> Mask {
        self.cells[place.row.index()][place.column.index()]
    }
}

/// What a command makes of a casting that passes.
#[derive(Clone, Copy, Debug)]
pub struct Outcome {
    /// The numbers of the stamps that were cast; none for a parameter that the command creates.
    cast: [Option<usize>; MOST],
    after: Excerpt,
}

impl Outcome {
    /// The parameters that are left standing, each with its new stamp.
    pub fn standing(&self) -> impl Iterator<Item = (Parameter, Stamp)> + '_ {
        Parameter::ALL
            .into_iter()
            .filter_map(|parameter| Some((parameter, self.stamp(parameter)?)))
    }

    /// The new stamp of a parameter that is left standing.
    pub fn stamp(&self, parameter: Parameter) -> Option<Stamp> {
        self.after.stamps[parameter.index()]
    }

    /// Those of them that the command does not create, each with the number of the stamp that was cast for it.
    pub fn kept(&self) -> impl Iterator<Item = (Parameter, usize)> + '_ {
        self.standing()
            .filter_map(|(parameter, _)| Some((parameter, self.cast[parameter.index()]?)))
    }

    /// The new cells between them.
    pub fn cells(&self) -> impl Iterator<Item = (Place, Mask)> + '_ {
        self.standing().flat_map(move |(row, _)| {
            self.standing().map(move |(column, _)| {
                let place = Place { row, column };
                (place, self.after.cell(place))
            })
        })
    }
}

/// The castings of a command with the stamps of a certificate.
#[derive(Debug)]
pub struct Castings<'a> {
    certificate: &'a Certificate,
    command: &'a Command,
    /// For each parameter the tests that can be tried once stamps are cast for it and for those before it.
    tests: [Vec<Test>; MOST],
}

impl<'a> Castings<'a> {
    pub fn new(certificate: &'a Certificate, command: &'a Command) -> Self {
        let mut tests: [Vec<Test>; MOST] = Default::default();
        for &test in &command.tests {
            let named = command.parameters.all().filter(|&it| test.names(it));
            let last = named.map(Parameter::index).max().unwrap_or(0);
            tests[last].push(test);
        }
        Castings {
            certificate,
            command,
            tests,
        }
    }

    /// Whether the outcome of each casting that passes is as asked. After the first that is not, no more are tried.
    pub fn all(&self, is_fine: &mut impl FnMut(&Outcome) -> bool) -> bool {
        let none = Outcome {
            cast: [None; MOST],
            after: Excerpt::default(),
        };
        self.all_from(0, none, is_fine)
    }

    /// The same of those castings that begin with what is cast for the first parameters.
    fn all_from(
        &self,
        first: usize,
        cast: Outcome,
        is_fine: &mut impl FnMut(&Outcome) -> bool,
    ) -> bool {
        let Some(parameter) = self.command.parameters.all().nth(first) else {
            return is_fine(&self.run(cast));
        };
        if self.command.creates(parameter) {
            return self.all_from(first + 1, cast, is_fine);
        }
        let must_be_card = self.command.parameters.is_card(parameter);
        for (number, stamp) in self.certificate.stamps().iter().enumerate() {
            if must_be_card && !stamp.is_card() {
                continue;
            }
            let cast = self.with(cast, first, number, *stamp);
            let passes = self.tests[first]
                .iter()
                .all(|test| test.passes(&cast.after));
            if passes && !self.all_from(first + 1, cast, is_fine) {
                return false;
            }
        }
        true
    }

    /// One stamp more cast, with the cells between it and those before it, and of it on itself.
    fn with(&self, cast: Outcome, parameter: usize, number: usize, stamp: Stamp) -> Outcome {
        let mut cast = cast;
        cast.cast[parameter] = Some(number);
        cast.after.stamps[parameter] = Some(stamp);
        for other in 0..=parameter {
            if let Some(other_number) = cast.cast[other] {
                let between = |row, column| self.certificate.between(row, column);
                cast.after.cells[parameter][other] = between(number, other_number);
                cast.after.cells[other][parameter] = between(other_number, number);
            }
        }
        cast
    }

    /// Runs the steps on what is cast.
    fn run(&self, cast: Outcome) -> Outcome {
        let mut outcome = cast;
        for &step in &self.command.steps {
            outcome.after.step(self.command, step);
        }
        outcome
    }
}
