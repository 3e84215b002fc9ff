//! Schemes, and how they are read from a tape.

use crate::entry::{value_or_null, Attribute, Entry, Mask, Right};
use crate::fault::{Fault, Layer, Rule};
use crate::scale::Value;
use crate::tape::{Code, Order, Orders};

const MOST_COMMANDS: usize = 16;
const MOST_TESTS: usize = 16;
const MOST_STEPS: usize = 16;

/// A parameter of a command, by its number.
#[derive(Clone, Copy, Debug, PartialEq, Eq)]
pub struct Parameter(u8);

impl Parameter {
    /// As many as a command may have.
    pub const ALL: [Parameter; 3] = [Parameter(0), Parameter(1), Parameter(2)];

    pub fn index(self) -> usize {
        usize::from(self.0)
    }
}

/// How many parameters a command has, and which of them are declared cards.
#[derive(Clone, Copy, Debug, PartialEq, Eq)]
pub struct Parameters {
    count: u8,
    cards: u8,
}

impl Parameters {
    fn read(count: u8, cards: u8) -> Option<Self> {
        ((1..=3).contains(&count) && cards < 1 << count).then_some(Parameters { count, cards })
    }

    fn parameter(self, operand: u8) -> Option<Parameter> {
        (operand < self.count).then_some(Parameter(operand))
    }

    pub fn count(self) -> usize {
        usize::from(self.count)
    }

    pub fn all(self) -> impl Iterator<Item = Parameter> {
        (0..self.count).map(Parameter)
    }

    pub fn is_card(self, parameter: Parameter) -> bool {
        self.cards & (1 << parameter.0) != 0
    }
}

/// The place of a cell: a row and a column.
#[derive(Clone, Copy, Debug, PartialEq, Eq)]
pub struct Place {
    pub row: Parameter,
    pub column: Parameter,
}

/// Something that must hold in the state before.
#[derive(Clone, Copy, Debug, PartialEq, Eq)]
pub enum Test {
    Has {
        right: Right,
        place: Place,
    },
    Is {
        parameter: Parameter,
        attribute: Attribute,
        value: Option<Value>,
    },
    IsNot {
        parameter: Parameter,
        attribute: Attribute,
        value: Option<Value>,
    },
    Covers {
        one: Parameter,
        attribute: Attribute,
        other: Parameter,
    },
}

/// What a command's parameters see of a state: the entry that each stands for, where there is one, and the cells
/// between them.
pub trait Sight {
    fn entry(&self, parameter: Parameter) -> Option<&Entry>;

    fn cell(&self, place: Place) -> Mask;
}

impl Test {
    pub fn passes(self, sight: &impl Sight) -> bool {
        let value_of = |parameter, attribute| {
            sight
                .entry(parameter)
                .and_then(|entry: &Entry| entry.attributes.get(attribute))
        };
        match self {
            Test::Has { right, place } => sight.cell(place).has(right),
            Test::Is {
                parameter,
                attribute,
                value,
            } => value_of(parameter, attribute) == value,
            Test::IsNot {
                parameter,
                attribute,
                value,
            } => value_of(parameter, attribute) != value,
            Test::Covers {
                one,
                attribute,
                other,
            } => match (sight.entry(one), sight.entry(other)) {
                (Some(one), Some(other)) => one.covers(attribute, other),
                _ => false,
            },
        }
    }

    pub fn names(self, parameter: Parameter) -> bool {
        match self {
            Test::Has { place, .. } => place.row == parameter || place.column == parameter,
            Test::Is {
                parameter: named, ..
            }
            | Test::IsNot {
                parameter: named, ..
            } => named == parameter,
            Test::Covers { one, other, .. } => one == parameter || other == parameter,
        }
    }
}

/// A change.
#[derive(Clone, Copy, Debug, PartialEq, Eq)]
pub enum Step {
    Enter {
        right: Right,
        place: Place,
    },
    Delete {
        right: Right,
        place: Place,
    },
    Set {
        parameter: Parameter,
        attribute: Attribute,
        value: Value,
    },
    Create(Parameter),
    Destroy(Parameter),
}

impl Step {
    fn names(self, parameter: Parameter) -> bool {
        match self {
            Step::Enter { place, .. } | Step::Delete { place, .. } => {
                place.row == parameter || place.column == parameter
            }
            Step::Set {
                parameter: named, ..
            }
            | Step::Create(named)
            | Step::Destroy(named) => named == parameter,
        }
    }
}

/// A command of a scheme.
#[derive(Clone, Debug, PartialEq, Eq)]
pub struct Command {
    pub parameters: Parameters,
    pub tests: Vec<Test>,
    pub steps: Vec<Step>,
}

impl Command {
    /// Whether a name for this parameter is one under which no entry stands yet.
    pub fn creates(&self, parameter: Parameter) -> bool {
        self.steps.contains(&Step::Create(parameter))
    }

    pub fn destroys(&self, parameter: Parameter) -> bool {
        self.steps.contains(&Step::Destroy(parameter))
    }

    fn is_named(&self, parameter: Parameter) -> bool {
        self.tests.iter().any(|test| test.names(parameter))
            || self.steps.iter().any(|step| step.names(parameter))
    }

    fn add_test(&mut self, test: Test) -> Result<(), Rule> {
        match test {
            Test::Has { place, .. } => self.check_row(place)?,
            Test::Is { .. } | Test::IsNot { .. } | Test::Covers { .. } => {}
        }
        self.tests.push(test);
        Ok(())
    }

    fn add_step(&mut self, step: Step) -> Result<(), Rule> {
        let is_placed = match step {
            Step::Enter { place, .. } | Step::Delete { place, .. } => {
                self.check_row(place)?;
                true
            }
            Step::Set { .. } => true,
            Step::Create(parameter) => !self.is_named(parameter),
            Step::Destroy(parameter) => !self.creates(parameter),
        };
        let names_the_destroyed = self
            .parameters
            .all()
            .any(|parameter| self.destroys(parameter) && step.names(parameter));
        if !is_placed || names_the_destroyed {
            return Err(Rule::MisusedParameter);
        }
        self.steps.push(step);
        Ok(())
    }

    fn check_row(&self, place: Place) -> Result<(), Rule> {
        if self.parameters.is_card(place.row) {
            Ok(())
        } else {
            Err(Rule::MisusedParameter)
        }
    }
}

/// The commands of a register.
#[derive(Clone, Debug, Default, PartialEq, Eq)]
pub struct Scheme {
    commands: Vec<Command>,
}

impl Scheme {
    /// The scheme that is on a tape.
    pub fn read(tape: &[u8]) -> Result<Self, Fault> {
        let mut draft = Draft::default();
        for order in Orders::of(tape)? {
            let order = order?;
            draft
                .take(&order)
                .map_err(|rule| rule.at(Layer::SchemeTape, order.offset))?;
        }
        draft
            .finish()
            .map_err(|rule| rule.at(Layer::SchemeTape, tape.len()))
    }

    pub fn command(&self, number: u8) -> Option<&Command> {
        self.commands.get(usize::from(number))
    }

    pub fn commands(&self) -> &[Command] {
        &self.commands
    }
}

#[derive(Clone, Copy, Debug)]
enum TestCode {
    Has,
    Is,
    IsNot,
    Covers,
}

impl TestCode {
    fn read(self, parameters: Parameters, operands: [u8; 3]) -> Option<Test> {
        let [first, second, third] = operands;
        Some(match self {
            TestCode::Has => Test::Has {
                right: Right::new(first)?,
                place: place(parameters, second, third)?,
            },
            TestCode::Is => {
                let attribute = Attribute::new(second)?;
                let value = value_or_null(attribute, third)?;
                Test::Is {
                    parameter: parameters.parameter(first)?,
                    attribute,
                    value,
                }
            }
            TestCode::IsNot => {
                let attribute = Attribute::new(second)?;
                let value = value_or_null(attribute, third)?;
                Test::IsNot {
                    parameter: parameters.parameter(first)?,
                    attribute,
                    value,
                }
            }
            TestCode::Covers => Test::Covers {
                one: parameters.parameter(first)?,
                attribute: Attribute::new(second)?,
                other: parameters.parameter(third)?,
            },
        })
    }
}

#[derive(Clone, Copy, Debug)]
enum StepCode {
    Enter,
    Delete,
    Set,
    Create,
    Destroy,
}

impl StepCode {
    fn read(self, parameters: Parameters, operands: [u8; 3]) -> Option<Step> {
        let [first, second, third] = operands;
        Some(match self {
            StepCode::Enter => Step::Enter {
                right: Right::new(first)?,
                place: place(parameters, second, third)?,
            },
            StepCode::Delete => Step::Delete {
                right: Right::new(first)?,
                place: place(parameters, second, third)?,
            },
            StepCode::Set => {
                let attribute = Attribute::new(second)?;
                let value = attribute.scale().value(third)?;
                Step::Set {
                    parameter: parameters.parameter(first)?,
                    attribute,
                    value,
                }
            }
            StepCode::Create => Step::Create(parameters.parameter(first)?),
            StepCode::Destroy => Step::Destroy(parameters.parameter(first)?),
        })
    }
}

fn place(parameters: Parameters, row: u8, column: u8) -> Option<Place> {
    Some(Place {
        row: parameters.parameter(row)?,
        column: parameters.parameter(column)?,
    })
}

/// The orders of the scheme tape.
#[derive(Clone, Copy, Debug)]
enum SchemeCode {
    Begin,
    End,
    Test(TestCode),
    Step(StepCode),
}

impl Code for SchemeCode {
    const LAYER: Layer = Layer::SchemeTape;

    fn of(byte: u8) -> Option<Self> {
        Some(match byte {
            0x10 => SchemeCode::Begin,
            0x1F => SchemeCode::End,
            0x20 => SchemeCode::Test(TestCode::Has),
            0x21 => SchemeCode::Test(TestCode::Is),
            0x22 => SchemeCode::Test(TestCode::IsNot),
            0x23 => SchemeCode::Test(TestCode::Covers),
            0x30 => SchemeCode::Step(StepCode::Enter),
            0x31 => SchemeCode::Step(StepCode::Delete),
            0x32 => SchemeCode::Step(StepCode::Set),
            0x33 => SchemeCode::Step(StepCode::Create),
            0x34 => SchemeCode::Step(StepCode::Destroy),
            _ => return None,
        })
    }

    fn operands(self) -> usize {
        match self {
            SchemeCode::Begin => 2,
            SchemeCode::End => 0,
            SchemeCode::Test(_) => 3,
            SchemeCode::Step(StepCode::Create | StepCode::Destroy) => 1,
            SchemeCode::Step(_) => 3,
        }
    }
}

/// What has been read of a scheme: the commands that are finished, and the one that is being written.
#[derive(Debug, Default)]
struct Draft {
    scheme: Scheme,
    open: Option<Command>,
}

impl Draft {
    /// Takes the next order in, or says the lowest rule that it breaks.
    fn take(&mut self, order: &Order<SchemeCode>) -> Result<(), Rule> {
        let [first, second, third, ..] = order.operands;
        match (order.code, &mut self.open) {
            (SchemeCode::Begin, None) => self.begin(first, second),
            (SchemeCode::Begin, Some(_)) | (_, None) => Err(Rule::OutOfPlace),
            (SchemeCode::End, Some(_)) => {
                self.scheme.commands.extend(self.open.take());
                Ok(())
            }
            (SchemeCode::Test(code), Some(command)) => {
                if !command.steps.is_empty() {
                    return Err(Rule::OutOfPlace);
                }
                if command.tests.len() == MOST_TESTS {
                    return Err(Rule::TooMany);
                }
                let test = code
                    .read(command.parameters, [first, second, third])
                    .ok_or(Rule::OutOfRange)?;
                command.add_test(test)
            }
            (SchemeCode::Step(code), Some(command)) => {
                if command.steps.len() == MOST_STEPS {
                    return Err(Rule::TooMany);
                }
                let step = code
                    .read(command.parameters, [first, second, third])
                    .ok_or(Rule::OutOfRange)?;
                command.add_step(step)
            }
        }
    }

    fn begin(&mut self, count: u8, cards: u8) -> Result<(), Rule> {
        if self.scheme.commands.len() == MOST_COMMANDS {
            return Err(Rule::TooMany);
        }
        let parameters = Parameters::read(count, cards).ok_or(Rule::OutOfRange)?;
        self.open = Some(Command {
            parameters,
            tests: Vec::new(),
            steps: Vec::new(),
        });
        Ok(())
    }

    /// The scheme, now that the tape has ended.
    fn finish(self) -> Result<Scheme, Rule> {
        match self.open {
            Some(_) => Err(Rule::OutOfPlace),
            None => Ok(self.scheme),
        }
    }
}
