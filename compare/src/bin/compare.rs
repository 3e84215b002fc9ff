//! `compare PROGRAM [--calls PROGRAM] [--seconds S] [--from SEED] [--least N]` compares the answers of the kiosk's
//! program with the engine's, and then those of a program that calls the C library.

use std::env;
use std::io::{self, Write};
use std::path::PathBuf;
use std::process::ExitCode;
use std::time::Duration;

use kiosk_compare::compare::{self, Program, Report};

const USAGE: &str =
    "usage: compare PROGRAM [--calls PROGRAM] [--seconds S] [--from SEED] [--least N]";

/// How long calls are made, where scripts take longer than that.
const TIME_FOR_CALLS: Duration = Duration::from_secs(8);

struct Options {
    program: PathBuf,
    /// A program that calls the C library.
    caller: Option<PathBuf>,
    seconds: u64,
    first_seed: u64,
    /// Fewer scripts than these show too little, and so do fewer calls.
    least: u64,
}

impl Options {
    fn read(arguments: impl Iterator<Item = String>) -> Option<Self> {
        let mut arguments = arguments;
        let program = PathBuf::from(arguments.next()?);
        let mut options = Options {
            program,
            caller: None,
            seconds: 90,
            first_seed: 0,
            least: 0,
        };
        while let Some(option) = arguments.next() {
            let value = arguments.next()?;
            match option.as_str() {
                "--calls" => options.caller = Some(PathBuf::from(value)),
                "--seconds" => options.seconds = value.parse().ok()?,
                "--from" => options.first_seed = value.parse().ok()?,
                "--least" => options.least = value.parse().ok()?,
                _ => return None,
            }
        }
        Some(options)
    }
}

fn main() -> io::Result<ExitCode> {
    let Some(options) = Options::read(env::args().skip(1)) else {
        eprintln!("{USAGE}");
        return Ok(ExitCode::from(2));
    };
    let mut out = io::stdout();
    match run(&options, &mut out) {
        Ok(least) if least < options.least => {
            writeln!(out, "but {least} is fewer than {}", options.least)?;
            Ok(ExitCode::FAILURE)
        }
        Ok(_) => Ok(ExitCode::SUCCESS),
        Err(Stop::Output(error)) => Err(error),
        Err(Stop::Report(report)) => {
            report.write(&mut out)?;
            Ok(ExitCode::FAILURE)
        }
    }
}

/// Why a comparison was not brought to its end.
enum Stop {
    Output(io::Error),
    Report(Report),
}

impl From<io::Error> for Stop {
    fn from(error: io::Error) -> Self {
        Stop::Output(error)
    }
}

impl From<Report> for Stop {
    fn from(report: Report) -> Self {
        Stop::Report(report)
    }
}

/// Says what agrees, and answers how many scripts do, or calls if they are fewer.
fn run(options: &Options, out: &mut impl Write) -> Result<u64, Stop> {
    let program = Program::new(&options.program);
    let worked = compare::check_worked(&program)?;
    writeln!(out, "{worked} worked scripts agree")?;
    let time = Duration::from_secs(options.seconds);
    let scripts = compare::check_seeds(&program, options.first_seed, time)?;
    writeln!(out, "{scripts} scripts agree")?;
    let Some(caller) = &options.caller else {
        return Ok(scripts);
    };
    let caller = Program::new(caller);
    let calls = compare::check_calls(&caller, options.first_seed, time.min(TIME_FOR_CALLS))?;
    writeln!(out, "{calls} calls agree")?;
    Ok(scripts.min(calls))
}
