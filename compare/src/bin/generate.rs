//! `generate SEED [lawful|damaged|dense]` prints the script of a seed; `generate --stats N [SEED]` counts the answers
//! that the scripts of N seeds come to.

use std::env;
use std::io::{self, Write};
use std::process::ExitCode;

use kiosk_compare::generator::{self, Manner};
use kiosk_compare::statistics::Statistics;

const USAGE: &str = "usage: generate SEED [lawful|damaged|dense]
       generate --stats N [SEED]";

fn main() -> io::Result<ExitCode> {
    let arguments: Vec<String> = env::args().skip(1).collect();
    match made(&arguments) {
        Some(text) => {
            io::stdout().write_all(&text)?;
            Ok(ExitCode::SUCCESS)
        }
        None => {
            eprintln!("{USAGE}");
            Ok(ExitCode::from(2))
        }
    }
}

/// What is to be printed, unless the arguments can't be read.
fn made(arguments: &[String]) -> Option<Vec<u8>> {
    let arguments: Vec<&str> = arguments.iter().map(String::as_str).collect();
    match arguments[..] {
        ["--stats", count] => counted(count, "0"),
        ["--stats", count, first] => counted(count, first),
        [seed] => {
            let seed = seed.parse().ok()?;
            Some(generator::script(seed, Manner::of_seed(seed)))
        }
        [seed, manner] => Some(generator::script(
            seed.parse().ok()?,
            Manner::named(manner)?,
        )),
        _ => None,
    }
}

fn counted(count: &str, first: &str) -> Option<Vec<u8>> {
    let (count, first): (u64, u64) = (count.parse().ok()?, first.parse().ok()?);
    let statistics = Statistics::of_seeds(first..first.checked_add(count)?);
    Some(statistics.to_string().into_bytes())
}
