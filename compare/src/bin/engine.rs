//! `engine [FILE]`: answers a script from a file or from standard input.

use std::env;
use std::fs;
use std::io::{self, BufWriter, Read, Write};

use kiosk_compare::session;

fn main() -> io::Result<()> {
    let script = match env::args_os().nth(1) {
        Some(file) => fs::read(file)?,
        None => {
            let mut script = Vec::new();
            io::stdin().lock().read_to_end(&mut script)?;
            script
        }
    };
    let mut out = BufWriter::new(io::stdout().lock());
    for answered in session::answers(&script) {
        writeln!(out, "{}", answered.answer)?;
    }
    out.flush()
}
