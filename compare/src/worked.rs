//! Scripts that were worked by hand from the pages in `docs/`, with their answers.

/// A script, and what it is answered line by line; of a listing only the last line.
#[derive(Clone, Copy, Debug)]
pub struct Worked {
    pub name: &'static str,
    pub script: &'static [u8],
    pub expected: &'static str,
}

macro_rules! worked {
    ($name:literal) => {
        Worked {
            name: $name,
            script: include_bytes!(concat!("../worked/", $name, ".script")),
            expected: include_str!(concat!("../worked/", $name, ".expected")),
        }
    };
}

pub const TABLE: [Worked; 11] = [
    worked!("small-kiosk"),
    worked!("scheme-refusals"),
    worked!("opening-refusals"),
    worked!("request-refusals"),
    worked!("steps"),
    worked!("limits"),
    worked!("rulings"),
    worked!("checks"),
    worked!("check-refusals"),
    worked!("makings"),
    worked!("lines"),
];

#[cfg(test)]
mod tests {
    use super::*;
    use crate::compare;
    use std::fs;
    use std::io;

    #[test]
    fn the_engine_gives_the_expected_answers() {
        for worked in TABLE {
            let difference = compare::first_difference(worked.script, worked.expected.as_bytes());
            assert_eq!(difference, None, "{}", worked.name);
        }
    }

    #[test]
    fn the_table_has_every_file() -> io::Result<()> {
        let folder = concat!(env!("CARGO_MANIFEST_DIR"), "/worked");
        assert_eq!(fs::read_dir(folder)?.count(), 2 * TABLE.len());
        Ok(())
    }
}
