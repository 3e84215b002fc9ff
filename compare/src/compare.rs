//! Puts scripts to a program, and finds the first line that it answers otherwise than the engine.

use std::collections::BTreeMap;
use std::env;
use std::ffi::OsStr;
use std::fmt;
use std::fs;
use std::io::{self, Read, Write};
use std::path::{Path, PathBuf};
use std::process::{self, Child, ChildStdout, Command, ExitStatus, Stdio};
use std::sync::mpsc::{self, RecvTimeoutError};
use std::thread;
use std::time::{Duration, Instant};

use crate::calls::Tapes;
use crate::certificate::Certificate;
use crate::generator::{self, Manner};
use crate::printed::{Otherwise, Printed};
use crate::second::Second;
use crate::session::{self, Answered};
use crate::worked::{self, Worked};

/// How long a program may take for one script.
const PATIENCE: Duration = Duration::from_secs(20);

/// How a program is given a script.
#[derive(Clone, Copy, Debug, PartialEq, Eq)]
pub enum Feed {
    File,
    Input,
}

impl Feed {
    /// One way for half of the seeds and the other way for the rest.
    fn of_seed(seed: u64) -> Self {
        if (seed / 5).is_multiple_of(2) {
            Feed::File
        } else {
            Feed::Input
        }
    }
}

impl fmt::Display for Feed {
    fn fmt(&self, f: &mut fmt::Formatter<'_>) -> fmt::Result {
        f.write_str(match self {
            Feed::File => "from a file",
            Feed::Input => "from standard input",
        })
    }
}

/// A line that is answered otherwise.
#[derive(Clone, Debug, PartialEq, Eq)]
pub struct Difference {
    /// The line by its number from 1 and its text, or none where the program goes on after the last answer.
    pub line: Option<(usize, String)>,
    /// What it should be answered here, or nothing more.
    pub wanted: Option<String>,
    /// What the program answered here, if it did.
    pub given: Option<String>,
}

impl Difference {
    fn at(answered: &Answered<'_>, otherwise: Otherwise) -> Self {
        let line = (
            answered.number,
            String::from_utf8_lossy(answered.line).into_owned(),
        );
        Difference {
            line: Some(line),
            wanted: Some(otherwise.wanted),
            given: otherwise.given,
        }
    }
}

impl fmt::Display for Difference {
    fn fmt(&self, f: &mut fmt::Formatter<'_>) -> fmt::Result {
        match &self.line {
            Some((number, text)) => writeln!(f, "line {number} is answered otherwise: {text}")?,
            None => writeln!(f, "the program says more than the script asks")?,
        }
        writeln!(
            f,
            "  wanted:  {}",
            self.wanted.as_deref().unwrap_or("(no more answers)")
        )?;
        write!(
            f,
            "  program: {}",
            self.given.as_deref().unwrap_or("(no more answers)")
        )
    }
}

/// Why a program did not answer a script.
#[derive(Debug)]
pub enum Failure {
    Start(io::Error),
    Talk(io::Error),
    /// It took longer than it may.
    Late,
    Ended(ExitStatus),
    Differs(Box<Difference>),
    /// By the check of the line of this number, what the program made is not accepted, or not the least that is.
    NotLeast(usize),
    /// It failed on the script that asks about what it made.
    Second(Vec<u8>, Box<Failure>),
    /// Not the program, but the engine itself answers a worked script otherwise than expected.
    Unexpected(Box<Difference>),
}

impl fmt::Display for Failure {
    fn fmt(&self, f: &mut fmt::Formatter<'_>) -> fmt::Result {
        match self {
            Failure::Start(error) => write!(f, "the program can't be run: {error}"),
            Failure::Talk(error) => write!(f, "the program can't be talked with: {error}"),
            Failure::Late => write!(
                f,
                "the program had not ended after {} seconds",
                PATIENCE.as_secs()
            ),
            Failure::Ended(status) => write!(f, "the program did not end well: {status}"),
            Failure::Differs(difference) => write!(f, "{difference}"),
            Failure::NotLeast(number) => write!(
                f,
                "line {number}, which both answer alike, shows that what was made is not the least that is accepted"
            ),
            Failure::Second(script, failure) => write!(
                f,
                "{failure}\nso it was when it was asked about what it made, by this script:\n{}",
                String::from_utf8_lossy(script)
            ),
            Failure::Unexpected(difference) => {
                write!(f, "the engine is wrong; in what follows its answers are wanted, and the expected ones given: {difference}")
            }
        }
    }
}

impl std::error::Error for Failure {}

/// A program that answers scripts, and the file in which it is given them.
#[derive(Debug)]
pub struct Program {
    path: PathBuf,
    file: PathBuf,
}

impl Program {
    pub fn new(path: &Path) -> Self {
        let file = env::temp_dir().join(format!("kiosk-compare-{}.script", process::id()));
        Program {
            path: path.to_owned(),
            file,
        }
    }

    /// What the program prints for this script.
    pub fn output(&self, script: &[u8], feed: Feed) -> Result<Vec<u8>, Failure> {
        let mut child = match feed {
            Feed::File => {
                fs::write(&self.file, script).map_err(Failure::Talk)?;
                self.start(Some(self.file.as_os_str()))?
            }
            Feed::Input => self.start(None)?,
        };
        write_input(&mut child, feed, script);
        let printed = match child.stdout.take() {
            Some(stdout) => read_output(stdout),
            None => Ok(Vec::new()),
        };
        if printed.is_err() {
            // It may have ended by itself meanwhile, and what matters is why nothing was read.
            let _ = child.kill();
        }
        let status = child.wait().map_err(Failure::Talk)?;
        let printed = printed?;
        if status.success() {
            Ok(printed)
        } else {
            Err(Failure::Ended(status))
        }
    }

    fn start(&self, argument: Option<&OsStr>) -> Result<Child, Failure> {
        let mut command = Command::new(&self.path);
        command
            .args(argument)
            .stdin(Stdio::piped())
            .stdout(Stdio::piped());
        command.spawn().map_err(Failure::Start)
    }

    /// Whether the program answers this script as the engine does, and what it made is the least that its own checks
    /// accept.
    pub fn check(&self, script: &[u8], feed: Feed) -> Result<(), Failure> {
        let answers: Vec<Answered> = session::answers(script).collect();
        let makings = self.makings(script, &answers, feed)?;
        if makings.is_empty() {
            return Ok(());
        }
        let second = Second::of(script, &makings);
        self.check_second(&second, feed)
            .map_err(|failure| Failure::Second(second.script(), Box::new(failure)))
    }

    fn check_second(&self, second: &Second, feed: Feed) -> Result<(), Failure> {
        let script = second.script();
        let answers: Vec<Answered> = session::answers(&script).collect();
        self.makings(&script, &answers, feed)?;
        match second.first_wrong(&answers) {
            None => Ok(()),
            Some(answered) => Err(Failure::NotLeast(answered.number)),
        }
    }

    /// What the program makes at the lines of a script, where it answers all of them as the engine does.
    fn makings(
        &self,
        script: &[u8],
        answers: &[Answered<'_>],
        feed: Feed,
    ) -> Result<BTreeMap<usize, Certificate>, Failure> {
        let output = self.output(script, feed)?;
        makings(answers, &output).map_err(|it| Failure::Differs(Box::new(it)))
    }
}

impl Drop for Program {
    fn drop(&mut self) {
        // There is none where no script was given by a file.
        let _ = fs::remove_file(&self.file);
    }
}

/// Writes the script to the program's standard input, where it is to come from there, and closes that.
///
/// A thread of its own does it: a program that prints while it reads would else wait for a reader for ever.
fn write_input(child: &mut Child, feed: Feed, script: &[u8]) {
    let stdin = child.stdin.take();
    if let (Some(mut stdin), Feed::Input) = (stdin, feed) {
        let script = script.to_vec();
        // A program that ends before it has read all shows in what it prints.
        thread::spawn(move || drop(stdin.write_all(&script)));
    }
}

/// Reads what the program prints, as long as it may take.
fn read_output(mut stdout: ChildStdout) -> Result<Vec<u8>, Failure> {
    let (sender, receiver) = mpsc::channel();
    thread::spawn(move || {
        let mut printed = Vec::new();
        let read = stdout.read_to_end(&mut printed).map(|_| printed);
        // Nobody listens any more where the time has passed.
        let _ = sender.send(read);
    });
    match receiver.recv_timeout(PATIENCE) {
        Ok(read) => read.map_err(Failure::Talk),
        Err(RecvTimeoutError::Timeout | RecvTimeoutError::Disconnected) => Err(Failure::Late),
    }
}

/// Where the output answers the script otherwise than the engine, if it does.
pub fn first_difference(script: &[u8], output: &[u8]) -> Option<Difference> {
    let answers: Vec<Answered> = session::answers(script).collect();
    makings(&answers, output).err()
}

/// The certificates that are made in this output, by the numbers of the lines that ask for them; or where it answers
/// them otherwise than the engine, whose answers these are.
fn makings(
    answers: &[Answered<'_>],
    output: &[u8],
) -> Result<BTreeMap<usize, Certificate>, Difference> {
    let mut printed = Printed::new(output);
    let mut makings = BTreeMap::new();
    for answered in answers {
        let made = printed.take(&answered.answer);
        let made = made.map_err(|otherwise| Difference::at(answered, otherwise))?;
        makings.extend(made.map(|it| (answered.number, it)));
    }
    match printed.next_line() {
        None => Ok(makings),
        more => Err(Difference {
            line: None,
            wanted: None,
            given: more,
        }),
    }
}

/// A script on which the comparison failed, and why.
#[derive(Debug)]
pub struct Report {
    what: String,
    script: Vec<u8>,
    failure: Failure,
}

impl Report {
    /// Writes the failure and the whole script.
    pub fn write(&self, out: &mut impl Write) -> io::Result<()> {
        writeln!(out, "{}: {}", self.what, self.failure)?;
        writeln!(out, "the whole script:")?;
        out.write_all(&self.script)?;
        if !self.script.ends_with(b"\n") {
            writeln!(out)?;
        }
        Ok(())
    }
}

/// Puts the worked scripts to the program, and says how many there are.
pub fn check_worked(program: &Program) -> Result<usize, Report> {
    for worked in worked::TABLE {
        for feed in [Feed::File, Feed::Input] {
            check_expected(program, &worked, feed).map_err(|failure| Report {
                what: format!("the worked script {}, {feed}", worked.name),
                script: worked.script.to_vec(),
                failure,
            })?;
        }
    }
    Ok(worked::TABLE.len())
}

/// Whether the program answers a worked script as expected. The engine has to do so too: then the program does where
/// both answer alike.
fn check_expected(program: &Program, worked: &Worked, feed: Feed) -> Result<(), Failure> {
    if let Some(difference) = first_difference(worked.script, worked.expected.as_bytes()) {
        return Err(Failure::Unexpected(Box::new(difference)));
    }
    program.check(worked.script, feed)
}

/// Puts the scripts of the seeds from `first` on to the program for so long, and says how many it answered.
pub fn check_seeds(program: &Program, first: u64, time: Duration) -> Result<u64, Report> {
    let end = Instant::now() + time;
    let mut seed = first;
    while Instant::now() < end {
        let (manner, feed) = (Manner::of_seed(seed), Feed::of_seed(seed));
        let script = generator::script(seed, manner);
        if let Err(failure) = program.check(&script, feed) {
            let what = format!("the {manner} script of seed {seed}, {feed}");
            return Err(Report {
                what,
                script,
                failure,
            });
        }
        seed = seed.wrapping_add(1);
    }
    Ok(seed.wrapping_sub(first))
}

/// How many calls the C program is given at a time.
const CALLS: usize = 400;

/// Hands the tapes of the seeds from `first` on to a program that calls the C library, for so long, and says how many
/// calls it made.
pub fn check_calls(program: &Program, first: u64, time: Duration) -> Result<u64, Report> {
    let end = Instant::now() + time;
    let mut seeds = (0..).map(|step| first.wrapping_add(step));
    let mut count = 0;
    while Instant::now() < end {
        let mut calls = Vec::new();
        while calls.len() < CALLS {
            calls.extend(seeds.next().map(generator::calls).unwrap_or_default());
        }
        check_batch(program, &calls)?;
        count += calls.len() as u64;
    }
    Ok(count)
}

fn check_batch(program: &Program, calls: &[Tapes]) -> Result<(), Report> {
    let lines: Vec<String> = calls.iter().map(Tapes::line).collect();
    let script = lines
        .iter()
        .flat_map(|it| [it.as_str(), "\n"])
        .collect::<String>();
    let report = |script: &str, failure| Report {
        what: "calls of the C library".to_owned(),
        script: script.as_bytes().to_vec(),
        failure,
    };
    let output = program
        .output(script.as_bytes(), Feed::Input)
        .map_err(|failure| report(&script, failure))?;
    let mut printed = Printed::new(&output);
    for ((line, tapes), number) in lines.iter().zip(calls).zip(1..) {
        let wanted = tapes.answer().to_string();
        let given = printed.next_line();
        if given.as_deref() != Some(&wanted) {
            let difference = Difference {
                line: Some((number, "one of the calls".to_owned())),
                wanted: Some(wanted),
                given,
            };
            return Err(report(line, Failure::Differs(Box::new(difference))));
        }
    }
    match printed.next_line() {
        None => Ok(()),
        more => {
            let difference = Difference {
                line: None,
                wanted: None,
                given: more,
            };
            Err(report(&script, Failure::Differs(Box::new(difference))))
        }
    }
}

#[cfg(test)]
mod tests {
    use super::*;

    const SCRIPT: &[u8] = b"state\nscheme\nlist\n# a remark\nstate\nrequest 0";

    fn difference(output: &str) -> Option<(Option<usize>, Option<String>)> {
        let found = first_difference(SCRIPT, output.as_bytes())?;
        Some((found.line.map(|(number, _)| number), found.given))
    }

    #[test]
    fn words_for_people_and_listings_are_passed_over() {
        let output = "error no register -- make one\nok -- 0 commands\nstore board\nend\ncount 0\nend\nfault 5 9 0\n";
        assert_eq!(difference(output), None);
    }

    #[test]
    fn the_first_difference_is_found() {
        let wrong = "error no register\nok\nend\ncount 1\nend\nfault 5 9 1\n";
        assert_eq!(
            difference(wrong),
            Some((Some(5), Some("count 1".to_owned())))
        );
        let no_listing = "error no register\nok\nerror no register\ncount 0\nend\nfault 5 9 0\n";
        assert_eq!(
            difference(no_listing),
            Some((Some(3), Some("error no register".to_owned())))
        );
    }

    #[test]
    fn too_little_and_too_much_are_found() {
        assert_eq!(difference(""), Some((Some(1), None)));
        assert_eq!(
            difference("error no register\nok\nstore board\n"),
            Some((Some(3), None))
        );
        assert_eq!(
            difference("error no register\nok\nend\ncount 0\nend\n"),
            Some((Some(6), None))
        );
        let more = "error no register\nok\nend\ncount 0\nend\nfault 5 9 0\nok\n";
        assert_eq!(difference(more), Some((None, Some("ok".to_owned()))));
    }

    #[test]
    fn a_program_that_is_none_fails() {
        let program = Program::new(Path::new("./no such program"));
        assert!(matches!(
            program.check(SCRIPT, Feed::Input),
            Err(Failure::Start(_))
        ));
    }
}
