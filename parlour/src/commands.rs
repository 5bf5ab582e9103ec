//! The commands: what each reads, asks and prints.

mod arguments;
mod explained;
mod input;

use crate::answer::{self, solve};
use crate::file::Sheet;
use crate::frames;
use crate::library::Library;
use crate::names::Names;
use crate::report::{matrices, report, values};
use crate::words::{Fault, Status};
use arguments::{at_most, one};
use explained::explained;
use std::ffi::{OsStr, OsString};
use std::io::Read;

const HELP: &str = include_str!("help.txt");

/// What is printed on standard output and on standard error, and the exit status.
#[derive(Clone, Debug, PartialEq, Eq)]
pub struct Outcome {
    pub status: Status,
    pub out: String,
    pub err: String,
}

impl Outcome {
    fn done(out: String) -> Outcome {
        Outcome {
            status: Status::Done,
            out,
            err: String::new(),
        }
    }

    /// A fault prints nothing on standard output.
    fn failed(fault: &Fault, source: &str) -> Outcome {
        Outcome {
            status: fault.status,
            out: String::new(),
            err: fault.text(source),
        }
    }
}

/// A fault is an outcome too.
type Ended = Result<Outcome, Outcome>;

/// Runs the program.
pub fn run(arguments: &[OsString], input: &mut dyn Read, library: &dyn Library) -> Outcome {
    let ended = Command::of(arguments)
        .map_err(|fault| Outcome::failed(&fault, "parlour"))
        .and_then(|command| command.run(input, library));
    ended.unwrap_or_else(|failed| failed)
}

enum Command<'a> {
    Help,
    Version,
    Report(&'a OsStr),
    Matrices(&'a OsStr),
    Frames(&'a OsStr),
    Explain(Option<&'a OsStr>),
}

impl<'a> Command<'a> {
    fn of(arguments: &'a [OsString]) -> Result<Command<'a>, Fault> {
        let first = arguments.first().and_then(|first| first.to_str());
        let rest = arguments.get(1..).unwrap_or(&[]);
        if arguments.iter().any(|argument| argument == "--help") {
            return Ok(Command::Help);
        }
        match first {
            Some("--version") => at_most(0, rest).map(|_| Command::Version),
            Some("matrices") => one(rest).map(Command::Matrices),
            Some("frames") => one(rest).map(Command::Frames),
            Some("explain") => at_most(1, rest).map(Command::Explain),
            _ => one(arguments).map(Command::Report),
        }
    }

    fn run(self, input: &mut dyn Read, library: &dyn Library) -> Ended {
        match self {
            Command::Help => Ok(Outcome::done(HELP.to_string())),
            Command::Version => {
                let version = env!("CARGO_PKG_VERSION");
                Ok(Outcome::done(format!("parlour {version}\n")))
            }
            Command::Report(file) => of_file(file, input, |sheet| whole_report(library, sheet)),
            Command::Matrices(file) => of_file(file, input, |sheet| {
                let built = answer::build(library, sheet)?;
                Ok(matrices(&Names::of_sheet(sheet), &built))
            }),
            Command::Frames(file) => of_file(file, input, frames::write),
            Command::Explain(file) => explained(file, input, library),
        }
    }
}

/// Reads a file, or standard input for `-`, and prints what is made of it.
fn of_file(
    file: &OsStr,
    input: &mut dyn Read,
    print: impl Fn(&Sheet) -> Result<String, Fault>,
) -> Ended {
    let printed = input::sheet(file, input).and_then(|sheet| print(&sheet));
    match printed {
        Ok(out) => Ok(Outcome::done(out)),
        Err(fault) => Err(Outcome::failed(&fault, &input::name(file))),
    }
}

fn whole_report(library: &dyn Library, sheet: &Sheet) -> Result<String, Fault> {
    let answer = solve(library, sheet)?;
    let mut text = report(&Names::of_sheet(sheet), &answer);
    if !sheet.readings.is_empty() {
        text += &values(&answer::values(library, sheet, &answer.built)?);
    }
    Ok(text)
}
