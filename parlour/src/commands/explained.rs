//! The command `explain`.

use super::arguments::usage;
use super::input::{bytes, name, sheet, STANDARD_INPUT};
use super::{Ended, Outcome};
use crate::answer::Answer;
use crate::explain::{answer_fits, read, refusal_fits, Said};
use crate::file::Sheet;
use crate::library::{Library, Refusal};
use crate::names::Names;
use crate::report::{matrices, report};
use crate::words::{self, Fault, Status};
use std::ffi::OsStr;
use std::io::Read;

/// The lines of standard input, with the names of a file where there is one.
pub fn explained(file: Option<&OsStr>, input: &mut dyn Read, library: &dyn Library) -> Ended {
    let of_lines = |fault: Fault| Outcome::failed(&fault, STANDARD_INPUT);
    let sheet = file.map(|file| sheet_beside(file, input)).transpose()?;
    let bytes = bytes(input).map_err(of_lines)?;
    let said = read(&bytes).map_err(of_lines)?;
    match (said, sheet.zip(file)) {
        (Said::Refusal(refusal), None) => refused(refusal).map_err(of_lines),
        (Said::Refusal(refusal), Some((sheet, file))) => {
            let fits = refusal_fits(library, &sheet, refusal);
            fits.map_err(|fault| Outcome::failed(&fault, &name(file)))?;
            let fault = words::of_file(library, &sheet, refusal);
            Ok(said_of_file(&fault, &name(file)))
        }
        (Said::Answer(answer), None) => {
            let names = Names::of_built(&answer.built);
            Ok(Outcome::done(in_full(&names, &answer)))
        }
        (Said::Answer(answer), Some((sheet, file))) => {
            let fits = answer_fits(library, &sheet, &answer);
            fits.map_err(|fault| Outcome::failed(&fault, &name(file)))?;
            Ok(Outcome::done(in_full(&Names::of_sheet(&sheet), &answer)))
        }
    }
}

/// A file whose names are wanted; the lines have standard input.
fn sheet_beside(path: &OsStr, input: &mut dyn Read) -> Result<Sheet, Outcome> {
    if path == "-" {
        let fault = usage("explain reads the lines from standard input, so no file can be there");
        return Err(Outcome::failed(&fault, "parlour"));
    }
    sheet(path, input).map_err(|fault| Outcome::failed(&fault, &name(path)))
}

fn in_full(names: &Names, answer: &Answer) -> String {
    let (report, matrices) = (report(names, answer), matrices(names, &answer.built));
    format!("{report}\n{matrices}")
}

/// A refusal is what the lines say, so the words for it are the explanation.
fn refused(refusal: Refusal) -> Result<Outcome, Fault> {
    let number = refusal.number;
    let words = words::of_lines(refusal);
    let unknown = || Fault::in_line(1, format!("the program has no refusal {number}"));
    Ok(Outcome {
        status: Status::Refused,
        out: format!("{}\n", words.ok_or_else(unknown)?),
        err: String::new(),
    })
}

/// The same with a file: on standard output, unless the file cannot have led to it.
fn said_of_file(fault: &Fault, source: &str) -> Outcome {
    let failed = Outcome::failed(fault, source);
    match fault.status {
        Status::Refused => Outcome {
            out: failed.err,
            err: String::new(),
            ..failed
        },
        _ => failed,
    }
}
