//! Whether the lines are what the program answers to a file.

use crate::answer::{check, Answer};
use crate::file::Sheet;
use crate::library::{Built, Library, Refusal};
use crate::names::Names;
use crate::words::{none_of_this_file, Fault};

/// The refusal of the program's form alone, which no other call knows.
const BAD_LINE: u32 = 10;

/// Holds an answer to a file: its sizes, the formula put back, and the library's own build.
pub fn answer_fits(library: &dyn Library, sheet: &Sheet, answer: &Answer) -> Result<(), Fault> {
    sizes_fit(sheet, &answer.built)?;
    check(sheet, answer)?;
    match library.build(&sheet.problem()) {
        Ok(built) => builds_agree(&built, &answer.built),
        Err(refusal) => {
            let number = refusal.number;
            let words = format!("the library refuses this file {number}, and the lines do not");
            Err(Fault::wrong(None, words))
        }
    }
}

fn sizes_fit(sheet: &Sheet, built: &Built) -> Result<(), Fault> {
    let (file, lines) = (Names::of_sheet(sheet), Names::of_built(built));
    for (what, in_file, in_lines) in [
        ("dimensions", file.dimensions, lines.dimensions),
        ("moduli", file.moduli, lines.moduli),
        ("quantities", file.quantities, lines.quantities),
    ] {
        let (given, answered) = (in_file.len(), in_lines.len());
        if given != answered {
            let words = format!("{what}: {given} in the file and {answered} in the lines");
            return Err(Fault::wrong(None, words));
        }
    }
    Ok(())
}

fn builds_agree(library: &Built, lines: &Built) -> Result<(), Fault> {
    for (what, same) in [
        ("the rank", library.rank == lines.rank),
        ("the number of steps", library.steps == lines.steps),
        ("H", library.h == lines.h),
        ("V", library.v == lines.v),
        ("W", library.w == lines.w),
    ] {
        if !same {
            let words = format!("{what} in the lines is not what the library builds");
            return Err(Fault::wrong(None, words));
        }
    }
    Ok(())
}

/// Holds a refusal to a file: the library's own is the same.
pub fn refusal_fits(library: &dyn Library, sheet: &Sheet, refusal: Refusal) -> Result<(), Fault> {
    let own = library.translate(&sheet.problem(), &sheet.terms);
    if refusal.number == BAD_LINE || own.err() == Some(refusal) {
        return Ok(());
    }
    Err(none_of_this_file(refusal))
}
