//! The library's refusals: number and place, said with the names and lines of a file.

use super::{decimal, Fault, Message, Status};
use crate::file::Sheet;
use crate::library::{Built, Library, Refusal};
use crate::names::{group, Names};

/// A refusal that the file led to. One that it cannot have led to is a wrong answer.
pub fn of_file(library: &dyn Library, sheet: &Sheet, refusal: Refusal) -> Fault {
    match told(library, sheet, refusal) {
        Some((line, words)) => {
            let words = with_number(&words, refusal.number);
            Fault::new(Status::Refused, line, words)
        }
        None => none_of_this_file(refusal),
    }
}

fn with_number(words: &str, number: u32) -> String {
    format!("{words} (refusal {number})")
}

/// A refusal that the file cannot have led to.
pub fn none_of_this_file(refusal: Refusal) -> Fault {
    let Refusal { number, place, .. } = refusal;
    let words = format!("this file cannot lead to refusal {number} at place {place}");
    Fault::wrong(None, words)
}

/// The line of the file, where there is one, and words.
type Told = Option<(Option<usize>, String)>;

fn told(library: &dyn Library, sheet: &Sheet, refusal: Refusal) -> Told {
    let place = refusal.place;
    match refusal.number {
        4 => modulus(sheet, place),
        5 => entry(sheet, place),
        6 => exponent(sheet, place),
        7 => Some((None, TOO_LARGE.to_string())),
        8 => weight(library, sheet, place),
        9 => in_line(*sheet.term_lines.get(place)?, in_groups(place)),
        10 => Some((None, frame(sheet, place))),
        11 => reading(sheet, refusal),
        _ => None,
    }
}

fn in_line(line: usize, words: String) -> Told {
    Some((Some(line), words))
}

/// A number in range leads to no refusal.
fn outside(number: i32, least: i32, most: i32) -> Option<()> {
    (number < least || number > most).then_some(())
}

/// 7.
const TOO_LARGE: &str = "a number of the build passes 2147483647: the exponents are too large";

/// 9, at a term.
fn in_groups(term: usize) -> String {
    let term = term + 1;
    format!("term {term} has an exponent in the groups that passes 2147483647")
}

/// 4, at a row.
fn modulus(sheet: &Sheet, place: usize) -> Told {
    let dimension = sheet.dimensions.get(place)?;
    let (name, modulus) = (&dimension.name, dimension.modulus);
    outside(modulus, 0, 1000)?;
    let words = format!("the modulus of {name} is {modulus}: it must be from 0 to 1000");
    in_line(dimension.line, words)
}

/// 5, at an entry of the matrix, row after row.
fn entry(sheet: &Sheet, place: usize) -> Told {
    let count = sheet.quantities.len();
    let dimension = sheet.dimensions.get(place / count)?;
    let quantity = &sheet.quantities[place % count];
    let entry = quantity.exponents[place / count];
    outside(entry, -1000, 1000)?;
    let factor = format!("{}^{entry}", dimension.name);
    let words = format!("quantity {} has {factor}", quantity.name);
    let rule = "the exponent must be from -1000 to 1000";
    in_line(quantity.line, format!("{words}: {rule}"))
}

/// 6, at an exponent, term after term.
fn exponent(sheet: &Sheet, place: usize) -> Told {
    let count = sheet.quantities.len();
    let (term, quantity) = (place / count, place % count);
    let exponent = sheet.terms.get(term)?.exponents[quantity];
    outside(exponent, -10_000, 10_000)?;
    let factor = format!("{}^{exponent}", sheet.quantities[quantity].name);
    let rule = "the exponent must be from -10000 to 10000";
    let words = format!("term {} has {factor}: {rule}", term + 1);
    in_line(sheet.term_lines[term], words)
}

/// 8, at a term: the library is asked for its weights.
fn weight(library: &dyn Library, sheet: &Sheet, place: usize) -> Told {
    let term = sheet.terms.get(place)?;
    let weights = library.weigh(&sheet.problem(), &term.exponents).ok()?;
    let names = sheet.dimensions.iter().map(|d| &d.name);
    let all: Vec<(&String, i32)> = names.zip(weights).filter(|(_, w)| *w != 0).collect();
    let words = match all.as_slice() {
        [] => return None,
        [(name, weight)] => format!("its weight in {name} is {weight}"),
        several => {
            let each = several.iter().map(|(name, w)| format!("{name} {w}"));
            format!("its weights are {}", each.collect::<Vec<_>>().join(", "))
        }
    };
    let words = format!("term {} is not free of dimension: {words}", place + 1);
    in_line(sheet.term_lines[place], words)
}

/// 10, at a line of the frames that `parlour frames` writes for the file.
fn frame(sheet: &Sheet, place: usize) -> String {
    let rows = sheet.dimensions.len();
    let what = match place {
        0 => "the sizes".to_string(),
        _ if place <= rows => format!("dimension {}", sheet.dimensions[place - 1].name),
        _ => format!("term {}", place - rows),
    };
    format!("{}: {what}", bad_frame(place))
}

fn bad_frame(place: usize) -> String {
    let line = place + 1;
    format!("line {line} of what the program read is missing or no frame")
}

/// 11, at a reading, which the refusal carries.
fn reading(sheet: &Sheet, refusal: Refusal) -> Told {
    let given = sheet.readings.get(refusal.place)?;
    if given.value.to_bits() != refusal.reading.to_bits() {
        return None;
    }
    let name = &sheet.quantities[refusal.place].name;
    let rule = match refusal.reading.is_finite() {
        true => "it must be above zero",
        false => "it must be a finite number",
    };
    let reading = decimal(refusal.reading);
    in_line(
        given.line,
        format!("reading of {name} is {reading}: {rule}"),
    )
}

/// 12 and 13: a group without a value.
pub fn of_group(names: &Names, built: &Built, refusal: Refusal) -> Result<Message, Fault> {
    let Refusal { number, place, .. } = refusal;
    if place >= built.groups() {
        return Err(none_of_this_file(refusal));
    }
    let words = match number {
        12 => format!(
            "its exponents must be from -64 to 64, not {}",
            large(names, built, place)
        ),
        _ => "a number on the way to it is zero or not finite".to_string(),
    };
    let words = format!("{} has no value: {words}", group(place));
    Ok(Message {
        line: None,
        words: with_number(&words, number),
    })
}

/// The factors of a group for which it is refused 12.
fn large(names: &Names, built: &Built, group: usize) -> String {
    let all = names.quantities.iter().zip(built.group(group));
    let large = all.filter(|(_, exponent)| exponent.unsigned_abs() > 64);
    let factors = large.map(|(name, exponent)| format!("{name}^{exponent}"));
    factors.collect::<Vec<_>>().join(" ")
}

/// A refusal in the program's lines, where no file gives the names. None for a number
/// that the program has no refusal for.
pub fn of_lines(refusal: Refusal) -> Option<String> {
    let place = refusal.place;
    let words = match refusal.number {
        1 => "there must be 1 to 8 dimensions and 1 to 16 quantities".to_string(),
        4 => format!("the modulus of d{} must be from 0 to 1000", place + 1),
        5 => of_list("entry", place, "of the matrix, row after row", 1000),
        6 => of_list("exponent", place, "of the formula, term after term", 10000),
        7 => TOO_LARGE.to_string(),
        8 => format!("term {} is not free of dimension", place + 1),
        9 => in_groups(place),
        10 => bad_frame(place),
        _ => return None,
    };
    Some(with_number(&words, refusal.number))
}

fn of_list(what: &str, place: usize, list: &str, most: i32) -> String {
    let number = place + 1;
    format!("{what} {number} {list}, must be from -{most} to {most}")
}
