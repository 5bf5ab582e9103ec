//! The lines that the program `glaukemis` prints, read.

mod fits;
mod lines;

pub use fits::{answer_fits, refusal_fits};

use crate::answer::Answer;
use crate::file::{MOST_DIMENSIONS, MOST_QUANTITIES, MOST_TERMS};
use crate::library::{Built, Matrix, Refusal, Term};
use crate::words::Fault;
use lines::Lines;

/// What the lines say.
#[derive(Clone, Debug, PartialEq)]
pub enum Said {
    Answer(Answer),
    Refusal(Refusal),
}

/// Reads the lines.
pub fn read(bytes: &[u8]) -> Result<Said, Fault> {
    let mut lines = Lines::new(bytes);
    let first = lines.next()?;
    let said = match first.split_first() {
        Some((0xff, rest)) => Said::Refusal(refusal(&lines, rest)?),
        Some((0x81, rest)) => {
            let sizes = Sizes::of(&lines, rest)?;
            Said::Answer(answer(&mut lines, sizes)?)
        }
        _ => return Err(lines.expected("a line that begins with 81 or ff")),
    };
    lines.end()?;
    Ok(said)
}

/// The number in one byte, and the place in two.
fn refusal(lines: &Lines, bytes: &[u8]) -> Result<Refusal, Fault> {
    let refusal = match *bytes {
        [number, high, low] => Refusal {
            number: u32::from(number),
            place: usize::from(u16::from_be_bytes([high, low])),
            reading: 0.0,
        },
        _ => return Err(lines.expected("ff and 3 bytes")),
    };
    if refusal.place > highest_place(refusal.number) {
        let (number, place) = (refusal.number, refusal.place);
        let words = format!("the program has no refusal {number} at place {place}");
        return Err(lines.fault(words));
    }
    Ok(refusal)
}

/// The highest place that a refusal of the program has.
fn highest_place(number: u32) -> usize {
    match number {
        4 => MOST_DIMENSIONS - 1,
        5 => MOST_DIMENSIONS * MOST_QUANTITIES - 1,
        6 => MOST_TERMS * MOST_QUANTITIES - 1,
        8 | 9 => MOST_TERMS - 1,
        // the sizes, the rows, the terms, and one line more
        10 => 1 + MOST_DIMENSIONS + MOST_TERMS,
        1 | 7 => 0,
        // no refusal of the program's, as is told where it is put in words
        _ => usize::MAX,
    }
}

/// What the first line tells.
struct Sizes {
    dimensions: usize,
    quantities: usize,
    moduli: usize,
    rank: usize,
    steps: u64,
}

impl Sizes {
    fn of(lines: &Lines, bytes: &[u8]) -> Result<Sizes, Fault> {
        let (sizes, steps) = match *bytes {
            [m, n, s, r, a, b, c, d] => {
                let steps = u32::from_be_bytes([a, b, c, d]);
                ([m, n, s, r].map(usize::from), u64::from(steps))
            }
            _ => return Err(lines.expected("81 and 8 bytes")),
        };
        let [dimensions, quantities, moduli, rank] = sizes;
        let fitting = (1..=MOST_DIMENSIONS).contains(&dimensions)
            && (1..=MOST_QUANTITIES).contains(&quantities)
            && (moduli..=dimensions.min(quantities + moduli)).contains(&rank);
        if !fitting {
            return Err(lines.fault("no answer has these sizes"));
        }
        Ok(Sizes {
            dimensions,
            quantities,
            moduli,
            rank,
            steps,
        })
    }

    fn columns(&self) -> usize {
        self.quantities + self.moduli
    }
}

fn answer(lines: &mut Lines, sizes: Sizes) -> Result<Answer, Fault> {
    let columns = sizes.columns();
    let h = matrix(lines, 0x82, sizes.dimensions, columns)?;
    let v = matrix(lines, 0x83, columns, columns)?;
    let w = matrix(lines, 0x84, columns, columns)?;
    let mut terms = Vec::new();
    while !lines.are_over() {
        if terms.len() == MOST_TERMS {
            let words = format!("there are at most {MOST_TERMS} terms; this is one more");
            lines.next()?;
            return Err(lines.fault(words));
        }
        terms.push(term(lines, columns - sizes.rank)?);
    }
    let built = Built {
        rank: sizes.rank,
        moduli: sizes.moduli,
        steps: sizes.steps,
        h,
        v,
        w,
    };
    Ok(Answer { built, terms })
}

fn matrix(lines: &mut Lines, kind: u8, rows: usize, columns: usize) -> Result<Matrix, Fault> {
    let mut entries = Vec::new();
    for _ in 0..rows {
        entries.extend(lines.numbers(kind, columns)?);
    }
    Ok(Matrix { columns, entries })
}

fn term(lines: &mut Lines, groups: usize) -> Result<Term, Fault> {
    let numbers = lines.numbers(0x85, 1 + groups)?;
    Ok(Term {
        coefficient: numbers[0],
        exponents: numbers[1..].to_vec(),
    })
}
