//! `depth [INPUT...]` prints problems with the repetitions of (A) in their deepest
//! row, as the model counts them: a ladder with one problem for each number from 0
//! to 28, two more without a repetition, and then the problems of the named inputs of
//! the program. `stack.c` reads it.
//!
//! A line has a name (`ladder`, or the input's), and then whole numbers: the
//! repetitions; the stage and the row, counted from 0, that they are in (0 and 0 if
//! there are none); the rank and the column steps of the build; the number that
//! `gauge` answers for group 0 with readings of 1.0; m, n, the moduli and the matrix.
//! A problem that is refused is a failure.

use peer::model::calls::build_numbers;
use peer::model::gauges::gauge;
use peer::model::steps::{run, Stage, Until};
use peer::model::{lines, Problem};
use std::path::Path;

/// The most repetitions of the ladder: with one more the row would need a
/// seventeenth column.
const RUNGS: usize = 28;

/// A row with so many repetitions. Two Fibonacci numbers that follow each other take
/// up to 14, if they are below 1,000; every further copy of the smaller takes one.
fn rung(repetitions: usize) -> Problem {
    if repetitions == 0 {
        return Problem::of_rows(&[&[1]], &[0]);
    }
    let chain = repetitions.min(14);
    let (mut small, mut large) = (1, 2);
    for _ in 1..chain {
        (small, large) = (large, small + large);
    }
    let mut row = vec![small; 1 + repetitions - chain];
    row.push(large);
    Problem::of_rows(&[&row], &[0])
}

fn line(name: &str, problem: &Problem) -> String {
    let built = build_numbers(problem).expect("an accepted problem");
    let deepest = run(problem, Until::BeyondM).work.deepest;
    let (repetitions, stage, row) = deepest.map_or((0, 0, 0), |deepest| {
        let stage = match deepest.stage {
            Stage::OneA => 1,
            _ => 2,
        };
        (deepest.repetitions, stage, deepest.row)
    });
    let (m, n) = (problem.m as u32, problem.n as u32);
    let readings = vec![1.0; problem.n];
    let gauge = gauge(m, n, &problem.matrix, &problem.moduli, &readings, 0).number;
    let (rank, steps) = (built.rank, built.steps);
    let numbers: String = problem
        .moduli
        .iter()
        .chain(&problem.matrix)
        .map(|x| format!(" {x}"))
        .collect();
    format!("{name} {repetitions} {stage} {row} {rank} {steps} {gauge} {m} {n}{numbers}")
}

fn main() {
    for repetitions in 0..=RUNGS {
        println!("{}", line("ladder", &rung(repetitions)));
    }
    // No repetition, but steps of (B): a column is brought into range; one is swapped and negated.
    println!(
        "{}",
        line("reduced", &Problem::of_rows(&[&[1, 1], &[0, 1]], &[0, 0]))
    );
    println!("{}", line("negated", &Problem::of_rows(&[&[-1, 0]], &[0])));
    for path in std::env::args().skip(1) {
        let text = std::fs::read(&path).expect("an input");
        let input = lines::read(&text).expect("a well-formed input");
        let name = Path::new(&path).file_stem().expect("a file");
        println!("{}", line(&name.to_string_lossy(), &input.problem));
    }
}

#[cfg(test)]
mod tests {
    use super::*;

    #[test]
    fn rungs() {
        for repetitions in 0..=RUNGS {
            let line = line("ladder", &rung(repetitions));
            assert!(line.starts_with(&format!("ladder {repetitions} ")));
        }
    }
}
