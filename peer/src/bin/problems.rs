//! `problems` prints what the model answers to the known problems (R10.1 to
//! R10.13), in their order, in the lines of the proved program of that name;
//! `tests/peer.sh` holds the two to each other, problem by problem.
//!
//! A line with a number alone begins a problem. A build is its rank, moduli and
//! steps and the rows of H, V and W; a term is its weights and its translation.

use peer::model::calls::{build_numbers, translate_numbers, weigh, WEIGHTS_SIZE};
use peer::model::{Problem, Refusal};
use peer::problems;
use std::fmt::Display;

/// A line of numbers after their name.
fn row<T: Display>(name: &str, numbers: &[T]) {
    let numbers: String = numbers.iter().map(|x| format!(" {x}")).collect();
    println!("{name}{numbers}");
}

fn refusal(Refusal { number, place }: Refusal) {
    println!("refused {number} at {place}");
}

/// The build.
fn build(problem: &Problem) {
    let built = match build_numbers(problem) {
        Ok(built) => built,
        Err(refused) => return refusal(refused),
    };
    let (rank, moduli, steps) = (built.rank, problem.s(), built.steps);
    println!("rank {rank} moduli {moduli} steps {steps}");
    for (name, rows) in [("H", built.h), ("V", built.v), ("W", built.w)] {
        rows.iter().for_each(|numbers| row(name, numbers));
    }
}

/// One term: the weights and the translation.
fn term(problem: &Problem, exponents: &[i32]) {
    let (m, n) = (problem.m as u32, problem.n as u32);
    let mut weights = [0; WEIGHTS_SIZE];
    let answer = weigh(
        m,
        n,
        &problem.matrix,
        &problem.moduli,
        exponents,
        &mut weights,
    );
    match answer.number {
        0 => row("weights", &weights[..problem.m]),
        number => {
            print!("weights ");
            refusal(Refusal {
                number,
                place: answer.place,
            });
        }
    }
    match translate_numbers(problem, exponents) {
        Ok(translated) => row("translated", &translated.exponents[0]),
        Err(refused) => refusal(refused),
    }
}

fn answer(problem: u32) {
    match problem {
        1 => build(&problems::one()),
        2 => build(&problems::two()),
        3 => build(&problems::three()),
        4 => {
            build(&problems::four());
            term(&problems::four(), &[-4, 2]);
        }
        5 => build(&problems::five()),
        6 => term(&problems::five(), &[2, 2, 1]),
        7 => term(&problems::five(), &[1, 0, 0]),
        8 => build(&problems::eight()),
        9 => build(&problems::nine()),
        10 => build(&problems::ten()),
        11 => build(&problems::eleven()),
        12 => build(&problems::twelve()),
        // R10.13, as in tests/program/known-13-*.in.
        13 => {
            build(&problems::thirteen([1000, 0]));
            build(&problems::thirteen([0, 1001]));
            term(&problems::thirteen([1000, 0]), &[0, 10_000]);
            term(&problems::thirteen([1000, 0]), &[0, 10_001]);
        }
        _ => unreachable!("13 known problems"),
    }
}

fn main() {
    for problem in 1..=13 {
        println!("{problem}");
        answer(problem);
    }
}
