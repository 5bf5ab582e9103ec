//! Calls of `weigh`: random ones, and every refusal with every place.

use crate::comparing::weights::WeighCall;
use crate::model::calls::{build_numbers, WEIGHTS_SIZE};
use crate::model::{Problem, MOST_QUANTITIES, MOST_ROWS};
use crate::problems;
use crate::random::Random;

/// Numbers beyond the limits, just and far.
const NO_MODULI: [i32; 6] = [-1, 1001, i32::MIN, i32::MAX, -1000, 65_536];
const NO_ENTRIES: [i32; 5] = [1001, -1001, i32::MIN, i32::MAX, 65_536];
const NO_EXPONENTS: [i32; 5] = [10_001, -10_001, i32::MIN, i32::MAX, 65_536];

/// A problem as for the other calls with exponents of a term, now and then of one
/// that is free; the output has its least size or is longer.
fn well_made(random: &mut Random) -> WeighCall {
    let problem = super::problem(random);
    let exponents = match random.below(6) {
        0 => match build_numbers(&problem) {
            Ok(built) => super::free_term(&problem, &built, random),
            Err(_) => super::any_term(problem.n, random),
        },
        // At and near the limits.
        1 => {
            let near = [-10_000, -9_999, -1, 0, 1, 9_999, 10_000];
            (0..problem.n).map(|_| random.pick(&near)).collect()
        }
        _ => super::any_term(problem.n, random),
    };
    let mut call = WeighCall::new(&problem, &exponents);
    if random.one_in(4) {
        call.weights += random.below(40);
    }
    call
}

/// Gives a list another length.
fn resize(list: &mut Vec<i32>, random: &mut Random) {
    let length = match random.below(4) {
        0 => 0,
        1 => list.len() + 1,
        2 => list.len().saturating_sub(1),
        _ => random.below(200),
    };
    list.resize(length, 0);
}

/// Puts one of these numbers somewhere into a list.
fn spoil(list: &mut [i32], values: &[i32], random: &mut Random) {
    if !list.is_empty() {
        list[random.below(list.len())] = random.pick(values);
    }
}

fn fault(call: &mut WeighCall, random: &mut Random) {
    const LARGE: u32 = u32::MAX;
    match random.below(12) {
        0 => call.m = random.pick(&[0, 9, 17, 256, LARGE]),
        1 => call.n = random.pick(&[0, 17, 18, 272, LARGE]),
        2 => resize(&mut call.matrix, random),
        3 => resize(&mut call.moduli, random),
        4 => resize(&mut call.exponents, random),
        5 => std::mem::swap(&mut call.m, &mut call.n),
        6 | 7 => call.weights = random.below(WEIGHTS_SIZE),
        8 => spoil(&mut call.moduli, &NO_MODULI, random),
        9 => spoil(&mut call.matrix, &NO_ENTRIES, random),
        _ => spoil(&mut call.exponents, &NO_EXPONENTS, random),
    }
}

/// A random call: two in three well made, the others with one to four faults.
pub fn call(random: &mut Random) -> WeighCall {
    let mut call = well_made(random);
    if random.one_in(3) {
        for _ in 0..1 + random.below(4) {
            fault(&mut call, random);
        }
    }
    call
}

/// The calls that are made in every run: all sizes, all lengths near the right ones,
/// and 4, 5 and 6 at every place; in every other case a later fault comes with it,
/// which must not show.
pub fn systematic(random: &mut Random) -> Vec<WeighCall> {
    let mut calls = Vec::new();
    for problem in problems::known() {
        for most in [0, 1, 10_000] {
            let exponents: Vec<i32> = (0..problem.n)
                .map(|_| random.between(-most, most))
                .collect();
            calls.push(WeighCall::new(&problem, &exponents));
        }
    }
    // Sizes: the lengths are right for them as far as they go.
    let sizes: Vec<u32> = (0..=18).chain([255, 256, 65_537, u32::MAX]).collect();
    for &m in &sizes {
        for &n in &sizes {
            let (rows, columns) = (m.min(20) as usize, n.min(20) as usize);
            calls.push(WeighCall {
                m,
                n,
                matrix: vec![1; rows * columns],
                moduli: vec![0; rows],
                exponents: vec![2; columns],
                weights: WEIGHTS_SIZE,
            });
        }
    }
    for m in 1..=MOST_ROWS {
        for n in 1..=MOST_QUANTITIES {
            let matrix = (0..m * n).map(|_| random.between(-1000, 1000)).collect();
            let mut problem = Problem::new(m, n, matrix, vec![0; m]);
            super::add_moduli(&mut problem, random);
            let exponents: Vec<i32> = (0..n).map(|_| random.between(-99, 99)).collect();
            let good = WeighCall::new(&problem, &exponents);
            lengths(&mut calls, &good);
            places(&mut calls, &good, random);
        }
    }
    calls
}

/// Input lengths around the right ones, also with an output that is too short; output
/// lengths around the least one.
fn lengths(calls: &mut Vec<WeighCall>, good: &WeighCall) {
    for input in 0..3 {
        for change in [-2, -1, 1, 2] {
            let mut call = good.clone();
            let list = match input {
                0 => &mut call.matrix,
                1 => &mut call.moduli,
                _ => &mut call.exponents,
            };
            list.resize(list.len().saturating_add_signed(change), 0);
            calls.push(call.clone());
            call.weights = WEIGHTS_SIZE - 1;
            calls.push(call);
        }
    }
    for weights in 0..WEIGHTS_SIZE + 3 {
        calls.push(WeighCall {
            weights,
            ..good.clone()
        });
    }
}

/// 4 at each row, 5 at each entry, 6 at each exponent.
fn places(calls: &mut Vec<WeighCall>, good: &WeighCall, random: &mut Random) {
    let (m, n) = (good.moduli.len(), good.exponents.len());
    for row in 0..m {
        let mut call = good.clone();
        if random.one_in(2) {
            call.moduli[row + random.below(m - row)] = 1001;
            call.matrix[random.below(m * n)] = 1001;
        }
        call.moduli[row] = random.pick(&NO_MODULI);
        calls.push(call);
    }
    for entry in 0..m * n {
        let mut call = good.clone();
        if random.one_in(2) {
            call.matrix[entry + random.below(m * n - entry)] = -1001;
            call.exponents[random.below(n)] = 10_001;
        }
        call.matrix[entry] = random.pick(&NO_ENTRIES);
        calls.push(call);
    }
    for exponent in 0..n {
        let mut call = good.clone();
        if random.one_in(2) {
            call.exponents[exponent + random.below(n - exponent)] = -10_001;
        }
        call.exponents[exponent] = random.pick(&NO_EXPONENTS);
        calls.push(call);
    }
}
