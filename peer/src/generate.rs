//! Inputs for the comparisons: random problems and formulas, random faults, and
//! every refusal with every place.

pub mod gauges;
pub mod weights;

use crate::boundary;
use crate::comparing::Call;
use crate::model::calls::{build_numbers, to_bytes, Built};
use crate::model::lines::Input;
use crate::model::{Problem, MOST_QUANTITIES, MOST_ROWS, MOST_TERMS};
use crate::problems;
use crate::random::Random;

/// A problem within the limits of R2.1 to R2.3, of any shape and kind.
pub fn problem(random: &mut Random) -> Problem {
    if random.one_in(25) {
        return near_m(random);
    }
    let m = 1 + random.below(MOST_ROWS);
    let n = 1 + random.below(MOST_QUANTITIES);
    let kind = random.below(10);
    let mut matrix = Vec::new();
    for i in 0..m {
        for j in 0..n {
            matrix.push(match kind {
                0 => random.between(-1, 1),
                1 => random.between(-3, 3),
                2 => random.between(-9, 9),
                3 => random.between(-100, 100),
                4 => random.between(-1000, 1000),
                // Sizes from 1 to 1000 in one problem.
                5 => {
                    let most = random.pick(&[0, 1, 10, 100, 1000]);
                    random.between(-most, most)
                }
                // At and near the limits.
                6 => random.pick(&[-1000, -999, -1, 0, 1, 999, 1000]),
                // Chains as in problem 9.
                7 if j == i => random.between(-1000, 1000),
                7 if j == i + 1 => random.pick(&[-1, -1, 1, 2]),
                7 => 0,
                // Few entries.
                _ if random.below(m.max(3)) > 0 => 0,
                8 => random.between(-5, 5),
                _ => random.between(-1000, 1000),
            });
        }
    }
    let mut problem = Problem::new(m, n, matrix, vec![0; m]);
    if random.one_in(3) {
        degrade(&mut problem, random);
    }
    add_moduli(&mut problem, random);
    problem
}

/// Zero, equal and dependent rows and columns.
fn degrade(problem: &mut Problem, random: &mut Random) {
    let (m, n) = (problem.m, problem.n);
    for _ in 0..1 + random.below(3) {
        let (i, other, third) = (random.below(m), random.below(m), random.below(m));
        let (column, from) = (random.below(n), random.below(n));
        let (x, y) = (random.between(-3, 3), random.between(-2, 2));
        match random.below(5) {
            0 => problem.matrix[i * n..(i + 1) * n].fill(0),
            1 => (0..m).for_each(|row| problem.matrix[row * n + column] = 0),
            2 => (0..m).for_each(|row| {
                problem.matrix[row * n + column] = problem.matrix[row * n + from];
            }),
            _ => (0..n).for_each(|j| {
                let sum = x * problem.matrix[other * n + j] + y * problem.matrix[third * n + j];
                problem.matrix[i * n + j] = sum.clamp(-1000, 1000);
            }),
        }
    }
}

/// No moduli, some, or one in each row; 1 and 1000 among them.
fn add_moduli(problem: &mut Problem, random: &mut Random) {
    let share = random.pick(&[0, 0, 1, 2, 4]);
    for modulus in &mut problem.moduli {
        if random.below(4) < share {
            *modulus = match random.below(6) {
                0 => 1,
                1 => random.pick(&[2, 3, 999, 1000]),
                2 => random.between(1, 1000),
                _ => random.between(1, 12),
            };
        }
    }
}

/// A problem whose run comes to M or just past it, as it stands in the table or
/// with a zero row or column put into it or an entry changed by one.
fn near_m(random: &mut Random) -> Problem {
    let table = boundary::table();
    let mut problem = table[random.below(table.len())].problem.clone();
    match random.below(5) {
        0 => {
            let n = problem.n;
            let row = random.below(problem.m + 1);
            problem
                .matrix
                .splice(row * n..row * n, std::iter::repeat_n(0, n));
            problem.moduli.insert(row, 0);
            problem.m += 1;
        }
        1 => {
            let column = random.below(problem.n + 1);
            for row in (0..problem.m).rev() {
                problem.matrix.insert(row * problem.n + column, 0);
            }
            problem.n += 1;
        }
        2 => {
            let i = random.below(problem.matrix.len());
            let entry = &mut problem.matrix[i];
            *entry = (*entry + random.pick(&[-1, 1])).clamp(-1000, 1000);
        }
        _ => {}
    }
    problem
}

/// Exponents of a term that is free of dimension: the groups to powers that make
/// small exponents, or exponents as large as they may be.
fn free_term(problem: &Problem, built: &Built, random: &mut Random) -> Vec<i32> {
    let (s, n) = (problem.s(), problem.n);
    let mut v = vec![0i128; n];
    let kind = random.below(4);
    for column in (built.rank..problem.columns()).rev() {
        let group: Vec<i128> = built.v[s..].iter().map(|row| row[column]).collect();
        let pivot = (0..n).rev().find(|&i| group[i] != 0).expect("a group");
        let power = match kind {
            0 => i128::from(random.between(-1, 1)),
            1 => i128::from(random.between(-20, 20)),
            // The exponent in the pivot row goes near 10,000 or -10,000.
            _ => (i128::from(random.pick(&[-10_000, 10_000])) - v[pivot]) / group[pivot],
        };
        let next: Vec<i128> = v.iter().zip(&group).map(|(x, g)| x + power * g).collect();
        if next.iter().all(|x| x.abs() <= 10_000) {
            v = next;
        }
    }
    v.iter().map(|&x| x as i32).collect()
}

/// Any exponents in range.
fn any_term(n: usize, random: &mut Random) -> Vec<i32> {
    let most = random.pick(&[0, 1, 9, 10_000]);
    (0..n).map(|_| random.between(-most, most)).collect()
}

fn coefficient(random: &mut Random) -> i32 {
    match random.below(4) {
        0 => random.pick(&[i32::MIN, i32::MAX, 0, 1, -1]),
        _ => random.bits() as i32,
    }
}

/// A problem with a formula; most of the terms are free.
pub fn input(random: &mut Random) -> Input {
    let problem = problem(random);
    let terms = match random.below(8) {
        0 => 0,
        1 => MOST_TERMS,
        2 => random.below(MOST_TERMS + 1),
        _ => 1 + random.below(4),
    };
    let built = build_numbers(&problem).ok();
    let bad = random.pick(&[0, 0, 0, 1, 10]);
    let mut coefficients = Vec::new();
    let mut exponents = Vec::new();
    for _ in 0..terms {
        coefficients.push(coefficient(random));
        exponents.extend(match &built {
            Some(built) if random.below(20) >= bad => free_term(&problem, built, random),
            _ => any_term(problem.n, random),
        });
    }
    Input {
        problem,
        coefficients,
        exponents,
    }
}

/// Sets a number of a byte slice to a value from `values`.
fn spoil(bytes: &mut [u8], values: &[i32], random: &mut Random) {
    let count = bytes.len() / 4;
    if count > 0 {
        let place = 4 * random.below(count);
        let value = random.pick(values);
        bytes[place..place + 4].copy_from_slice(&value.to_be_bytes());
    }
}

/// Gives a byte slice another length.
fn resize(bytes: &mut Vec<u8>, random: &mut Random) {
    let length = match random.below(6) {
        0 => 0,
        1 => bytes.len() + 4,
        2 => bytes.len().saturating_sub(4),
        3 => bytes.len() + 1 + random.below(3),
        4 => bytes.len().saturating_sub(1 + random.below(3)),
        _ => random.below(6000),
    };
    bytes.resize(length, 0);
}

/// Gives an output another length, long enough or not.
fn other_length(length: usize, random: &mut Random) -> usize {
    match random.below(7) {
        0 => 0,
        1 => length - 4,
        2 => length - 1 - random.below(3),
        3 => length + 1 + random.below(3),
        4 => random.below(length),
        5 => length + 4,
        _ => length + 4 * random.below(100),
    }
}

/// One fault, or a longer output, which is none.
fn fault(call: &mut Call, random: &mut Random) {
    const LARGE: u32 = u32::MAX;
    match random.below(19) {
        0 => call.m = random.pick(&[0, 9, 17, 256, LARGE]),
        1 => call.n = random.pick(&[0, 17, 18, 272, LARGE]),
        2 => resize(&mut call.matrix, random),
        3 => resize(&mut call.moduli, random),
        4 => resize(&mut call.coefficients, random),
        5 => resize(&mut call.exponents, random),
        6 => {
            let terms = MOST_TERMS + 1 + random.below(3);
            call.coefficients.resize(4 * terms, 1);
            call.exponents
                .resize(4 * terms * call.n.min(16) as usize, 0);
        }
        7 => call.h = other_length(call.h.max(4), random),
        8 => call.v = other_length(call.v.max(4), random),
        9 => call.w = other_length(call.w.max(4), random),
        10 => call.kept = other_length(call.kept.max(4), random),
        11 => call.translated = other_length(call.translated.max(4), random),
        12 | 13 => spoil(
            &mut call.moduli,
            &[-1, 1001, i32::MIN, i32::MAX, -1000, 65536],
            random,
        ),
        14 | 15 => spoil(
            &mut call.matrix,
            &[1001, -1001, i32::MIN, i32::MAX, 65536],
            random,
        ),
        16 | 17 => spoil(
            &mut call.exponents,
            &[10_001, -10_001, i32::MIN, i32::MAX, 65536],
            random,
        ),
        _ => spoil(&mut call.exponents, &[1, -1, 10_000, -10_000], random),
    }
}

/// A random call: two in three well made, the others with one to four faults.
pub fn call(random: &mut Random) -> Call {
    let mut call = Call::new(&input(random));
    if random.one_in(3) {
        for _ in 0..1 + random.below(4) {
            fault(&mut call, random);
        }
    }
    call
}

/// An accepted problem with small entries and m rows and n quantities.
fn accepted(m: usize, n: usize, random: &mut Random) -> Problem {
    loop {
        let matrix = (0..m * n).map(|_| random.between(-1, 1)).collect();
        let problem = Problem::new(m, n, matrix, vec![0; m]);
        if build_numbers(&problem).is_ok() {
            return problem;
        }
    }
}

/// A formula with so many terms, all exponents 0.
fn zero_terms(problem: &Problem, terms: usize) -> Input {
    Input {
        problem: problem.clone(),
        coefficients: (0..terms as i32).collect(),
        exponents: vec![0; terms * problem.n],
    }
}

/// The known problems and the tables of `boundary`.
pub fn known_and_near_m() -> Vec<Call> {
    let mut calls = Vec::new();
    for problem in problems::known() {
        for terms in [0, 1, MOST_TERMS] {
            calls.push(Call::new(&zero_terms(&problem, terms)));
        }
    }
    calls.push(Call::new(&Input {
        problem: problems::five(),
        coefficients: vec![3, 4],
        exponents: vec![2, 2, 1, 1, 0, 0],
    }));
    for row in boundary::table() {
        calls.push(Call::new(&zero_terms(&row.problem, 1)));
    }
    for row in boundary::stages() {
        calls.push(Call::new(&zero_terms(&row.problem, 1)));
    }
    calls
}

/// The calls that are made in every run: the known problems, the tables of
/// `boundary`, all sizes, all lengths, and every refusal with every place.
pub fn systematic(random: &mut Random) -> Vec<Call> {
    let mut calls = known_and_near_m();
    sizes_and_lengths(&mut calls, random);
    places(&mut calls, random);
    calls
}

/// Refusals 1, 2 and 3.
fn sizes_and_lengths(calls: &mut Vec<Call>, random: &mut Random) {
    // Sizes: the lengths are right for them as far as they go.
    let sizes: Vec<u32> = (0..=18).chain([255, 256, 65_537, u32::MAX]).collect();
    for &m in &sizes {
        for &n in &sizes {
            let (rows, columns) = (m.min(20) as usize, n.min(20) as usize);
            let mut call = Call::new(&zero_terms(&problems::one(), 2));
            call.m = m;
            call.n = n;
            call.matrix = to_bytes(&vec![1; rows * columns]);
            call.moduli = to_bytes(&vec![0; rows]);
            call.exponents = to_bytes(&vec![0; 2 * columns]);
            calls.push(call);
        }
    }
    for (m, n) in [(1, 1), (2, 3), (8, 16)] {
        let base = Call::new(&zero_terms(&accepted(m, n, random), 3));
        // Input lengths around the right one.
        for input in 0..4 {
            let right = [
                &base.matrix,
                &base.moduli,
                &base.coefficients,
                &base.exponents,
            ][input]
                .len();
            for length in (0..right.min(9)).chain(right.saturating_sub(9)..right + 10) {
                let mut call = base.clone();
                let bytes = match input {
                    0 => &mut call.matrix,
                    1 => &mut call.moduli,
                    2 => &mut call.coefficients,
                    _ => &mut call.exponents,
                };
                bytes.resize(length, 0);
                calls.push(call);
            }
        }
        // Output lengths around the least one.
        for output in 0..5 {
            let least = [base.h, base.v, base.w, base.kept, base.translated][output];
            for length in (0..9).chain(least - 9..least + 10) {
                let mut call = base.clone();
                *match output {
                    0 => &mut call.h,
                    1 => &mut call.v,
                    2 => &mut call.w,
                    3 => &mut call.kept,
                    _ => &mut call.translated,
                } = length;
                calls.push(call);
            }
        }
        // The number of terms.
        let problem = accepted(m, n, random);
        for terms in 0..=MOST_TERMS + 3 {
            calls.push(Call::new(&zero_terms(&problem, terms)));
        }
    }
}

/// Refusals 4, 5, 6 and 8 at every place; in every other case a later fault
/// comes with it, which must not show.
fn places(calls: &mut Vec<Call>, random: &mut Random) {
    // 4 at each row, 5 at each entry.
    for m in 1..=MOST_ROWS {
        for n in 1..=MOST_QUANTITIES {
            let good = accepted(m, n, random);
            for row in 0..m {
                let mut input = zero_terms(&good, 1);
                if random.one_in(2) {
                    input.problem.moduli[row + random.below(m - row)] = 1001;
                    input.problem.matrix[random.below(m * n)] = 1001;
                }
                input.problem.moduli[row] = random.pick(&[-1, 1001, i32::MIN, i32::MAX]);
                calls.push(Call::new(&input));
            }
            for entry in 0..m * n {
                let mut input = zero_terms(&good, 1);
                if random.one_in(2) {
                    input.problem.matrix[entry + random.below(m * n - entry)] = -1001;
                    input.exponents[random.below(n)] = 10_001;
                }
                input.problem.matrix[entry] = random.pick(&[-1001, 1001, i32::MIN, i32::MAX]);
                calls.push(Call::new(&input));
            }
        }
    }
    // 6 at each exponent of 64 terms, 8 at each term.
    for n in 1..=MOST_QUANTITIES {
        let m = 1 + random.below(MOST_ROWS);
        let mut weighty = accepted(m, n, random);
        weighty.matrix[0] = 1;
        for place in 0..MOST_TERMS * n {
            let mut input = zero_terms(&weighty, MOST_TERMS);
            if random.one_in(2) {
                let later = place + random.below(MOST_TERMS * n - place);
                input.exponents[later] = -10_001;
                // Refused 8, if it were not for 6.
                input.exponents[0] = 1;
            }
            input.exponents[place] = random.pick(&[-10_001, 10_001, i32::MIN, i32::MAX]);
            calls.push(Call::new(&input));
        }
        for term in 0..MOST_TERMS {
            let mut input = zero_terms(&weighty, MOST_TERMS);
            if random.one_in(2) {
                let later = term + random.below(MOST_TERMS - term);
                input.exponents[later * n] = -1;
            }
            input.exponents[term * n] = 1;
            calls.push(Call::new(&input));
        }
    }
    // 7 comes before 8, and after 6.
    for row in boundary::stages() {
        let mut input = zero_terms(&row.problem, 1);
        input.exponents[0] = 1;
        calls.push(Call::new(&input));
        input.exponents[0] = 10_001;
        calls.push(Call::new(&input));
    }
}
