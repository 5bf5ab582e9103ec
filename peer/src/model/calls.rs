//! The build, the weights and the translation as calls on lent slices, with
//! the checks in the order of R3.1.
//!
//! Each call has a form on number slices; the build and the translation also
//! have one on byte slices, each number four bytes, big-endian two's complement.

use super::steps::{run, Until};
use super::{refused, Matrix, Problem, Refusal, M, MOST_QUANTITIES, MOST_ROWS, MOST_TERMS};

/// The least sizes of the outputs.
pub const H_SIZE: usize = 192;
pub const V_SIZE: usize = 576;
pub const W_SIZE: usize = 576;
pub const WEIGHTS_SIZE: usize = 8;
pub const KEPT_SIZE: usize = 64;
pub const TRANSLATED_SIZE: usize = 1024;

/// What a build returns; number 0 is success.
#[repr(C)]
#[derive(Clone, Copy, Debug, PartialEq, Eq)]
pub struct BuildAnswer {
    pub number: u32,
    pub place: u32,
    pub rank: u32,
    pub moduli: u32,
    pub steps: u64,
}

/// What a translation returns; number 0 is success.
#[repr(C)]
#[derive(Clone, Copy, Debug, PartialEq, Eq)]
pub struct TranslateAnswer {
    pub number: u32,
    pub place: u32,
    pub d: u32,
}

/// What the weights of a monomial return; number 0 is success.
#[repr(C)]
#[derive(Clone, Copy, Debug, PartialEq, Eq)]
pub struct WeighAnswer {
    pub number: u32,
    pub place: u32,
}

/// A build that was not refused.
#[derive(Clone, Debug)]
pub struct Built {
    pub rank: usize,
    pub steps: u64,
    /// H with its zero columns, m by N.
    pub h: Matrix,
    pub v: Matrix,
    pub w: Matrix,
}

/// A translation that was not refused: for each term its d exponents.
#[derive(Clone, Debug)]
pub struct Translated {
    pub built: Built,
    pub d: usize,
    pub exponents: Vec<Vec<i128>>,
}

// The checks, in the order of their numbers.

/// 1: m or n is out of range.
pub fn check_sizes(m: u32, n: u32) -> Result<(usize, usize), Refusal> {
    let (m, n) = (m as usize, n as usize);
    if (1..=MOST_ROWS).contains(&m) && (1..=MOST_QUANTITIES).contains(&n) {
        Ok((m, n))
    } else {
        Err(refused(1, 0))
    }
}

/// The count of numbers in a lent slice; none for a byte length that is no
/// multiple of four.
type Count = Option<usize>;

fn byte_count(bytes: &[u8]) -> Count {
    let fours = bytes.chunks_exact(4);
    fours.remainder().is_empty().then_some(bytes.len() / 4)
}

/// 2: a lent input has the wrong length. Each input has its count and the right
/// one.
pub(super) fn check_inputs(inputs: &[(Count, usize)]) -> Result<(), Refusal> {
    if inputs.iter().all(|&(count, right)| count == Some(right)) {
        Ok(())
    } else {
        Err(refused(2, 0))
    }
}

/// 2 for a formula: coefficients one and exponents n per term, at most 64
/// terms. The number of terms is the number of coefficients.
fn check_formula(n: usize, coefficients: Count, exponents: Count) -> Result<(), Refusal> {
    match coefficients {
        Some(terms) if terms <= MOST_TERMS => check_inputs(&[(exponents, n * terms)]),
        _ => Err(refused(2, 0)),
    }
}

/// 3: an output has too little room. Each output has its count and the least
/// count of R2.9.
fn check_outputs(outputs: &[(Count, usize)]) -> Result<(), Refusal> {
    let long_enough = |&(count, size): &(Count, usize)| count.is_some_and(|count| count >= size);
    if outputs.iter().all(long_enough) {
        Ok(())
    } else {
        Err(refused(3, 0))
    }
}

/// The first number that is out of range is refused as `number` at its place.
fn check_range(number: u32, values: &[i32], least: i32, most: i32) -> Result<(), Refusal> {
    match values
        .iter()
        .position(|value| !(least..=most).contains(value))
    {
        Some(place) => Err(refused(number, place)),
        None => Ok(()),
    }
}

/// 4 and 5: moduli, then entries.
pub fn check_numbers(problem: &Problem) -> Result<(), Refusal> {
    check_range(4, &problem.moduli, 0, 1000)?;
    check_range(5, &problem.matrix, -1000, 1000)
}

/// 6: exponents.
pub fn check_exponents(exponents: &[i32]) -> Result<(), Refusal> {
    check_range(6, exponents, -10_000, 10_000)
}

/// 7: the steps.
pub fn checked_build(problem: &Problem) -> Result<Built, Refusal> {
    let run = run(problem, Until::BeyondM);
    match run.rank {
        Some(rank) => Ok(Built {
            rank,
            steps: run.work.steps,
            h: run.work.t,
            v: run.work.v,
            w: run.work.w,
        }),
        None => Err(refused(7, 0)),
    }
}

/// 8 and 9, term after term; in one term 8 comes before 9.
fn checked_terms(
    problem: &Problem,
    built: &Built,
    exponents: &[i32],
) -> Result<Vec<Vec<i128>>, Refusal> {
    let mut translated = Vec::new();
    for (term, v) in exponents.chunks_exact(problem.n).enumerate() {
        if !problem.is_free(v) {
            return Err(refused(8, term));
        }
        let exponents = problem.translated(&built.w, built.rank, v);
        if exponents.iter().any(|exponent| exponent.abs() > M) {
            return Err(refused(9, term));
        }
        translated.push(exponents);
    }
    Ok(translated)
}

/// The build after sizes and lengths: 4, 5 and 7.
pub fn build_numbers(problem: &Problem) -> Result<Built, Refusal> {
    check_numbers(problem)?;
    checked_build(problem)
}

/// The translation after sizes and lengths: 4 to 9.
pub fn translate_numbers(problem: &Problem, exponents: &[i32]) -> Result<Translated, Refusal> {
    check_numbers(problem)?;
    check_exponents(exponents)?;
    let built = checked_build(problem)?;
    let exponents = checked_terms(problem, &built, exponents)?;
    Ok(Translated {
        d: problem.columns() - built.rank,
        built,
        exponents,
    })
}

// Filling the lent outputs.

/// A value that is within M as the number that it is given out as.
pub fn narrow(value: i128) -> i32 {
    i32::try_from(value).expect("within M")
}

/// Row after row, without gaps.
pub fn flat(matrix: &Matrix) -> Vec<i32> {
    matrix
        .iter()
        .flatten()
        .map(|&value| narrow(value))
        .collect()
}

fn fill(output: &mut [i32], numbers: &[i32]) {
    output[..numbers.len()].copy_from_slice(numbers);
}

fn fill_bytes(output: &mut [u8], numbers: &[i32]) {
    let bytes = to_bytes(numbers);
    output[..bytes.len()].copy_from_slice(&bytes);
}

/// Numbers as four bytes each, big-endian two's complement.
pub fn to_bytes(numbers: &[i32]) -> Vec<u8> {
    numbers.iter().flat_map(|x| x.to_be_bytes()).collect()
}

/// The numbers of a byte slice whose length is a multiple of four.
pub fn from_bytes(bytes: &[u8]) -> Vec<i32> {
    bytes
        .chunks_exact(4)
        .map(|b| i32::from_be_bytes([b[0], b[1], b[2], b[3]]))
        .collect()
}

/// What a build returns: r, s and the count of steps; on a refusal zero in every
/// other field.
fn build_answer(result: &Result<(Problem, Built), Refusal>) -> BuildAnswer {
    match result {
        Ok((problem, built)) => BuildAnswer {
            number: 0,
            place: 0,
            rank: built.rank as u32,
            moduli: problem.s() as u32,
            steps: built.steps,
        },
        Err(refusal) => BuildAnswer {
            number: refusal.number,
            place: refusal.place,
            rank: 0,
            moduli: 0,
            steps: 0,
        },
    }
}

/// What a translation returns: d.
fn translate_answer(result: &Result<Translated, Refusal>) -> TranslateAnswer {
    match result {
        Ok(translated) => TranslateAnswer {
            number: 0,
            place: 0,
            d: translated.d as u32,
        },
        Err(refusal) => TranslateAnswer {
            number: refusal.number,
            place: refusal.place,
            d: 0,
        },
    }
}

// The calls on number slices.

/// The build: 1 to 5 and 7.
pub fn build(
    m: u32,
    n: u32,
    matrix: &[i32],
    moduli: &[i32],
    h: &mut [i32],
    v: &mut [i32],
    w: &mut [i32],
) -> BuildAnswer {
    let result = check_sizes(m, n).and_then(|(m, n)| {
        check_inputs(&[(Some(matrix.len()), m * n), (Some(moduli.len()), m)])?;
        check_outputs(&[
            (Some(h.len()), H_SIZE),
            (Some(v.len()), V_SIZE),
            (Some(w.len()), W_SIZE),
        ])?;
        let problem = Problem::new(m, n, matrix.to_vec(), moduli.to_vec());
        let built = build_numbers(&problem)?;
        Ok((problem, built))
    });
    if let Ok((_, built)) = &result {
        fill(h, &flat(&built.h));
        fill(v, &flat(&built.v));
        fill(w, &flat(&built.w));
    }
    build_answer(&result)
}

/// The weights of a monomial with the given exponents: 1 to 6.
pub fn weigh(
    m: u32,
    n: u32,
    matrix: &[i32],
    moduli: &[i32],
    exponents: &[i32],
    weights: &mut [i32],
) -> WeighAnswer {
    let result = check_sizes(m, n).and_then(|(m, n)| {
        check_inputs(&[
            (Some(matrix.len()), m * n),
            (Some(moduli.len()), m),
            (Some(exponents.len()), n),
        ])?;
        check_outputs(&[(Some(weights.len()), WEIGHTS_SIZE)])?;
        let problem = Problem::new(m, n, matrix.to_vec(), moduli.to_vec());
        check_numbers(&problem)?;
        check_exponents(exponents)?;
        Ok((0..m)
            .map(|i| narrow(problem.weight(i, exponents)))
            .collect::<Vec<i32>>())
    });
    match result {
        Ok(numbers) => {
            fill(weights, &numbers);
            WeighAnswer {
                number: 0,
                place: 0,
            }
        }
        Err(refusal) => WeighAnswer {
            number: refusal.number,
            place: refusal.place,
        },
    }
}

/// The translation of a formula: 1 to 9.
#[allow(clippy::too_many_arguments)]
pub fn translate(
    m: u32,
    n: u32,
    matrix: &[i32],
    moduli: &[i32],
    coefficients: &[i32],
    exponents: &[i32],
    kept: &mut [i32],
    translated: &mut [i32],
) -> TranslateAnswer {
    let result = check_sizes(m, n).and_then(|(m, n)| {
        check_inputs(&[(Some(matrix.len()), m * n), (Some(moduli.len()), m)])?;
        check_formula(n, Some(coefficients.len()), Some(exponents.len()))?;
        check_outputs(&[
            (Some(kept.len()), KEPT_SIZE),
            (Some(translated.len()), TRANSLATED_SIZE),
        ])?;
        let problem = Problem::new(m, n, matrix.to_vec(), moduli.to_vec());
        translate_numbers(&problem, exponents)
    });
    if let Ok(formula) = &result {
        fill(kept, coefficients);
        fill(translated, &flat(&formula.exponents));
    }
    translate_answer(&result)
}

// The calls on byte slices.

/// The build on byte slices.
#[allow(clippy::too_many_arguments)]
pub fn build_bytes(
    m: u32,
    n: u32,
    matrix: &[u8],
    moduli: &[u8],
    h: &mut [u8],
    v: &mut [u8],
    w: &mut [u8],
) -> BuildAnswer {
    let result = check_sizes(m, n).and_then(|(m, n)| {
        check_inputs(&[(byte_count(matrix), m * n), (byte_count(moduli), m)])?;
        check_outputs(&[
            (byte_count(h), H_SIZE),
            (byte_count(v), V_SIZE),
            (byte_count(w), W_SIZE),
        ])?;
        let problem = Problem::new(m, n, from_bytes(matrix), from_bytes(moduli));
        let built = build_numbers(&problem)?;
        Ok((problem, built))
    });
    if let Ok((_, built)) = &result {
        fill_bytes(h, &flat(&built.h));
        fill_bytes(v, &flat(&built.v));
        fill_bytes(w, &flat(&built.w));
    }
    build_answer(&result)
}

/// The translation on byte slices.
#[allow(clippy::too_many_arguments)]
pub fn translate_bytes(
    m: u32,
    n: u32,
    matrix: &[u8],
    moduli: &[u8],
    coefficients: &[u8],
    exponents: &[u8],
    kept: &mut [u8],
    translated: &mut [u8],
) -> TranslateAnswer {
    let result = check_sizes(m, n).and_then(|(m, n)| {
        check_inputs(&[(byte_count(matrix), m * n), (byte_count(moduli), m)])?;
        check_formula(n, byte_count(coefficients), byte_count(exponents))?;
        check_outputs(&[
            (byte_count(kept), KEPT_SIZE),
            (byte_count(translated), TRANSLATED_SIZE),
        ])?;
        let problem = Problem::new(m, n, from_bytes(matrix), from_bytes(moduli));
        translate_numbers(&problem, &from_bytes(exponents))
    });
    if let Ok(formula) = &result {
        fill_bytes(kept, &from_bytes(coefficients));
        fill_bytes(translated, &flat(&formula.exponents));
    }
    translate_answer(&result)
}
