//! Checks an answer of the call `gauge` by itself: from a V that was checked by
//! the definitions, and without an operation of f64.

use super::require;
use crate::model::Problem;
use crate::rounding::{parts, product, quotient};

/// What the answer is for a problem that is not refused up to 7: number, place
/// and the bits of the value.
pub type Due = (u32, u32, u64);

/// The exponent of a power of two, 2^-1074 to 2^1023.
pub fn exponent_of_two(x: f64) -> Option<i128> {
    let (whole, exponent) = parts(x);
    let zeros = whole.trailing_zeros();
    (whole >> zeros == 1).then_some(i128::from(exponent) + i128::from(zeros))
}

/// The bits of 2^exponent, if there is such a double.
pub fn bits_of_two(exponent: i128) -> Option<u64> {
    match exponent {
        -1074..=-1023 => Some(1 << (exponent + 1074)),
        -1022..=1023 => Some(((exponent + 1023) as u64) << 52),
        _ => None,
    }
}

/// The running values in order, by whole numbers, up to one that is zero or
/// infinite; the last is the value.
fn running_values(readings: &[f64], exponents: &[i128]) -> Vec<f64> {
    let mut values = vec![1.0f64];
    for (&reading, &exponent) in readings.iter().zip(exponents) {
        for _ in 0..exponent.abs() {
            let last = values[values.len() - 1];
            if last.to_bits() == 0 || last.to_bits() == f64::INFINITY.to_bits() {
                return values;
            }
            values.push(match exponent > 0 {
                true => product(last, reading),
                false => quotient(last, reading),
            });
        }
    }
    values
}

/// Where each reading is a power of two, the sums of whole exponents are the
/// running values: the bits of the last, or none once one of them is no double.
/// (One half of the least subnormal is a tie and goes to the even zero.)
fn of_powers(readings: &[f64], exponents: &[i128]) -> Option<Option<u64>> {
    let powers: Option<Vec<i128>> = readings.iter().map(|&x| exponent_of_two(x)).collect();
    let mut sum = 0;
    for (power, exponent) in powers?.iter().zip(exponents) {
        for _ in 0..exponent.abs() {
            sum += power * exponent.signum();
            if bits_of_two(sum).is_none() {
                return Some(None);
            }
        }
    }
    Some(bits_of_two(sum))
}

/// The value's bits, or 13; where all readings are powers of two both ways of
/// coming to it are held to each other.
fn value(readings: &[f64], exponents: &[i128]) -> Result<Option<u64>, String> {
    let values = running_values(readings, exponents);
    let last = values[values.len() - 1].to_bits();
    let value = Some(last).filter(|&bits| bits != 0 && bits != f64::INFINITY.to_bits());
    if let Some(by_powers) = of_powers(readings, exponents) {
        require(by_powers == value, "powers of two are taken exactly")?;
    }
    Ok(value)
}

/// The answer due: 11, 24, 12, 13 or the value. V row after row.
pub fn due(
    problem: &Problem,
    rank: usize,
    v: &[i32],
    readings: &[f64],
    group: u32,
) -> Result<Due, String> {
    require(readings.len() == problem.n, "there are n readings")?;
    // Above zero and finite are exactly the bits from 1 up to infinity's.
    let good = |x: &f64| (1..f64::INFINITY.to_bits()).contains(&x.to_bits());
    if let Some(place) = readings.iter().position(|x| !good(x)) {
        return Ok((11, place as u32, readings[place].to_bits()));
    }
    let size = problem.columns();
    let Some(column) = (rank..size).nth(group as usize) else {
        return Ok((24, group, 0));
    };
    let exponents: Vec<i128> = (problem.s()..size)
        .map(|row| i128::from(v[row * size + column]))
        .collect();
    if exponents.iter().any(|x| !(-64..=64).contains(x)) {
        return Ok((12, group, 0));
    }
    Ok(match value(readings, &exponents)? {
        Some(bits) => (0, 0, bits),
        None => (13, group, 0),
    })
}
