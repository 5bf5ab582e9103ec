//! Section 22 of the rules (order 2): the value of one group from a set of
//! readings, with the checks in their order: 1, 2, 4, 5, 7, 11, 24, 12 and 13.

use super::calls::{build_numbers, check_inputs, check_sizes, Built};
use super::{refused, Problem, Refusal};
use std::fmt;

/// 12: the largest exponent that is taken, either way
pub const MOST_EXPONENT: i128 = 64;

/// What the call returns; number 0 is a value. For refusal 11 `value` is the
/// reading at fault, for every other refusal 0.0.
#[repr(C)]
#[derive(Clone, Copy)]
pub struct GaugeAnswer {
    pub number: u32,
    pub place: u32,
    pub value: f64,
}

/// Equal bit for bit: a NaN is not equal to itself as an f64, and the two zeros
/// are equal to each other.
impl PartialEq for GaugeAnswer {
    fn eq(&self, other: &GaugeAnswer) -> bool {
        (self.number, self.place) == (other.number, other.place)
            && self.value.to_bits() == other.value.to_bits()
    }
}

impl Eq for GaugeAnswer {}

/// With the bits, which a decimal does not tell of a NaN.
impl fmt::Debug for GaugeAnswer {
    fn fmt(&self, f: &mut fmt::Formatter) -> fmt::Result {
        let (number, place, value) = (self.number, self.place, self.value);
        let bits = value.to_bits();
        write!(
            f,
            "number {number} place {place} bits {bits:016x} ({value:e})"
        )
    }
}

/// A value, or a refusal with the reading that it carries.
type Answer = Result<f64, (Refusal, f64)>;

/// A refusal other than 11, which carries 0.0.
fn without_reading(refusal: Refusal) -> (Refusal, f64) {
    (refusal, 0.0)
}

/// Not finite, or not above zero; a NaN is neither.
pub fn is_bad(reading: f64) -> bool {
    !(reading.is_finite() && reading > 0.0)
}

/// 11: the first bad reading, which is carried.
fn check_readings(readings: &[f64]) -> Result<(), (Refusal, f64)> {
    match readings.iter().position(|&reading| is_bad(reading)) {
        Some(place) => Err((refused(11, place), readings[place])),
        None => Ok(()),
    }
}

/// The exponents of a group, from its column of V in the quantity rows. None where
/// there is no such group.
pub fn exponents(problem: &Problem, built: &Built, group: usize) -> Option<Vec<i128>> {
    let d = problem.columns() - built.rank;
    let of_quantities = &built.v[problem.s()..];
    (group < d).then(|| {
        let column = built.rank + group;
        of_quantities.iter().map(|row| row[column]).collect()
    })
}

/// From 1.0, quantity by quantity: |e| products with the reading where its exponent
/// e is positive, |e| quotients where it is negative. None as soon as a running value
/// is zero, infinite or a NaN.
pub fn running_value(readings: &[f64], exponents: &[i128]) -> Option<f64> {
    let mut running = 1.0;
    for (&reading, &exponent) in readings.iter().zip(exponents) {
        for _ in 0..exponent.unsigned_abs() {
            if exponent > 0 {
                running *= reading;
            } else {
                running /= reading;
            }
            if running == 0.0 || !running.is_finite() {
                return None;
            }
        }
    }
    Some(running)
}

/// After sizes and lengths: 4, 5, 7, 11, 24, 12 and 13. The last three have the
/// group for their place.
fn of_numbers(problem: &Problem, readings: &[f64], group: usize) -> Answer {
    let built = build_numbers(problem).map_err(without_reading)?;
    check_readings(readings)?;
    let of_group = |number| without_reading(refused(number, group));
    let exponents = exponents(problem, &built, group).ok_or(of_group(24))?;
    if exponents.iter().any(|x| x.abs() > MOST_EXPONENT) {
        return Err(of_group(12));
    }
    running_value(readings, &exponents).ok_or(of_group(13))
}

/// The call.
pub fn gauge(
    m: u32,
    n: u32,
    matrix: &[i32],
    moduli: &[i32],
    readings: &[f64],
    group: u32,
) -> GaugeAnswer {
    let answer = check_sizes(m, n)
        .and_then(|(m, n)| {
            check_inputs(&[
                (Some(matrix.len()), m * n),
                (Some(moduli.len()), m),
                (Some(readings.len()), n),
            ])?;
            Ok(Problem::new(m, n, matrix.to_vec(), moduli.to_vec()))
        })
        .map_err(without_reading)
        .and_then(|problem| of_numbers(&problem, readings, group as usize));
    match answer {
        Ok(value) => GaugeAnswer {
            number: 0,
            place: 0,
            value,
        },
        Err((refusal, value)) => GaugeAnswer {
            number: refusal.number,
            place: refusal.place,
            value,
        },
    }
}

#[cfg(test)]
mod tests {
    use super::*;
    use crate::boundary::gauges::two;
    use crate::problems;
    use crate::random::Random;
    use crate::rounding::{product, quotient};

    /// The value of a group that there is, if it is not refused 13.
    fn value(problem: &Problem, readings: &[f64], group: u32) -> Option<f64> {
        let (m, n) = (problem.m as u32, problem.n as u32);
        let answer = gauge(m, n, &problem.matrix, &problem.moduli, readings, group);
        match (answer.number, answer.place) {
            (0, 0) => Some(answer.value),
            (13, place) => {
                assert_eq!((place, answer.value.to_bits()), (group, 0));
                None
            }
            _ => panic!("{answer:?}"),
        }
    }

    /// The groups of R10.4, R10.5 and R10.8.
    #[test]
    fn groups_of_known_problems() {
        let groups = |problem: &Problem, count: usize| -> Vec<Vec<i128>> {
            let built = build_numbers(problem).expect("accepted");
            assert_eq!(exponents(problem, &built, count), None);
            let group = |i| exponents(problem, &built, i).expect("a group");
            (0..count).map(group).collect()
        };
        assert_eq!(groups(&problems::four(), 1), [[-2, 1]]);
        let of_five = [[3, 0, 0], [1, 1, 0], [0, 0, 1]];
        assert_eq!(groups(&problems::five(), 3), of_five);
        let of_eight = [[2, -1, 3, 0, 0], [1, 2, 2, 2, 0], [0, 0, 1, 1, 1]];
        assert_eq!(groups(&problems::eight(), 3), of_eight);
        assert!(groups(&problems::two(), 0).is_empty());
    }

    /// R22.4, powers of two: while no running value leaves 2^-1022 to
    /// 2^1023, nothing is rounded, and the exponent is what whole numbers add up to.
    /// Every power is tried, subnormal ones too, and every exponent from -64 to 64.
    #[test]
    fn powers_of_two_are_exact() {
        let mut random = Random::new(1);
        let (mut exact, mut subnormal) = (0, 0);
        for e in (-64..=64).filter(|&e| e != 0) {
            // The group of (1 -e) is (e, 1).
            let problem = Problem::of_rows(&[&[1, -e]], &[0]);
            for power in -1074..=1023 {
                let after = random.between(-1074, 1023);
                let steps = (0..=e.abs()).map(|i| i * power * e.signum());
                let sums: Vec<i32> = steps.chain([e * power + after]).collect();
                if sums.iter().all(|sum| (-1022..=1023).contains(sum)) {
                    let value = value(&problem, &[power, after].map(two), 0);
                    let due = two(sums[sums.len() - 1]);
                    assert_eq!(value.map(f64::to_bits), Some(due.to_bits()));
                    exact += 1;
                    subnormal += usize::from(power.min(after) < -1022);
                }
            }
        }
        assert!(exact > 5000 && subnormal > 100, "{exact} {subnormal}");
    }

    /// Beyond the promise: down to 2^-1074 powers of two are still exact, and past
    /// the ends they are refused.
    #[test]
    fn powers_of_two_at_the_ends() {
        let [times, over] = [-1, 1].map(|e| Problem::of_rows(&[&[1, e]], &[0]));
        for power in -1074..=1023 {
            for other in [-1074, -1073, -1023, -1022, -1, 0, 1, 1022, 1023] {
                let readings = [power, other].map(two);
                for (problem, first) in [(&times, power), (&over, -power)] {
                    let in_range = |sum: i32| (-1074..=1023).contains(&sum);
                    let sum = first + other;
                    let due = (in_range(first) && in_range(sum)).then(|| two(sum));
                    assert_eq!(value(problem, &readings, 0), due);
                }
            }
        }
    }

    /// Readings of all sizes, against rounding by whole numbers.
    #[test]
    fn each_operation_rounds_to_nearest() {
        let mut random = Random::new(1);
        let problem = problems::eight();
        let (mut values, mut refused) = (0, 0);
        for _ in 0..5000 {
            let spread = random.pick(&[0, 10, 200, 400]);
            let readings: [f64; 5] = std::array::from_fn(|_| {
                let exponent = random.between(1023 - spread, 1023 + spread) as u64;
                f64::from_bits(exponent << 52 | random.bits() >> 12)
            });
            let [a, b, c, ..] = readings;
            // Group 0 is (2, -1, 3, 0, 0).
            let mut units = [a, a, b, c, c, c].into_iter().enumerate();
            let due = units.try_fold(1.0, |value, (i, x)| {
                let next = match i {
                    2 => quotient(value, x),
                    _ => product(value, x),
                };
                (next != 0.0 && next != f64::INFINITY).then_some(next)
            });
            let value = value(&problem, &readings, 0);
            assert_eq!(value.map(f64::to_bits), due.map(f64::to_bits));
            values += usize::from(due.is_some());
            refused += usize::from(due.is_none());
        }
        assert!(values > 1000 && refused > 100, "{values} {refused}");
    }
}
