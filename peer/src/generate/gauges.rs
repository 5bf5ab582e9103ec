//! Calls of `gauge`: random ones here, and in `systematic` every refusal with
//! every place.

pub mod systematic;

use crate::boundary;
use crate::boundary::gauges::{two, BAD, NORMAL, SEVEN, SUBNORMAL, TINY};
use crate::comparing::gauges::GaugeCall;
use crate::model::calls::build_numbers;
use crate::model::gauges::exponents;
use crate::model::{Problem, MOST_ROWS};
use crate::problems;
use crate::random::Random;

/// A problem within the limits; often with small exponents, with some
/// near 64, without a group, or refused 7.
fn problem(random: &mut Random) -> Problem {
    match random.below(12) {
        0 | 1 => super::problem(random),
        2..=5 => {
            let (m, n) = (1 + random.below(3), 1 + random.below(7));
            let most = random.pick(&[1, 1, 2, 3]);
            let matrix = (0..m * n).map(|_| random.between(-most, most)).collect();
            let mut problem = Problem::new(m, n, matrix, vec![0; m]);
            super::add_moduli(&mut problem, random);
            problem
        }
        6..=9 => near_64(random),
        10 if random.one_in(2) => without_group(random),
        10 => {
            let known = problems::known();
            known[random.below(known.len())].clone()
        }
        _ => {
            let stages = boundary::stages();
            match random.below(3) {
                0 => Problem::of_rows(&[&SEVEN], &[0]),
                _ => stages[random.below(stages.len())].problem.clone(),
            }
        }
    }
}

/// Rows (1 e ..) and (e 1), whose groups have the exponents -e and e.
fn near_64(random: &mut Random) -> Problem {
    let n = random.pick(&[2, 2, 2, 3, 4, 6, 16]);
    let mut entries: Vec<i32> = (0..n)
        .map(|_| {
            let size = random.pick(&[0, 1, 2, 3, 10, 63, 64, 64, 64, 65, 65, 66, 128, 1000]);
            size * random.pick(&[-1, 1])
        })
        .collect();
    let place = if n == 2 { random.below(2) } else { 0 };
    entries[place] = 1;
    let modulus = random.pick(&[0, 0, 0, 1, 2, 64, 65]);
    Problem::new(1, n, entries, vec![modulus])
}

/// A problem whose rank is n, and without moduli, so d is 0.
fn without_group(random: &mut Random) -> Problem {
    let n = 1 + random.below(4);
    let m = n + random.below(MOST_ROWS + 1 - n);
    let mut matrix = vec![0; m * n];
    for i in 0..n {
        for j in i..n {
            matrix[i * n + j] = random.between(-3, 3);
        }
        matrix[i * n + i] = random.pick(&[-5, -1, 1, 2]);
    }
    Problem::new(m, n, matrix, vec![0; m])
}

/// A double from 2^exponent up to its double, or 2^exponent itself.
fn of_exponent(exponent: i32, power: bool, random: &mut Random) -> f64 {
    let least = two(exponent).to_bits();
    let bits = match (power, exponent) {
        (true, _) => least,
        (_, -1074..=-1023) => least + random.bits() % least,
        _ => least + (random.bits() >> 12),
    };
    f64::from_bits(bits)
}

/// Readings that lead the running value near the ends of the range and back, as
/// far as the group's exponents allow.
fn steered(exponents: &[i128], power: bool, random: &mut Random) -> Vec<f64> {
    let ends = [
        -1076, -1075, -1074, -1073, -1030, -1023, -1022, -1021, -1, 0, 1, 900, 1022, 1023, 1024,
    ];
    let mut at = 0;
    let mut readings = Vec::new();
    for &exponent in exponents {
        let aim = match random.below(3) {
            0 => random.between(-1074, 1023),
            _ => random.pick(&ends),
        };
        let step = match exponent {
            0 => random.between(-1074, 1023),
            _ => {
                let step = (i128::from(aim) - at) / exponent;
                step.clamp(-1074, 1023) as i32
            }
        };
        at += i128::from(step) * exponent;
        readings.push(of_exponent(step, power, random));
    }
    readings
}

/// As many readings as exponents, none of them bad.
fn readings(exponents: &[i128], random: &mut Random) -> Vec<f64> {
    // 12 comes before 13: with an exponent beyond 64 a first step that leaves the
    // doubles is tried often.
    if exponents.iter().any(|x| x.abs() > 64) && random.one_in(2) {
        let far = |&x: &i128| if x < 0 { TINY } else { f64::MAX };
        return exponents.iter().map(far).collect();
    }
    let kind = random.below(12);
    match kind {
        0 | 1 => return steered(exponents, true, random),
        2..=4 => return steered(exponents, false, random),
        _ => {}
    }
    let mut one = || match kind {
        // Powers of two.
        5 => two(random.between(-8, 8)),
        6 => two(random.between(-1074, 1023)),
        // Ordinary readings.
        7 => f64::from(random.between(1, 100)) / 10.0,
        8 => {
            let exponent = random.between(-3, 3);
            of_exponent(exponent, false, random)
        }
        // Near 1, where many operations stay in range.
        9 => f64::from_bits(1f64.to_bits() + random.bits() % 5 - 2),
        // The least and the largest doubles, and subnormals.
        10 => match random.below(8) {
            0 => TINY,
            1 => SUBNORMAL,
            2 => NORMAL,
            3 => f64::MAX,
            4 => f64::from_bits(1 + random.bits() % SUBNORMAL.to_bits()),
            _ => two(random.between(-1, 1)),
        },
        // Any at all.
        _ => f64::from_bits(1 + random.bits() % f64::MAX.to_bits()),
    };
    exponents.iter().map(|_| one()).collect()
}

/// A group that there is, or one near the end of the d groups or far from it.
fn group(d: usize, random: &mut Random) -> u32 {
    if d > 0 && !random.one_in(10) {
        return random.below(d) as u32;
    }
    let d = d as u32;
    match random.below(8) {
        0 => d.saturating_sub(1),
        1..=3 => d,
        4 => d + 1,
        5 => u32::MAX,
        6 => random.pick(&[16, 24, 256, 512, 65_536, 1 << 31]),
        _ => random.bits() as u32,
    }
}

/// A count of readings: often 0, one from n, or at the ends of what is taken.
fn count(n: usize, random: &mut Random) -> usize {
    match random.below(8) {
        0 => 0,
        1 => n.saturating_sub(1),
        2 => n + 1,
        3 => 16,
        4 => 17,
        5 => 40,
        _ => random.below(41),
    }
}

/// Puts some bad readings, all of one kind or several, in their places.
fn spoil_readings(readings: &mut [f64], random: &mut Random) {
    if readings.is_empty() {
        return;
    }
    for _ in 0..1 + random.below(3) {
        let place = random.below(readings.len());
        readings[place] = match random.below(6) {
            0 => -readings[place],
            // A NaN with any sign and payload.
            1 => f64::from_bits(0x7ff0_0000_0000_0001 | random.bits()),
            _ => f64::from_bits(random.pick(&BAD)),
        };
    }
}

/// One of the numbers becomes one of the values.
fn spoil(numbers: &mut [i32], values: &[i32], random: &mut Random) {
    if !numbers.is_empty() {
        let place = random.below(numbers.len());
        numbers[place] = random.pick(values);
    }
}

/// Another length, mostly near the right one.
fn resize(numbers: &mut Vec<i32>, random: &mut Random) {
    let length = match random.below(5) {
        0 => 0,
        1 | 2 => numbers.len() + 1,
        3 => numbers.len().saturating_sub(1),
        _ => random.below(200),
    };
    numbers.resize(length, 0);
}

/// One fault. Later readings than the first n are as good as any.
fn fault(call: &mut GaugeCall, random: &mut Random) {
    const LARGE: u32 = u32::MAX;
    match random.below(16) {
        0 => call.m = random.pick(&[0, 9, 17, 256, LARGE]),
        1 => call.n = random.pick(&[0, 17, 18, 272, LARGE]),
        2 => resize(&mut call.matrix, random),
        3 => resize(&mut call.moduli, random),
        4 | 5 => {
            let count = count(call.n.min(16) as usize, random);
            let further = f64::from_bits(random.pick(&[1f64.to_bits(), BAD[4], BAD[1]]));
            call.readings.resize(count, further);
        }
        6 => spoil(
            &mut call.moduli,
            &[-1, 1001, i32::MIN, i32::MAX, 65_536],
            random,
        ),
        7 => spoil(
            &mut call.matrix,
            &[1001, -1001, i32::MIN, i32::MAX, 65_536],
            random,
        ),
        8..=14 => spoil_readings(&mut call.readings, random),
        _ => call.group = random.pick(&[16, 17, 24, 255, LARGE]),
    }
}

/// A random call: two in three without a fault, but maybe with 7, 24, 12 or 13;
/// the others with one or two faults.
pub fn call(random: &mut Random) -> GaugeCall {
    let problem = problem(random);
    let built = build_numbers(&problem).ok();
    let d = built.as_ref().map_or(1, |b| problem.columns() - b.rank);
    let group = group(d, random);
    let of_group = built.and_then(|built| exponents(&problem, &built, group as usize));
    let exponents = of_group.unwrap_or_else(|| vec![0; problem.n]);
    let mut call = GaugeCall::new(&problem, &readings(&exponents, random), group);
    if random.one_in(3) {
        for _ in 0..1 + random.below(2) {
            fault(&mut call, random);
        }
    }
    call
}
