//! Every refusal of `gauge` with every place, and every power of two.

use super::super::{accepted, add_moduli};
use super::{readings, spoil_readings, steered};
use crate::boundary;
use crate::boundary::gauges::{two, BAD};
use crate::comparing::gauges::GaugeCall;
use crate::model::{Problem, MOST_QUANTITIES, MOST_ROWS};
use crate::random::Random;

/// The calls that are made in every run, besides those of `boundary`.
pub fn calls(random: &mut Random) -> Vec<GaugeCall> {
    let mut calls = Vec::new();
    sizes_and_lengths(&mut calls, random);
    ranges(&mut calls, random);
    bad_readings(&mut calls, random);
    groups(&mut calls, random);
    powers(&mut calls, random);
    calls
}

/// Refusals 1 and 2.
fn sizes_and_lengths(calls: &mut Vec<GaugeCall>, random: &mut Random) {
    let sizes: Vec<u32> = (0..=18).chain([255, 256, 65_537, u32::MAX]).collect();
    for &m in &sizes {
        for &n in &sizes {
            // The lengths are right for the sizes as far as they go.
            let (rows, columns) = (m.min(20) as usize, n.min(20) as usize);
            calls.push(GaugeCall {
                m,
                n,
                matrix: vec![1; rows * columns],
                moduli: vec![0; rows],
                readings: vec![1.5; columns],
                group: 0,
            });
        }
    }
    for n in 1..=MOST_QUANTITIES {
        let m = 1 + random.below(MOST_ROWS);
        let problem = accepted(m, n, random);
        for count in 0..=40 {
            calls.push(GaugeCall::new(&problem, &vec![1.5; count], 0));
        }
        let good = GaugeCall::new(&problem, &vec![1.5; n], 0);
        for length in 0..=m * n + 2 {
            let mut call = good.clone();
            call.matrix.resize(length, 0);
            calls.push(call);
        }
        for length in 0..=m + 2 {
            let mut call = good.clone();
            call.moduli.resize(length, 0);
            calls.push(call);
        }
    }
}

/// Refusal 4 at each row and 5 at each entry; in every other call with later
/// faults, which must not show.
fn ranges(calls: &mut Vec<GaugeCall>, random: &mut Random) {
    for m in 1..=MOST_ROWS {
        for n in 1..=MOST_QUANTITIES {
            let good = GaugeCall::new(&accepted(m, n, random), &vec![1.5; n], 0);
            for row in 0..m {
                let mut call = good.clone();
                if random.one_in(2) {
                    call.moduli[row + random.below(m - row)] = 1001;
                    call.matrix[random.below(m * n)] = 1001;
                    spoil_readings(&mut call.readings, random);
                }
                call.moduli[row] = random.pick(&[-1, 1001, i32::MIN, i32::MAX]);
                calls.push(call);
            }
            for entry in 0..m * n {
                let mut call = good.clone();
                if random.one_in(2) {
                    call.matrix[entry + random.below(m * n - entry)] = -1001;
                    spoil_readings(&mut call.readings, random);
                    call.group = 16;
                }
                call.matrix[entry] = random.pick(&[-1001, 1001, i32::MIN, i32::MAX]);
                calls.push(call);
            }
        }
    }
}

/// Refusal 11 at each place with each bad reading, in every other call with later
/// faults; and 7 with bad readings, which must not show.
fn bad_readings(calls: &mut Vec<GaugeCall>, random: &mut Random) {
    for n in 1..=MOST_QUANTITIES {
        let m = 1 + random.below(3);
        let good = GaugeCall::new(&accepted(m, n, random), &vec![1.5; n], 0);
        for place in 0..n {
            for bits in BAD {
                let mut call = good.clone();
                if random.one_in(2) {
                    spoil_readings(&mut call.readings[place..], random);
                    call.group = random.pick(&[0, 16]);
                }
                call.readings[place] = f64::from_bits(bits);
                calls.push(call);
            }
        }
    }
    for row in boundary::stages() {
        let n = row.problem.n;
        for (reading, group) in [(1.0, 0), (f64::NAN, 0), (-0.0, u32::MAX), (1.0, u32::MAX)] {
            calls.push(GaugeCall::new(&row.problem, &vec![reading; n], group));
        }
    }
}

/// Every group of accepted problems of each size, and 24 behind them.
fn groups(calls: &mut Vec<GaugeCall>, random: &mut Random) {
    for m in 1..=MOST_ROWS {
        for n in 1..=MOST_QUANTITIES {
            let mut problem = accepted(m, n, random);
            add_moduli(&mut problem, random);
            let exponents = vec![1; n];
            for group in (0..18).chain([255, 256, 65_536, 1 << 31, u32::MAX]) {
                let readings = readings(&exponents, random);
                calls.push(GaugeCall::new(&problem, &readings, group));
            }
        }
    }
}

/// Every power of two as a reading: alone, as a divisor, and after a running
/// value near an end of the range. Exponents from 60 to 68 either way, with
/// powers of two and with others.
fn powers(calls: &mut Vec<GaugeCall>, random: &mut Random) {
    let [times, over] = [-1, 1].map(|entry| Problem::of_rows(&[&[1, entry]], &[0]));
    for exponent in -1074..=1023 {
        let other = random.pick(&[-1074, -1023, -1022, 0, 1022, 1023]);
        for problem in [&times, &over] {
            for readings in [[exponent, 0], [exponent, other], [other, exponent]] {
                calls.push(GaugeCall::new(problem, &readings.map(two), 0));
            }
        }
    }
    for size in 60..=68i32 {
        for e in [-size, size] {
            // (1 e) has the group (-e, 1), and (e 1) the one of e and 1 or -1 with a
            // last exponent above zero.
            let after = [-e.signum(), size];
            for (entries, group) in [([1, e], [-e, 1]), ([e, 1], after)] {
                let problem = Problem::of_rows(&[&entries], &[0]);
                for power in [true, false] {
                    for _ in 0..10 {
                        let readings = steered(&group.map(i128::from), power, random);
                        calls.push(GaugeCall::new(&problem, &readings, 0));
                    }
                }
            }
        }
    }
}
