//! Calls of `weigh` at the limits of its rules, each with its answer written out by
//! hand. None of the answers came from the model.

use crate::comparing::single;
use crate::comparing::weights::WeighCall;
use crate::model::Problem;
use crate::problems;

/// A call with its answer.
pub type Case = single::Case<WeighCall>;

/// The call whose answer is these weights.
fn weighs(problem: &Problem, exponents: &[i32], weights: &[i32]) -> Case {
    Case {
        call: WeighCall::new(problem, exponents),
        due: (0, 0, weights.to_vec()),
    }
}

/// The call, changed, that is refused.
fn refused(change: impl Fn(&mut WeighCall), (number, place): (u32, u32)) -> Case {
    let problem = Problem::of_rows(&[&[1, 2, 0], &[0, 0, 1], &[4, 0, 0]], &[3, 0, 5]);
    let mut call = WeighCall::new(&problem, &[1, 2, 3]);
    change(&mut call);
    Case {
        call,
        due: (number, place, Vec::new()),
    }
}

/// All cases.
pub fn cases() -> Vec<Case> {
    let mut cases = weights();
    cases.extend(refusals());
    cases
}

/// Weights with and without a modulus, and the sign of a remainder.
fn weights() -> Vec<Case> {
    let five = problems::five();
    let eight = problems::eight();
    let eleven = problems::eleven();
    let row = |entries: &[i32], modulus| Problem::of_rows(&[entries], &[modulus]);
    let mut cases = vec![
        // Problem 5: the row (1 2 0) with the modulus 3.
        weighs(&five, &[2, 2, 1], &[0]),
        weighs(&five, &[1, 0, 0], &[1]),
        weighs(&five, &[0, 1, 0], &[2]),
        weighs(&five, &[4, 2, 9], &[2]),
        weighs(&five, &[-1, 0, 0], &[-1]),
        weighs(&five, &[-4, 0, 0], &[-1]),
        weighs(&five, &[-4, -2, 9], &[-2]),
        weighs(&five, &[-3, 0, 0], &[0]),
        weighs(&five, &[10_000, -10_000, 10_000], &[-1]),
        weighs(&five, &[-10_000, 10_000, -10_000], &[1]),
        // The same row without a modulus.
        weighs(&row(&[1, 2, 0], 0), &[-4, -2, 9], &[-8]),
        // 1 is a true modulus, and all weights are then 0.
        weighs(&row(&[7], 1), &[-9999], &[0]),
        weighs(&row(&[7], 0), &[-9999], &[-69_993]),
        weighs(&row(&[7], 2), &[-9999], &[-1]),
        // Problem 8, a group and what is none.
        weighs(&eight, &[2, -1, 3, 0, 0], &[0, 0]),
        weighs(&eight, &[1, 1, 1, 1, 1], &[6, 3]),
        weighs(&eight, &[-1, 0, 0, 0, 0], &[-6, 0]),
        // Problem 11: rows (4 -1 -3) and (-1 4 -3), moduli 6 and 3.
        weighs(&eleven, &[1, 1, 1], &[0, 0]),
        weighs(&eleven, &[1, 0, 0], &[4, -1]),
        weighs(&eleven, &[0, 1, 0], &[-1, 1]),
        weighs(&eleven, &[2, 0, 0], &[2, -2]),
        weighs(&eleven, &[0, 0, 5], &[-3, 0]),
        // Problem 10, which the build refuses: there is none here.
        weighs(&problems::ten(), &[1, 1, 1, 1, 1], &[999, 999, 999, 999]),
        // The largest weights.
        weighs(&row(&[1000; 16], 0), &[10_000; 16], &[160_000_000]),
        weighs(&row(&[1000; 16], 0), &[-10_000; 16], &[-160_000_000]),
        weighs(&row(&[-1000; 16], 1000), &[10_000; 16], &[0]),
        weighs(&row(&[999; 16], 1000), &[9_999; 16], &[16]),
        weighs(&row(&[999; 16], 1000), &[-9_999; 16], &[-16]),
    ];
    // A row for each place of the output; and one that is longer.
    let rows: Vec<[i32; 2]> = (1..=8).map(|i| [i, -1000]).collect();
    let rows: Vec<&[i32]> = rows.iter().map(|row| &row[..]).collect();
    let problem = Problem::of_rows(&rows, &[0, 1, 2, 3, 4, 5, 6, 7]);
    let mut case = weighs(&problem, &[1, 1], &[-999, 0, -1, 0, -3, -4, -3, -5]);
    cases.push(case.clone());
    case.call.weights = 100;
    cases.push(case);
    cases
}

/// Each refusal, alone and with all that comes after it.
fn refusals() -> Vec<Case> {
    /// Faults of all numbers from `from` on.
    fn faults(call: &mut WeighCall, from: u32) {
        if from <= 2 {
            call.exponents.push(0);
        }
        if from <= 3 {
            call.weights = 7;
        }
        if from <= 4 {
            call.moduli[2] = -1;
        }
        if from <= 5 {
            call.matrix[8] = 1001;
        }
        call.exponents[2] = -10_001;
    }
    let mut cases = Vec::new();
    for (m, n) in [
        (0, 3),
        (9, 3),
        (3, 0),
        (3, 17),
        (u32::MAX, 3),
        (3, u32::MAX),
    ] {
        let sizes = move |call: &mut WeighCall| (call.m, call.n) = (m, n);
        cases.push(refused(sizes, (1, 0)));
        let with_more = move |call: &mut WeighCall| {
            faults(call, 2);
            sizes(call);
        };
        cases.push(refused(with_more, (1, 0)));
    }
    // Other sizes than those that the lists are made for.
    for (m, n) in [(2, 3), (4, 3), (3, 2), (3, 4), (1, 9), (9, 1)] {
        let number = if m == 9 { 1 } else { 2 };
        cases.push(refused(|call| (call.m, call.n) = (m, n), (number, 0)));
    }
    let lengths: [fn(&mut WeighCall); 8] = [
        |call| call.matrix.push(0),
        |call| call.matrix.truncate(8),
        |call| call.matrix.clear(),
        |call| call.moduli.push(0),
        |call| call.moduli.truncate(2),
        |call| call.exponents.push(0),
        |call| call.exponents.truncate(2),
        |call| call.exponents.extend([0; 3]),
    ];
    for change in lengths {
        cases.push(refused(change, (2, 0)));
        let with_more = move |call: &mut WeighCall| {
            faults(call, 3);
            change(call);
        };
        cases.push(refused(with_more, (2, 0)));
    }
    for length in [0, 1, 3, 7] {
        cases.push(refused(|call| call.weights = length, (3, 0)));
        let with_more = move |call: &mut WeighCall| {
            faults(call, 4);
            call.weights = length;
        };
        cases.push(refused(with_more, (3, 0)));
    }
    for value in [-1, 1001, i32::MIN, i32::MAX] {
        for row in 0..3 {
            let place = row as u32;
            cases.push(refused(|call| call.moduli[row] = value, (4, place)));
            let with_more = move |call: &mut WeighCall| {
                faults(call, 4);
                call.moduli[row] = value;
            };
            cases.push(refused(with_more, (4, place)));
        }
    }
    for value in [-1001, 1001, i32::MIN, i32::MAX] {
        for entry in 0..9 {
            let place = entry as u32;
            cases.push(refused(|call| call.matrix[entry] = value, (5, place)));
            let with_more = move |call: &mut WeighCall| {
                faults(call, 5);
                call.matrix[entry] = value;
            };
            cases.push(refused(with_more, (5, place)));
        }
    }
    for value in [-10_001, 10_001, i32::MIN, i32::MAX] {
        for exponent in 0..3 {
            let place = exponent as u32;
            let change = move |call: &mut WeighCall| call.exponents[exponent] = value;
            cases.push(refused(change, (6, place)));
            let with_more = move |call: &mut WeighCall| {
                faults(call, 6);
                change(call);
            };
            cases.push(refused(with_more, (6, place)));
        }
    }
    cases
}

#[cfg(test)]
mod tests {
    use super::*;
    use crate::comparing::single::Compared;
    use crate::model::calls::weigh;
    use crate::verify;

    /// The model answers as is written, and every number is among the answers.
    #[test]
    fn cases_are_as_they_say() {
        let cases = cases();
        for Case { call, due } in &cases {
            let mut weights = vec![77; call.weights];
            let answer = weigh(
                call.m,
                call.n,
                &call.matrix,
                &call.moduli,
                &call.exponents,
                &mut weights,
            );
            let written = due.2.len();
            let given = (answer.number, answer.place, weights[..written].to_vec());
            assert_eq!(given, *due, "{}", call.describe());
            assert!(weights[written..].iter().all(|&x| x == 77));
        }
        for &number in WeighCall::NUMBERS {
            assert!(cases.iter().any(|case| case.due.0 == number), "{number}");
        }
    }

    /// `verify` takes the weights that are written, and no others.
    #[test]
    fn no_others_are_verified() {
        for Case { call, due } in weights() {
            let (m, n) = (call.m as usize, call.n as usize);
            let problem = Problem::new(m, n, call.matrix.clone(), call.moduli.clone());
            let mut given = due.2;
            verify::weights(&problem, &call.exponents, &given).expect("as written");
            for row in 0..m {
                let modulus = call.moduli[row].max(1);
                for change in [1, -1, modulus, -modulus, 2 * modulus, -2 * modulus] {
                    given[row] += change;
                    verify::weights(&problem, &call.exponents, &given).expect_err("changed");
                    given[row] -= change;
                }
            }
            given.pop();
            verify::weights(&problem, &call.exponents, &given).expect_err("one is missing");
        }
    }
}
