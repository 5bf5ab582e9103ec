//! `search [SECONDS] [SEED]` looks for problems whose runs come to exactly M and
//! to M + 1, and prints them as rows for the table in `src/boundary.rs`.
//!
//! For each matrix (T, V, W), each sign and each of M and M + 1 it changes one
//! entry at a time and keeps what comes nearer to the aim; for V it also makes
//! chains like problem 9 that come to the aim at once. What comes near to the
//! aim but not to it is printed after `//`, with the distance.

use peer::boundary::{aims, distance, reaches, Aim};
use peer::model::steps::Of;
use peer::model::Problem;
use peer::random::Random;
use std::time::{Duration, Instant};

/// A problem to begin with: few rows, entries of every size.
fn beginning(random: &mut Random) -> Problem {
    let m = 1 + random.below(5);
    let n = 2 + random.below(4);
    let kind = random.below(4);
    let mut matrix = Vec::new();
    for i in 0..m {
        for j in 0..n {
            matrix.push(match kind {
                // Any entries.
                0 => random.between(-1000, 1000),
                // A chain, as in problem 9.
                1 if j > i + 1 => 0,
                1 if j == i + 1 => -1,
                1 => random.between(-200, 200),
                // Sparse.
                2 if random.one_in(2) => 0,
                2 => random.between(-1000, 1000),
                // Very different sizes.
                _ => {
                    let most = random.pick(&[1, 10, 100, 1000]);
                    random.between(-most, most)
                }
            });
        }
    }
    let moduli = (0..m)
        .map(|_| match random.below(6) {
            0 => random.between(1, 1000),
            _ => 0,
        })
        .collect();
    Problem::new(m, n, matrix, moduli)
}

/// A problem with one entry or modulus changed.
fn changed(problem: &Problem, random: &mut Random) -> Problem {
    let mut other = problem.clone();
    let i = random.below(other.matrix.len());
    let value = match random.below(3) {
        0 => random.between(-1000, 1000),
        1 => other.matrix[i] + random.between(-20, 20),
        _ => other.matrix[i] + random.between(-1, 1),
    };
    other.matrix[i] = value.clamp(-1000, 1000);
    if random.one_in(20) {
        let i = random.below(other.m);
        if other.moduli[i] != 0 {
            other.moduli[i] = random.between(1, 1000);
        }
    }
    other
}

/// Looks by changing one entry at a time.
fn by_changes(aim: Aim, random: &mut Random) -> (Problem, i128) {
    let mut problem = beginning(random);
    let mut nearest = distance(&problem, aim);
    let mut without_gain = 0;
    while without_gain < 4000 && nearest > 0 {
        let other = changed(&problem, random);
        let there = distance(&other, aim);
        without_gain = if there < nearest { 0 } else { without_gain + 1 };
        if there <= nearest {
            problem = other;
            nearest = there;
        }
    }
    (problem, nearest)
}

/// For V: a chain as in problem 9, whose group is (1, x1, x2, x3, value). Each
/// x is a sum of multiples, by entries, of those before it; the entries of the
/// last row are found from the largest x down.
fn by_chain(aim: Aim, random: &mut Random) -> Option<Problem> {
    let (m, n) = (4, 5);
    let mut matrix = vec![0; m * n];
    let mut x: Vec<i128> = vec![1];
    for i in 0..m {
        matrix[i * n + i + 1] = random.pick(&[1, -1]);
        let sign = -i128::from(matrix[i * n + i + 1]);
        if i + 1 < m {
            for j in 0..=i {
                matrix[i * n + j] = random.between(-400, 400);
            }
        } else {
            let mut rest = sign * aim.value;
            for j in (0..=i).rev() {
                let entry = if j == 0 { rest } else { rest / x[j].max(1) };
                let entry = i32::try_from(entry).ok()?;
                matrix[i * n + j] = entry;
                rest -= i128::from(entry) * x[j];
            }
        }
        let terms = (0..=i).map(|j| i128::from(matrix[i * n + j]) * x[j]);
        x.push(sign * terms.sum::<i128>());
    }
    if matrix.iter().any(|entry| entry.abs() > 1000) {
        return None;
    }
    let problem = Problem::new(m, n, matrix, vec![0; m]);
    reaches(&problem, aim).then_some(problem)
}

/// What was found, each with its distance; 0 where it comes to the aim.
fn search(aim: Aim, random: &mut Random, until: Instant) -> Vec<(Problem, i128)> {
    let mut found: Vec<(Problem, i128)> = Vec::new();
    let mut count = 0;
    while Instant::now() < until && count < 6 {
        if aim.of == Of::V && !random.one_in(4) {
            if let Some(problem) = by_chain(aim, random) {
                count += 1;
                found.push((problem, 0));
            }
        } else {
            let (problem, nearest) = by_changes(aim, random);
            count += usize::from(reaches(&problem, aim));
            found.push((problem, nearest));
        }
        found.sort_by_key(|&(_, nearest)| nearest);
        found.truncate(6);
    }
    found
}

fn main() {
    let arguments: Vec<u64> = std::env::args()
        .skip(1)
        .map(|x| x.parse().expect("a whole number"))
        .collect();
    let seconds = arguments.first().copied().unwrap_or(120);
    let mut random = Random::new(arguments.get(1).copied().unwrap_or(1));
    let aims = aims();
    for &aim in aims.iter().rev() {
        let share = Duration::from_millis(seconds * 1000 / aims.len() as u64);
        for (problem, nearest) in search(aim, &mut random, Instant::now() + share) {
            let note = match nearest {
                0 => String::new(),
                _ => format!("// {nearest} away: "),
            };
            println!(
                "{note}row(Of::{:?}, {}, {}, {}, &{:?}, &{:?}),",
                aim.of, aim.value, problem.m, problem.n, problem.matrix, problem.moduli
            );
        }
    }
}
