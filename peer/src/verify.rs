//! Checks an answer by itself, from section 6 of the rules and without the steps:
//! whatever made H, V and W, they are right exactly when these checks pass (only
//! the count of steps is no matter of that section).

pub mod gauges;

use crate::model::{Matrix, Problem, M};

/// An answer of a build as it was given out, row after row.
#[derive(Clone, Copy, Debug)]
pub struct Given<'a> {
    pub rank: usize,
    pub moduli: usize,
    pub h: &'a [i32],
    pub v: &'a [i32],
    pub w: &'a [i32],
}

/// Rows of `columns` numbers each.
fn rows(numbers: &[i32], columns: usize) -> Matrix {
    numbers
        .chunks_exact(columns)
        .map(|row| row.iter().map(|&x| i128::from(x)).collect())
        .collect()
}

fn product(left: &Matrix, right: &Matrix) -> Matrix {
    let columns = right[0].len();
    left.iter()
        .map(|row| {
            (0..columns)
                .map(|j| row.iter().zip(right).map(|(x, other)| x * other[j]).sum())
                .collect()
        })
        .collect()
}

fn is_identity(matrix: &Matrix) -> bool {
    matrix.iter().enumerate().all(|(i, row)| {
        row.iter()
            .enumerate()
            .all(|(j, &x)| x == i128::from(i == j))
    })
}

/// The columns `from..to` of a matrix.
fn cut(matrix: &Matrix, from: usize, to: usize) -> Matrix {
    matrix.iter().map(|row| row[from..to].to_vec()).collect()
}

fn require(holds: bool, what: &str) -> Result<(), String> {
    if holds {
        Ok(())
    } else {
        Err(format!("not so: {what}"))
    }
}

/// Column Hermite form with `rank` non-zero columns; gives the pivot rows.
pub fn hermite_pivots(matrix: &Matrix, rank: usize) -> Result<Vec<usize>, String> {
    let columns = matrix[0].len();
    require(rank <= columns, "the rank is at most the number of columns")?;
    let mut pivots: Vec<usize> = Vec::new();
    for j in 0..columns {
        let lowest = (0..matrix.len()).rev().find(|&i| matrix[i][j] != 0);
        match lowest {
            Some(row) if j < rank => pivots.push(row),
            None if j >= rank => {}
            _ => {
                return Err(format!(
                    "not so: exactly the first {rank} columns are non-zero"
                ))
            }
        }
    }
    require(
        pivots.windows(2).all(|pair| pair[0] < pair[1]),
        "pivot rows rise",
    )?;
    for (j, &row) in pivots.iter().enumerate() {
        let pivot = matrix[row][j];
        require(pivot > 0, "each pivot is positive")?;
        require(
            (j + 1..columns).all(|k| (0..pivot).contains(&matrix[row][k])),
            "right of a pivot is from 0 to the pivot less one",
        )?;
    }
    Ok(pivots)
}

/// Checks the answer of a build.
pub fn build(problem: &Problem, given: Given) -> Result<(), String> {
    let size = problem.columns();
    let rank = given.rank;
    require(given.moduli == problem.s(), "s counts the non-zero moduli")?;
    require(given.h.len() == problem.m * size, "H is m by N")?;
    require(given.v.len() == size * size, "V is N by N")?;
    require(given.w.len() == size * size, "W is N by N")?;
    require(rank <= size, "r is at most N")?;

    let all = given.h.iter().chain(given.v).chain(given.w);
    let within = |&x: &i32| i128::from(x).abs() <= M;
    require(all.into_iter().all(within), "all values are within M")?;

    let h = rows(given.h, size);
    let v = rows(given.v, size);
    let w = rows(given.w, size);
    require(product(&problem.c(), &v) == h, "C times V is [H 0]")?;
    require(is_identity(&product(&v, &w)), "V times W is the identity")?;
    require(is_identity(&product(&w, &v)), "W times V is the identity")?;
    hermite_pivots(&h, rank).map_err(|e| format!("H: {e}"))?;

    // V is normal.
    let d = size - rank;
    if d > 0 {
        let last = cut(&v, rank, size);
        let pivots = hermite_pivots(&last, d).map_err(|e| format!("V's last columns: {e}"))?;
        for (j, &row) in pivots.iter().enumerate() {
            let pivot = last[row][j];
            require(
                v[row][..rank].iter().all(|x| (0..pivot).contains(x)),
                "V's first columns are in range in the pivot rows of the last",
            )?;
        }
    }
    Ok(())
}

/// Checks the weights of exponents. Without a modulus a weight is the row times the
/// exponents. With one it is short of that by a multiple of the modulus, nearer to 0
/// than the modulus, and on the same side of 0.
pub fn weights(problem: &Problem, exponents: &[i32], weights: &[i32]) -> Result<(), String> {
    require(weights.len() == problem.m, "a weight for each row")?;
    let rows = problem.matrix.chunks_exact(problem.n);
    for ((row, &modulus), &weight) in rows.zip(&problem.moduli).zip(weights) {
        let pairs = row.iter().zip(exponents);
        let times: i64 = pairs.map(|(&x, &y)| i64::from(x) * i64::from(y)).sum();
        let (modulus, weight) = (i64::from(modulus), i64::from(weight));
        if modulus == 0 {
            require(weight == times, "a weight is the row times the exponents")?;
        } else {
            require(
                (times - weight).rem_euclid(modulus) == 0,
                "a weight differs from the product by a multiple of the modulus",
            )?;
            require(
                -modulus < weight && weight < modulus,
                "a weight is nearer to 0 than the modulus",
            )?;
            require(
                weight == 0 || (weight < 0) == (times < 0),
                "a weight has the sign of the product",
            )?;
        }
    }
    Ok(())
}

/// Checks a translated term by the round trip: the groups to the translated
/// exponents give the term back (and the same holds of the modulus rows with k).
pub fn term(
    problem: &Problem,
    rank: usize,
    v: &[i32],
    exponents: &[i32],
    translated: &[i32],
) -> Result<(), String> {
    let size = problem.columns();
    require(translated.len() == size - rank, "a term has d exponents")?;
    let v = rows(v, size);
    let back: Vec<i128> = v
        .iter()
        .map(|row| {
            row[rank..]
                .iter()
                .zip(translated)
                .map(|(x, &y)| x * i128::from(y))
                .sum()
        })
        .collect();
    let s = problem.s();
    require(
        back[s..]
            .iter()
            .zip(exponents)
            .all(|(&x, &y)| x == i128::from(y)),
        "the groups give the term back",
    )?;
    for (k, row) in problem.modulus_rows().into_iter().enumerate() {
        let of_modulus = back[k] * i128::from(problem.moduli[row]);
        require(
            of_modulus == problem.row_times(row, exponents),
            "the modulus rows give k back",
        )?;
    }
    Ok(())
}
