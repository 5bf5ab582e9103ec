//! Section 7 of the rules, literally, on wide whole numbers.
//!
//! A run can stop at the first value beyond M, as R7.6 has it, or go on past it
//! to see what would have come.
//!
//! No i128 overflows: a run never takes a step once a value is beyond 2^62
//! (`GO_ON_BOUND`). Each q is a quotient of one value by another that is not
//! zero, so |q| is at most 2^62 too, and a step's product and sum stay below
//! 2^124 + 2^62. Checked operations are used all the same.

use super::{Matrix, Problem, M};

/// A run that goes on past M gives up when a value is beyond this.
pub const GO_ON_BOUND: i128 = 1 << 62;

/// How far a run goes.
#[derive(Clone, Copy, Debug, PartialEq, Eq)]
pub enum Until {
    /// To the first value beyond M (refusal 7), or to the end.
    BeyondM,
    /// To the end, past M, unless a value is beyond `GO_ON_BOUND`.
    TheEnd,
}

/// Where in the written steps a step is taken.
#[derive(Clone, Copy, Debug, PartialEq, Eq, PartialOrd, Ord)]
pub enum Stage {
    OneA,
    OneB,
    TwoA,
    TwoB,
    Three,
}

/// The three matrices of the work.
#[derive(Clone, Copy, Debug, PartialEq, Eq, PartialOrd, Ord)]
pub enum Of {
    T,
    V,
    W,
}

/// The first value beyond M that a run writes (T before V before W in one step).
#[derive(Clone, Copy, Debug, PartialEq, Eq)]
pub struct FirstBeyond {
    /// The number of that step; the first step is 1.
    pub step: u64,
    pub stage: Stage,
    pub of: Of,
    pub value: i128,
    /// The largest absolute value written up to and with that step.
    pub peak: i128,
}

/// The smallest and largest value that one of the matrices ever held.
#[derive(Clone, Copy, Debug, Default, PartialEq, Eq)]
pub struct Extremes {
    pub least: i128,
    pub most: i128,
}

/// The row in which (A) was repeated most often: how often, and where; the first
/// such row of the run.
#[derive(Clone, Copy, Debug, PartialEq, Eq)]
pub struct Deepest {
    pub repetitions: u64,
    pub stage: Stage,
    pub row: usize,
}

/// A run was ended early.
#[derive(Debug)]
struct Stopped;

/// The work: T, V and W, and the count of the steps taken.
#[derive(Clone, Debug)]
pub struct Work {
    pub t: Matrix,
    pub v: Matrix,
    pub w: Matrix,
    pub steps: u64,
    /// The extremes of T, V and W so far.
    pub extremes: [Extremes; 3],
    pub first_beyond: Option<FirstBeyond>,
    /// None if (A) was never repeated.
    pub deepest: Option<Deepest>,
    until: Until,
}

/// A run with what it came to.
#[derive(Clone, Debug)]
pub struct Run {
    pub work: Work,
    /// r, if the run came to the end.
    pub rank: Option<usize>,
}

/// The identity with `size` rows.
pub fn identity(size: usize) -> Matrix {
    (0..size)
        .map(|i| (0..size).map(|j| i128::from(i == j)).collect())
        .collect()
}

/// x + q·y.
fn plus(x: i128, q: i128, y: i128) -> i128 {
    q.checked_mul(y)
        .and_then(|product| x.checked_add(product))
        .expect("values are within 2^62")
}

impl Work {
    /// R7.1.
    fn begin(problem: &Problem, until: Until) -> Work {
        let size = problem.columns();
        let mut work = Work {
            t: problem.c(),
            v: identity(size),
            w: identity(size),
            steps: 0,
            extremes: [Extremes::default(); 3],
            first_beyond: None,
            deepest: None,
            until,
        };
        for j in 0..size {
            work.note_columns(j);
            work.note_row_of_w(j);
        }
        work
    }

    fn columns(&self) -> usize {
        self.w.len()
    }

    /// Takes column j of T and V into the extremes.
    fn note_columns(&mut self, j: usize) {
        for (matrix, extremes) in [&self.t, &self.v].into_iter().zip(&mut self.extremes) {
            for row in matrix {
                extremes.least = extremes.least.min(row[j]);
                extremes.most = extremes.most.max(row[j]);
            }
        }
    }

    /// Takes row i of W into the extremes.
    fn note_row_of_w(&mut self, i: usize) {
        let extremes = &mut self.extremes[2];
        for &value in &self.w[i] {
            extremes.least = extremes.least.min(value);
            extremes.most = extremes.most.max(value);
        }
    }

    /// Judges the values after a step: notes the first beyond M, and says
    /// whether the run goes on.
    fn judge(&mut self, stage: Stage) -> Result<(), Stopped> {
        let peak = self.peak();
        if peak <= M {
            return Ok(());
        }
        if self.first_beyond.is_none() {
            let found = [Of::T, Of::V, Of::W]
                .into_iter()
                .zip(self.extremes)
                .find_map(|(of, extremes)| {
                    [extremes.most, extremes.least]
                        .into_iter()
                        .find(|value| value.abs() > M)
                        .map(|value| (of, value))
                });
            let (of, value) = found.expect("the peak is one of them");
            self.first_beyond = Some(FirstBeyond {
                step: self.steps,
                stage,
                of,
                value,
                peak,
            });
        }
        if self.until == Until::BeyondM || peak > GO_ON_BOUND {
            return Err(Stopped);
        }
        Ok(())
    }

    /// The largest absolute value that T, V or W ever held.
    pub fn peak(&self) -> i128 {
        self.extremes
            .iter()
            .map(|e| e.most.max(-e.least))
            .max()
            .expect("there are three")
    }

    /// R7.2: swap i and j.
    fn swap(&mut self, i: usize, j: usize) {
        for row in self.t.iter_mut().chain(&mut self.v) {
            row.swap(i, j);
        }
        self.w.swap(i, j);
        self.steps += 1;
    }

    /// R7.3: negate i.
    fn negate(&mut self, i: usize, stage: Stage) -> Result<(), Stopped> {
        for row in self.t.iter_mut().chain(&mut self.v) {
            row[i] = -row[i];
        }
        for value in &mut self.w[i] {
            *value = -*value;
        }
        self.steps += 1;
        self.note_columns(i);
        self.note_row_of_w(i);
        self.judge(stage)
    }

    /// R7.4: add q times i to j. In W it is row i that changes.
    fn add(&mut self, q: i128, i: usize, j: usize, stage: Stage) -> Result<(), Stopped> {
        for row in self.t.iter_mut().chain(&mut self.v) {
            row[j] = plus(row[j], q, row[i]);
        }
        for k in 0..self.columns() {
            self.w[i][k] = plus(self.w[i][k], -q, self.w[j][k]);
        }
        self.steps += 1;
        self.note_columns(j);
        self.note_row_of_w(i);
        self.judge(stage)
    }

    /// Takes so many repetitions of (A) in one row into the deepest.
    fn note_repetitions(&mut self, repetitions: u64, stage: Stage, row: usize) {
        if repetitions > self.deepest.map_or(0, |deepest| deepest.repetitions) {
            self.deepest = Some(Deepest {
                repetitions,
                stage,
                row,
            });
        }
    }

    /// The entry of T (stage 1) or of V (stages 2 and 3).
    fn entry(&self, of: Of, row: usize, column: usize) -> i128 {
        match of {
            Of::T => self.t[row][column],
            Of::V => self.v[row][column],
            Of::W => unreachable!("no stage looks at W"),
        }
    }

    /// One row of stage 1 (`of` is T, `first` is 0) or of stage 2 (`of` is V,
    /// `first` is r): R7.7 to R7.9. The active columns are `first..a`. Gives a
    /// after the row.
    fn one_row(
        &mut self,
        of: Of,
        row: usize,
        first: usize,
        a: usize,
        (stage_a, stage_b): (Stage, Stage),
    ) -> Result<usize, Stopped> {
        // A row without a non-zero active entry is passed over.
        if (first..a).all(|column| self.entry(of, row, column) == 0) {
            return Ok(a);
        }
        // (A)
        let mut repetitions = 0;
        let p = loop {
            // Of several least absolute values the lowest column: min_by_key
            // gives the first of equals.
            let p = (first..a)
                .filter(|&column| self.entry(of, row, column) != 0)
                .min_by_key(|&column| self.entry(of, row, column).abs())
                .expect("the row is not all zero");
            let other = (first..a).find(|&j| j != p && self.entry(of, row, j) != 0);
            let Some(j) = other else {
                break p;
            };
            // Rust's division cuts toward zero.
            let q = -(self.entry(of, row, j) / self.entry(of, row, p));
            repetitions += 1;
            self.note_repetitions(repetitions, stage_a, row);
            self.add(q, p, j, stage_a)?;
        };
        // (B); `last` is the last active column.
        let last = a - 1;
        if p != last {
            self.swap(p, last);
        }
        if self.entry(of, row, last) < 0 {
            self.negate(last, stage_b)?;
        }
        for k in a..self.columns() {
            // The pivot is positive, so that div_euclid is the floor.
            let q = -self.entry(of, row, k).div_euclid(self.entry(of, row, last));
            if q != 0 {
                self.add(q, last, k, stage_b)?;
            }
        }
        Ok(a - 1)
    }

    /// R7.10: the reordering, which is no step.
    fn reorder(&mut self, a: usize) {
        for row in self.t.iter_mut().chain(&mut self.v) {
            row.rotate_left(a);
        }
        self.w.rotate_left(a);
    }

    /// Stage 1, without the reordering; gives a.
    fn stage_1(&mut self) -> Result<usize, Stopped> {
        let mut a = self.columns();
        for row in (0..self.t.len()).rev() {
            a = self.one_row(Of::T, row, 0, a, (Stage::OneA, Stage::OneB))?;
        }
        Ok(a)
    }

    /// Stage 2.
    fn stage_2(&mut self, r: usize) -> Result<(), Stopped> {
        let mut a = self.columns();
        for row in (0..self.columns()).rev() {
            a = self.one_row(Of::V, row, r, a, (Stage::TwoA, Stage::TwoB))?;
        }
        Ok(())
    }

    /// Stage 3 (R7.13), the lowest pivot row first.
    fn stage_3(&mut self, r: usize) -> Result<(), Stopped> {
        let size = self.columns();
        let mut pivots: Vec<(usize, usize)> = (r..size)
            .map(|column| {
                let row = (0..size).rev().find(|&row| self.v[row][column] != 0);
                (row.expect("V has an inverse"), column)
            })
            .collect();
        pivots.sort_unstable();
        for (row, column) in pivots.into_iter().rev() {
            for k in 0..r {
                let q = -self.v[row][k].div_euclid(self.v[row][column]);
                if q != 0 {
                    self.add(q, column, k, Stage::Three)?;
                }
            }
        }
        Ok(())
    }

    /// All of the steps; gives r.
    fn all(&mut self) -> Result<usize, Stopped> {
        let a = self.stage_1()?;
        self.reorder(a);
        // R7.11: r is the number of columns that came to the front.
        let r = self.columns() - a;
        self.stage_2(r)?;
        self.stage_3(r)?;
        Ok(r)
    }
}

/// The work after stage 1, before the reordering, with its a; none if a value
/// went beyond M. For looking into a run; the build does not use it.
pub fn run_stage_1(problem: &Problem) -> Option<(Work, usize)> {
    let mut work = Work::begin(problem, Until::BeyondM);
    let a = work.stage_1().ok()?;
    Some((work, a))
}

/// The run of the steps on a problem.
pub fn run(problem: &Problem, until: Until) -> Run {
    let mut work = Work::begin(problem, until);
    let rank = work.all().ok();
    Run { work, rank }
}
