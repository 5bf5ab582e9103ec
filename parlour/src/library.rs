//! The calls of the C library on whole lists, and what they answer.

#[allow(unsafe_code)]
mod c;

pub use c::CLibrary;

/// The dimensions of a problem as numbers: the matrix row after row, and a modulus
/// for each row; 0 says that the row has none.
#[derive(Clone, Debug, PartialEq, Eq)]
pub struct Problem {
    pub matrix: Vec<i32>,
    pub moduli: Vec<i32>,
    pub quantities: usize,
}

/// A term: its coefficient, and an exponent for each quantity or for each group.
#[derive(Clone, Debug, PartialEq, Eq)]
pub struct Term {
    pub coefficient: i32,
    pub exponents: Vec<i32>,
}

/// Numbers row after row.
#[derive(Clone, Debug, PartialEq, Eq)]
pub struct Matrix {
    pub columns: usize,
    pub entries: Vec<i32>,
}

impl Matrix {
    pub fn rows(&self) -> std::slice::ChunksExact<'_, i32> {
        self.entries.chunks_exact(self.columns)
    }
}

/// What a build leaves.
#[derive(Clone, Debug, PartialEq, Eq)]
pub struct Built {
    pub rank: usize,
    /// The count of moduli that are not 0.
    pub moduli: usize,
    pub steps: u64,
    pub h: Matrix,
    pub v: Matrix,
    pub w: Matrix,
}

impl Built {
    /// The count of groups.
    pub fn groups(&self) -> usize {
        self.v.columns - self.rank
    }

    /// The exponents of a group: its column of V, cut to the quantity rows.
    pub fn group(&self, group: usize) -> Vec<i32> {
        let of_quantities = self.v.rows().skip(self.moduli);
        of_quantities.map(|row| row[self.rank + group]).collect()
    }
}

/// What a translation leaves: the count of groups, and the terms in the groups.
#[derive(Clone, Debug, PartialEq, Eq)]
pub struct Translated {
    pub groups: usize,
    pub terms: Vec<Term>,
}

/// A refusal: its number and place, and the reading that refusal 11 carries.
#[derive(Clone, Copy, Debug, PartialEq)]
pub struct Refusal {
    pub number: u32,
    pub place: usize,
    pub reading: f64,
}

/// The calls. The tests put a library in its place that answers wrongly.
pub trait Library {
    fn build(&self, problem: &Problem) -> Result<Built, Refusal>;
    fn translate(&self, problem: &Problem, terms: &[Term]) -> Result<Translated, Refusal>;
    fn weigh(&self, problem: &Problem, exponents: &[i32]) -> Result<Vec<i32>, Refusal>;
    fn gauge(&self, problem: &Problem, readings: &[f64], group: usize) -> Result<f64, Refusal>;
}
