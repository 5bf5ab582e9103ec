//! The rules in plain Rust with wide whole numbers: the problem and its matrix C
//! (section 5), weights and translation (8). The modules below hold the written
//! steps (`steps`, 7), the calls with their checks (`calls`, 2 to 4), the program's
//! lines (`lines`, 9) and the groups from the gauges (`gauges`, 22).

pub mod calls;
pub mod gauges;
pub mod lines;
pub mod steps;

/// M of R2.8.
pub const M: i128 = 2_147_483_647;

/// The largest m and n, and the largest number of terms.
pub const MOST_ROWS: usize = 8;
pub const MOST_QUANTITIES: usize = 16;
pub const MOST_TERMS: usize = 64;

/// Rows of wide whole numbers.
pub type Matrix = Vec<Vec<i128>>;

/// A refusal's number and place.
#[derive(Clone, Copy, Debug, PartialEq, Eq)]
pub struct Refusal {
    pub number: u32,
    pub place: u32,
}

/// The refusal `number` at `place`.
pub fn refused(number: u32, place: usize) -> Refusal {
    Refusal {
        number,
        place: u32::try_from(place).expect("places are small"),
    }
}

/// R1.1: a row for each dimension, a column for each quantity; the matrix row
/// after row.
#[derive(Clone, Debug, PartialEq, Eq)]
pub struct Problem {
    pub m: usize,
    pub n: usize,
    pub matrix: Vec<i32>,
    pub moduli: Vec<i32>,
}

impl Problem {
    /// A problem whose lengths agree with its sizes.
    pub fn new(m: usize, n: usize, matrix: Vec<i32>, moduli: Vec<i32>) -> Problem {
        assert_eq!(matrix.len(), m * n);
        assert_eq!(moduli.len(), m);
        Problem {
            m,
            n,
            matrix,
            moduli,
        }
    }

    /// A problem from its rows.
    pub fn of_rows(rows: &[&[i32]], moduli: &[i32]) -> Problem {
        Problem::new(
            rows.len(),
            rows[0].len(),
            rows.iter().flat_map(|row| row.iter().copied()).collect(),
            moduli.to_vec(),
        )
    }

    /// The entry in row i and quantity column j.
    pub fn entry(&self, i: usize, j: usize) -> i128 {
        i128::from(self.matrix[i * self.n + j])
    }

    /// The rows with a modulus, from the top row down; 0 says a row has none.
    pub fn modulus_rows(&self) -> Vec<usize> {
        (0..self.m).filter(|&i| self.moduli[i] != 0).collect()
    }

    /// s, the count of non-zero moduli.
    pub fn s(&self) -> usize {
        self.modulus_rows().len()
    }

    /// N = n + s, the number of columns of C.
    pub fn columns(&self) -> usize {
        self.n + self.s()
    }

    /// C (R5.2, R5.3): a column with -p for each row that has a modulus p, these
    /// before the quantity columns.
    pub fn c(&self) -> Matrix {
        let modulus_rows = self.modulus_rows();
        (0..self.m)
            .map(|i| {
                let moduli = modulus_rows.iter().map(|&row| {
                    if row == i {
                        -i128::from(self.moduli[i])
                    } else {
                        0
                    }
                });
                let quantities = (0..self.n).map(|j| self.entry(i, j));
                moduli.chain(quantities).collect()
            })
            .collect()
    }

    /// Row i times v.
    pub fn row_times(&self, i: usize, v: &[i32]) -> i128 {
        (0..self.n)
            .map(|j| self.entry(i, j) * i128::from(v[j]))
            .sum()
    }

    /// The weight of v in row i (R8.1, R8.2). A remainder of Rust's has the sign
    /// of the dividend.
    pub fn weight(&self, i: usize, v: &[i32]) -> i128 {
        let product = self.row_times(i, v);
        match i128::from(self.moduli[i]) {
            0 => product,
            modulus => product % modulus,
        }
    }

    /// R8.3.
    pub fn is_free(&self, v: &[i32]) -> bool {
        (0..self.m).all(|i| self.weight(i, v) == 0)
    }

    /// R8.4: the numbers of k, then v. Only for a free v, so that each division
    /// by a modulus comes out even.
    pub fn k_followed_by(&self, v: &[i32]) -> Vec<i128> {
        assert!(self.is_free(v));
        let k = self
            .modulus_rows()
            .into_iter()
            .map(|i| self.row_times(i, v) / i128::from(self.moduli[i]));
        k.chain(v.iter().map(|&x| i128::from(x))).collect()
    }

    /// R8.5: the translated exponents of a free v.
    pub fn translated(&self, w: &Matrix, rank: usize, v: &[i32]) -> Vec<i128> {
        let full = self.k_followed_by(v);
        w[rank..]
            .iter()
            .map(|row| row.iter().zip(&full).map(|(a, b)| a * b).sum())
            .collect()
    }
}
