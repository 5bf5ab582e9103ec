//! Compares a library with the model on one call of `weigh`, and each answer that is
//! no refusal with the definitions through `verify`.

use super::lists::{Between, Output, NO_ENTRY, NO_EXPONENT, NO_MODULUS};
use super::same;
use super::single::Compared;
use crate::library::Library;
use crate::model::calls::{weigh, WEIGHTS_SIZE};
use crate::model::Problem;
use crate::random::Random;
use crate::verify;

/// One input of the call; the lengths are those of the lists, and `weights` is that of
/// the output.
#[derive(Clone, Debug)]
pub struct WeighCall {
    pub m: u32,
    pub n: u32,
    pub matrix: Vec<i32>,
    pub moduli: Vec<i32>,
    pub exponents: Vec<i32>,
    pub weights: usize,
}

/// What the answer has to be: number, place and the weights.
pub type Due = (u32, u32, Vec<i32>);

impl WeighCall {
    /// A well-made call: right lengths, an output of its least size.
    pub fn new(problem: &Problem, exponents: &[i32]) -> WeighCall {
        WeighCall {
            m: problem.m as u32,
            n: problem.n as u32,
            matrix: problem.matrix.clone(),
            moduli: problem.moduli.clone(),
            exponents: exponents.to_vec(),
            weights: WEIGHTS_SIZE,
        }
    }
}

/// Calls the library and the model on the same input and compares them; gives the
/// answer's number. `written` is what the answer has to be, where that is known.
fn compare(
    library: &mut dyn Library,
    call: &WeighCall,
    written: Option<&Due>,
    random: &mut Random,
) -> Result<u32, String> {
    let matrix = Between::new(&call.matrix, NO_ENTRY, random);
    let moduli = Between::new(&call.moduli, NO_MODULUS, random);
    let exponents = Between::new(&call.exponents, NO_EXPONENT, random);
    let before = Output::new(call.weights, random);
    let (mut here, mut there) = (before.clone(), before.clone());
    let answer = library.weigh(
        call.m,
        call.n,
        matrix.lend(),
        moduli.lend(),
        exponents.lend(),
        here.lend(),
    );
    matrix.unchanged("weigh", &call.matrix, |x| x)?;
    moduli.unchanged("weigh", &call.moduli, |x| x)?;
    exponents.unchanged("weigh", &call.exponents, |x| x)?;
    let right = weigh(
        call.m,
        call.n,
        &call.matrix,
        &call.moduli,
        &call.exponents,
        there.lend(),
    );
    same("weigh", answer, right)?;
    here.is("the weights", &there)?;
    // What follows does not use the model. On a refusal nothing is written.
    let rows = if answer.number == 0 {
        call.m as usize
    } else {
        0
    };
    here.rest_is("the weights", &before, rows)?;
    let given = here.numbers(rows);
    if let Some((number, place, weights)) = written {
        let written = (*number, *place, &weights[..]);
        same(
            "weigh, as written",
            (answer.number, answer.place, given),
            written,
        )?;
    }
    if answer.number == 0 {
        let (m, n) = (call.m as usize, call.n as usize);
        let problem = Problem::new(m, n, call.matrix.clone(), call.moduli.clone());
        verify::weights(&problem, &call.exponents, given)?;
    }
    Ok(answer.number)
}

impl Compared for WeighCall {
    const NAME: &'static str = "weigh";
    const NUMBERS: &'static [u32] = &[0, 1, 2, 3, 4, 5, 6];
    type Due = Due;

    fn describe(&self) -> String {
        format!(
            "weigh: m {} n {}, {} weights\nmatrix ({}) {:?}\nmoduli ({}) {:?}\nexponents ({}) {:?}\n",
            self.m,
            self.n,
            self.weights,
            self.matrix.len(),
            self.matrix,
            self.moduli.len(),
            self.moduli,
            self.exponents.len(),
            self.exponents,
        )
    }

    fn compare(
        &self,
        library: &mut dyn Library,
        written: Option<&Due>,
        random: &mut Random,
    ) -> Result<u32, String> {
        compare(library, self, written, random)
    }
}
