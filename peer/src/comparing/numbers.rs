//! Compares a library with the model on the calls over numbers: the build and the
//! translation, on the numbers of an input for the calls over bytes.

use super::lists::{Between, Output, NO_ENTRY, NO_EXPONENT, NO_MODULUS, STRANGE};
use super::{same, Call};
use crate::library::Library;
use crate::model::calls::{self, from_bytes};
use crate::random::Random;

/// The problem of an input, each list between numbers that are refused.
struct Lent {
    m: u32,
    n: u32,
    matrix: (Vec<i32>, Between<i32>),
    moduli: (Vec<i32>, Between<i32>),
}

/// The numbers of a byte slice, and the list that is lent.
fn lent(bytes: &[u8], around: i32, random: &mut Random) -> (Vec<i32>, Between<i32>) {
    let numbers = from_bytes(bytes);
    let between = Between::new(&numbers, around, random);
    (numbers, between)
}

impl Lent {
    fn new(call: &Call, random: &mut Random) -> Lent {
        Lent {
            m: call.m,
            n: call.n,
            matrix: lent(&call.matrix, NO_ENTRY, random),
            moduli: lent(&call.moduli, NO_MODULUS, random),
        }
    }

    fn unchanged(&self, call: &str) -> Result<(), String> {
        self.matrix.1.unchanged(call, &self.matrix.0, |x| x)?;
        self.moduli.1.unchanged(call, &self.moduli.0, |x| x)
    }
}

/// Calls the library's build over numbers and the model's and compares them; gives
/// the answer's number.
pub(crate) fn compare_build(
    library: &mut dyn Library,
    call: &Call,
    random: &mut Random,
) -> Result<u32, String> {
    let problem = Lent::new(call, random);
    let before = [call.h, call.v, call.w].map(|length| Output::new(length / 4, random));
    let (mut here, mut there) = (before.clone(), before.clone());
    let [h, v, w] = &mut here;
    let answer = library.build_numbers(
        problem.m,
        problem.n,
        problem.matrix.1.lend(),
        problem.moduli.1.lend(),
        h.lend(),
        v.lend(),
        w.lend(),
    );
    problem.unchanged("build_numbers")?;
    let [h, v, w] = &mut there;
    let right = calls::build(
        problem.m,
        problem.n,
        &problem.matrix.0,
        &problem.moduli.0,
        h.lend(),
        v.lend(),
        w.lend(),
    );
    same("build_numbers", answer, right)?;
    // What follows does not use the model. On a refusal nothing is written.
    let counts = match answer.number {
        0 => {
            let size = (call.n + answer.moduli) as usize;
            [call.m as usize * size, size * size, size * size]
        }
        _ => [0; 3],
    };
    let names = ["H in numbers", "V in numbers", "W in numbers"];
    for i in 0..3 {
        here[i].rest_is(names[i], &before[i], counts[i])?;
        here[i].is(names[i], &there[i])?;
    }
    Ok(answer.number)
}

/// The same for the translation.
pub(crate) fn compare_translate(
    library: &mut dyn Library,
    call: &Call,
    random: &mut Random,
) -> Result<u32, String> {
    let problem = Lent::new(call, random);
    let (coefficients, lent_coefficients) = lent(&call.coefficients, STRANGE, random);
    let (exponents, lent_exponents) = lent(&call.exponents, NO_EXPONENT, random);
    let before = [call.kept, call.translated].map(|length| Output::new(length / 4, random));
    let (mut here, mut there) = (before.clone(), before.clone());
    let [kept, translated] = &mut here;
    let answer = library.translate_numbers(
        problem.m,
        problem.n,
        problem.matrix.1.lend(),
        problem.moduli.1.lend(),
        lent_coefficients.lend(),
        lent_exponents.lend(),
        kept.lend(),
        translated.lend(),
    );
    problem.unchanged("translate_numbers")?;
    lent_coefficients.unchanged("translate_numbers", &coefficients, |x| x)?;
    lent_exponents.unchanged("translate_numbers", &exponents, |x| x)?;
    let [kept, translated] = &mut there;
    let right = calls::translate(
        problem.m,
        problem.n,
        &problem.matrix.0,
        &problem.moduli.0,
        &coefficients,
        &exponents,
        kept.lend(),
        translated.lend(),
    );
    same("translate_numbers", answer, right)?;
    // What follows does not use the model. On a refusal nothing is written.
    let terms = coefficients.len();
    let counts = match answer.number {
        0 => [terms, terms * answer.d as usize],
        _ => [0; 2],
    };
    let names = ["the coefficients in numbers", "the exponents in numbers"];
    for i in 0..2 {
        here[i].rest_is(names[i], &before[i], counts[i])?;
    }
    same(
        "coefficients kept",
        here[0].numbers(counts[0]),
        &coefficients[..counts[0]],
    )?;
    for i in 0..2 {
        here[i].is(names[i], &there[i])?;
    }
    Ok(answer.number)
}
