//! The C library ../target/staticlib/libbench.a, as ../include/glaukemis.h has it: the
//! only unsafe code of the program.

use super::{Built, Library, Matrix, Problem, Refusal, Term, Translated};

#[repr(C)]
struct BuildAnswer {
    number: u32,
    place: u32,
    rank: u32,
    moduli: u32,
    steps: u64,
}

#[repr(C)]
struct TranslateAnswer {
    number: u32,
    place: u32,
    d: u32,
}

#[repr(C)]
struct WeighAnswer {
    number: u32,
    place: u32,
}

#[repr(C)]
struct GaugeAnswer {
    number: u32,
    place: u32,
    value: f64,
}

#[link(name = "bench", kind = "static")]
extern "C" {
    fn glaukemis_build_numbers(
        m: u32,
        n: u32,
        matrix: *const i32,
        matrix_count: usize,
        moduli: *const i32,
        moduli_count: usize,
        h: *mut i32,
        h_count: usize,
        v: *mut i32,
        v_count: usize,
        w: *mut i32,
        w_count: usize,
    ) -> BuildAnswer;

    fn glaukemis_translate_numbers(
        m: u32,
        n: u32,
        matrix: *const i32,
        matrix_count: usize,
        moduli: *const i32,
        moduli_count: usize,
        coefficients: *const i32,
        coefficients_count: usize,
        exponents: *const i32,
        exponents_count: usize,
        kept: *mut i32,
        kept_count: usize,
        translated: *mut i32,
        translated_count: usize,
    ) -> TranslateAnswer;

    fn glaukemis_weigh(
        m: u32,
        n: u32,
        matrix: *const i32,
        matrix_count: usize,
        moduli: *const i32,
        moduli_count: usize,
        exponents: *const i32,
        exponents_count: usize,
        weights: *mut i32,
        weights_count: usize,
    ) -> WeighAnswer;

    fn glaukemis_gauge(
        m: u32,
        n: u32,
        matrix: *const i32,
        matrix_count: usize,
        moduli: *const i32,
        moduli_count: usize,
        readings: *const f64,
        readings_count: usize,
        group: u32,
    ) -> GaugeAnswer;
}

/// The least counts of the outputs.
const H: usize = 192;
const V: usize = 576;
const W: usize = 576;
const KEPT: usize = 64;
const TRANSLATED: usize = 1024;
const WEIGHTS: usize = 8;

/// The library itself.
pub struct CLibrary;

/// A count as the library takes it. What is beyond 32 bits is beyond every limit too.
fn count(size: usize) -> u32 {
    u32::try_from(size).unwrap_or(u32::MAX)
}

/// Number 0 says that the call was taken.
fn taken(number: u32, place: u32, reading: f64) -> Result<(), Refusal> {
    if number == 0 {
        return Ok(());
    }
    Err(Refusal {
        number,
        place: place as usize,
        reading,
    })
}

/// The first rows of a filled output.
fn matrix(output: &[i32], rows: usize, columns: usize) -> Matrix {
    Matrix {
        columns,
        entries: output[..rows * columns].to_vec(),
    }
}

impl Problem {
    fn m(&self) -> u32 {
        count(self.moduli.len())
    }

    fn n(&self) -> u32 {
        count(self.quantities)
    }
}

impl Library for CLibrary {
    fn build(&self, problem: &Problem) -> Result<Built, Refusal> {
        let (mut h, mut v, mut w) = ([0; H], [0; V], [0; W]);
        // Sound: each pointer and count come from one list, and the outputs do not
        // overlap.
        let answer = unsafe {
            glaukemis_build_numbers(
                problem.m(),
                problem.n(),
                problem.matrix.as_ptr(),
                problem.matrix.len(),
                problem.moduli.as_ptr(),
                problem.moduli.len(),
                h.as_mut_ptr(),
                h.len(),
                v.as_mut_ptr(),
                v.len(),
                w.as_mut_ptr(),
                w.len(),
            )
        };
        taken(answer.number, answer.place, 0.0)?;
        let moduli = answer.moduli as usize;
        let columns = problem.quantities + moduli;
        Ok(Built {
            rank: answer.rank as usize,
            moduli,
            steps: answer.steps,
            h: matrix(&h, problem.moduli.len(), columns),
            v: matrix(&v, columns, columns),
            w: matrix(&w, columns, columns),
        })
    }

    fn translate(&self, problem: &Problem, terms: &[Term]) -> Result<Translated, Refusal> {
        let coefficients: Vec<i32> = terms.iter().map(|term| term.coefficient).collect();
        let all = terms.iter().flat_map(|term| &term.exponents);
        let exponents: Vec<i32> = all.copied().collect();
        let (mut kept, mut translated) = ([0; KEPT], [0; TRANSLATED]);
        // Sound: as above.
        let answer = unsafe {
            glaukemis_translate_numbers(
                problem.m(),
                problem.n(),
                problem.matrix.as_ptr(),
                problem.matrix.len(),
                problem.moduli.as_ptr(),
                problem.moduli.len(),
                coefficients.as_ptr(),
                coefficients.len(),
                exponents.as_ptr(),
                exponents.len(),
                kept.as_mut_ptr(),
                kept.len(),
                translated.as_mut_ptr(),
                translated.len(),
            )
        };
        taken(answer.number, answer.place, 0.0)?;
        let groups = answer.d as usize;
        let term = |i: usize| Term {
            coefficient: kept[i],
            exponents: translated[i * groups..(i + 1) * groups].to_vec(),
        };
        Ok(Translated {
            groups,
            terms: (0..terms.len()).map(term).collect(),
        })
    }

    fn weigh(&self, problem: &Problem, exponents: &[i32]) -> Result<Vec<i32>, Refusal> {
        let mut weights = [0; WEIGHTS];
        // Sound: as above.
        let answer = unsafe {
            glaukemis_weigh(
                problem.m(),
                problem.n(),
                problem.matrix.as_ptr(),
                problem.matrix.len(),
                problem.moduli.as_ptr(),
                problem.moduli.len(),
                exponents.as_ptr(),
                exponents.len(),
                weights.as_mut_ptr(),
                weights.len(),
            )
        };
        taken(answer.number, answer.place, 0.0)?;
        Ok(weights[..problem.moduli.len()].to_vec())
    }

    fn gauge(&self, problem: &Problem, readings: &[f64], group: usize) -> Result<f64, Refusal> {
        // Sound: each pointer and count come from one list, and nothing is written.
        let answer = unsafe {
            glaukemis_gauge(
                problem.m(),
                problem.n(),
                problem.matrix.as_ptr(),
                problem.matrix.len(),
                problem.moduli.as_ptr(),
                problem.moduli.len(),
                readings.as_ptr(),
                readings.len(),
                count(group),
            )
        };
        taken(answer.number, answer.place, answer.value)?;
        Ok(answer.value)
    }
}
