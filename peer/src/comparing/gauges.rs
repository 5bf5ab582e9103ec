//! Compares a library with the model on one call of `gauge`, bit for bit, and
//! each answer from 11 on with the definitions through `verify`.

use super::lists::{Between, NO_ENTRY, NO_MODULUS};
use super::single::Compared;
use super::{compare_build, same, Call};
use crate::library::Library;
use crate::model::gauges::gauge;
use crate::model::lines::Input;
use crate::model::Problem;
use crate::random::Random;
use crate::verify::gauges::{due, Due};

/// One input of the call; the lengths are those of the lists.
#[derive(Clone, Debug)]
pub struct GaugeCall {
    pub m: u32,
    pub n: u32,
    pub matrix: Vec<i32>,
    pub moduli: Vec<i32>,
    pub readings: Vec<f64>,
    pub group: u32,
}

impl GaugeCall {
    /// A call with right sizes and lengths of matrix and moduli.
    pub fn new(problem: &Problem, readings: &[f64], group: u32) -> GaugeCall {
        GaugeCall {
            m: problem.m as u32,
            n: problem.n as u32,
            matrix: problem.matrix.clone(),
            moduli: problem.moduli.clone(),
            readings: readings.to_vec(),
            group,
        }
    }

    /// The problem of a call that came through the checks of sizes and lengths.
    fn problem(&self) -> Problem {
        let (m, n) = (self.m as usize, self.n as usize);
        Problem::new(m, n, self.matrix.clone(), self.moduli.clone())
    }
}

/// What is around the readings: no reading.
const NO_READING: f64 = f64::from_bits(0x7ff4_0000_0000_dead);

/// The answer is what it has to be.
fn held(why: &str, given: Due, due: Due) -> Result<(), String> {
    if given == due {
        Ok(())
    } else {
        Err(format!("gauge: library {given:x?}, {why} {due:x?}"))
    }
}

/// Calls the library and the model on the same input and compares them; gives
/// the answer's number. `written` is what the answer has to be, where that is known.
fn compare(
    library: &mut dyn Library,
    call: &GaugeCall,
    written: Option<&Due>,
    random: &mut Random,
) -> Result<u32, String> {
    let matrix = Between::new(&call.matrix, NO_ENTRY, random);
    let moduli = Between::new(&call.moduli, NO_MODULUS, random);
    let readings = Between::new(&call.readings, NO_READING, random);
    let answer = library.gauge(
        call.m,
        call.n,
        matrix.lend(),
        moduli.lend(),
        readings.lend(),
        call.group,
    );
    matrix.unchanged("gauge", &call.matrix, |x| x)?;
    moduli.unchanged("gauge", &call.moduli, |x| x)?;
    readings.unchanged("gauge", &call.readings, f64::to_bits)?;
    let right = gauge(
        call.m,
        call.n,
        &call.matrix,
        &call.moduli,
        &call.readings,
        call.group,
    );
    same("gauge", answer, right)?;
    // What follows does not use the model.
    let given = (answer.number, answer.place, answer.value.to_bits());
    if let Some(&written) = written {
        held("as written", given, written)?;
    }
    if !(1..=7).contains(&answer.number) {
        // With the V of the library's own build.
        let problem = call.problem();
        let whole = Call::new(&Input {
            problem: problem.clone(),
            coefficients: Vec::new(),
            exponents: Vec::new(),
        });
        let (_, built) = compare_build(library, &whole, random)?;
        let (rank, v) = built.ok_or("a group was asked for, but the build is refused")?;
        let due = due(&problem, rank, &v, &call.readings, call.group)?;
        held("by the definitions", given, due)?;
    }
    Ok(answer.number)
}

impl Compared for GaugeCall {
    const NAME: &'static str = "gauge";
    const NUMBERS: &'static [u32] = &[0, 1, 2, 4, 5, 7, 11, 24, 12, 13];
    type Due = Due;

    /// All of the input; each reading as its bits.
    fn describe(&self) -> String {
        let readings: Vec<String> = self
            .readings
            .iter()
            .map(|x| format!("{:016x} ({x:e})", x.to_bits()))
            .collect();
        format!(
            "gauge: m {} n {} group {}\nmatrix ({}) {:?}\nmoduli ({}) {:?}\nreadings ({}) {}\n",
            self.m,
            self.n,
            self.group,
            self.matrix.len(),
            self.matrix,
            self.moduli.len(),
            self.moduli,
            readings.len(),
            readings.join(", "),
        )
    }

    fn compare(
        &self,
        library: &mut dyn Library,
        written: Option<&Due>,
        random: &mut Random,
    ) -> Result<u32, String> {
        compare(library, self, written, random)
    }
}
