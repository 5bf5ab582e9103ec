//! What is compared with the model: the C library, or something in its place.

mod gauges;
pub mod numbers;
pub mod weights;

use crate::comparing::gauges::GaugeCall;
use crate::comparing::weights::WeighCall;
use crate::model::calls::{
    build_bytes, flat, to_bytes, translate_bytes, BuildAnswer, TranslateAnswer, WeighAnswer,
};
use crate::model::gauges::{gauge, GaugeAnswer};
use crate::model::steps::{run, Of, Until};
use crate::model::{calls, Problem, M};
pub use gauges::{Wrong, WRONGS};

/// The calls of the C library, on bytes and on numbers.
pub trait Library {
    #[allow(clippy::too_many_arguments)]
    fn build(
        &mut self,
        m: u32,
        n: u32,
        matrix: &[u8],
        moduli: &[u8],
        h: &mut [u8],
        v: &mut [u8],
        w: &mut [u8],
    ) -> BuildAnswer;

    #[allow(clippy::too_many_arguments)]
    fn translate(
        &mut self,
        m: u32,
        n: u32,
        matrix: &[u8],
        moduli: &[u8],
        coefficients: &[u8],
        exponents: &[u8],
        kept: &mut [u8],
        translated: &mut [u8],
    ) -> TranslateAnswer;

    #[allow(clippy::too_many_arguments)]
    fn build_numbers(
        &mut self,
        m: u32,
        n: u32,
        matrix: &[i32],
        moduli: &[i32],
        h: &mut [i32],
        v: &mut [i32],
        w: &mut [i32],
    ) -> BuildAnswer;

    fn weigh(
        &mut self,
        m: u32,
        n: u32,
        matrix: &[i32],
        moduli: &[i32],
        exponents: &[i32],
        weights: &mut [i32],
    ) -> WeighAnswer;

    #[allow(clippy::too_many_arguments)]
    fn translate_numbers(
        &mut self,
        m: u32,
        n: u32,
        matrix: &[i32],
        moduli: &[i32],
        coefficients: &[i32],
        exponents: &[i32],
        kept: &mut [i32],
        translated: &mut [i32],
    ) -> TranslateAnswer;

    fn gauge(
        &mut self,
        m: u32,
        n: u32,
        matrix: &[i32],
        moduli: &[i32],
        readings: &[f64],
        group: u32,
    ) -> GaugeAnswer;
}

/// The C library ../target/staticlib/libbench.a.
#[cfg(feature = "bench")]
pub struct CLibrary;

#[cfg(feature = "bench")]
mod c {
    use super::{BuildAnswer, GaugeAnswer, TranslateAnswer, WeighAnswer};

    #[link(name = "bench", kind = "static")]
    extern "C" {
        pub fn glaukemis_build(
            m: u32,
            n: u32,
            matrix: *const u8,
            matrix_len: usize,
            moduli: *const u8,
            moduli_len: usize,
            h: *mut u8,
            h_len: usize,
            v: *mut u8,
            v_len: usize,
            w: *mut u8,
            w_len: usize,
        ) -> BuildAnswer;

        pub fn glaukemis_translate(
            m: u32,
            n: u32,
            matrix: *const u8,
            matrix_len: usize,
            moduli: *const u8,
            moduli_len: usize,
            coefficients: *const u8,
            coefficients_len: usize,
            exponents: *const u8,
            exponents_len: usize,
            kept: *mut u8,
            kept_len: usize,
            translated: *mut u8,
            translated_len: usize,
        ) -> TranslateAnswer;

        pub fn glaukemis_build_numbers(
            m: u32,
            n: u32,
            matrix: *const i32,
            matrix_count: usize,
            moduli: *const i32,
            moduli_count: usize,
            h: *mut i32,
            h_count: usize,
            v: *mut i32,
            v_count: usize,
            w: *mut i32,
            w_count: usize,
        ) -> BuildAnswer;

        pub fn glaukemis_weigh(
            m: u32,
            n: u32,
            matrix: *const i32,
            matrix_count: usize,
            moduli: *const i32,
            moduli_count: usize,
            exponents: *const i32,
            exponents_count: usize,
            weights: *mut i32,
            weights_count: usize,
        ) -> WeighAnswer;

        pub fn glaukemis_translate_numbers(
            m: u32,
            n: u32,
            matrix: *const i32,
            matrix_count: usize,
            moduli: *const i32,
            moduli_count: usize,
            coefficients: *const i32,
            coefficients_count: usize,
            exponents: *const i32,
            exponents_count: usize,
            kept: *mut i32,
            kept_count: usize,
            translated: *mut i32,
            translated_count: usize,
        ) -> TranslateAnswer;

        pub fn glaukemis_gauge(
            m: u32,
            n: u32,
            matrix: *const i32,
            matrix_count: usize,
            moduli: *const i32,
            moduli_count: usize,
            readings: *const f64,
            readings_count: usize,
            group: u32,
        ) -> GaugeAnswer;
    }
}

#[cfg(feature = "bench")]
impl Library for CLibrary {
    fn build(
        &mut self,
        m: u32,
        n: u32,
        matrix: &[u8],
        moduli: &[u8],
        h: &mut [u8],
        v: &mut [u8],
        w: &mut [u8],
    ) -> BuildAnswer {
        // Sound: each pointer and length come from one slice, and the outputs
        // do not overlap.
        unsafe {
            c::glaukemis_build(
                m,
                n,
                matrix.as_ptr(),
                matrix.len(),
                moduli.as_ptr(),
                moduli.len(),
                h.as_mut_ptr(),
                h.len(),
                v.as_mut_ptr(),
                v.len(),
                w.as_mut_ptr(),
                w.len(),
            )
        }
    }

    fn translate(
        &mut self,
        m: u32,
        n: u32,
        matrix: &[u8],
        moduli: &[u8],
        coefficients: &[u8],
        exponents: &[u8],
        kept: &mut [u8],
        translated: &mut [u8],
    ) -> TranslateAnswer {
        // Sound: as above.
        unsafe {
            c::glaukemis_translate(
                m,
                n,
                matrix.as_ptr(),
                matrix.len(),
                moduli.as_ptr(),
                moduli.len(),
                coefficients.as_ptr(),
                coefficients.len(),
                exponents.as_ptr(),
                exponents.len(),
                kept.as_mut_ptr(),
                kept.len(),
                translated.as_mut_ptr(),
                translated.len(),
            )
        }
    }

    fn build_numbers(
        &mut self,
        m: u32,
        n: u32,
        matrix: &[i32],
        moduli: &[i32],
        h: &mut [i32],
        v: &mut [i32],
        w: &mut [i32],
    ) -> BuildAnswer {
        // Sound: as above.
        unsafe {
            c::glaukemis_build_numbers(
                m,
                n,
                matrix.as_ptr(),
                matrix.len(),
                moduli.as_ptr(),
                moduli.len(),
                h.as_mut_ptr(),
                h.len(),
                v.as_mut_ptr(),
                v.len(),
                w.as_mut_ptr(),
                w.len(),
            )
        }
    }

    fn weigh(
        &mut self,
        m: u32,
        n: u32,
        matrix: &[i32],
        moduli: &[i32],
        exponents: &[i32],
        weights: &mut [i32],
    ) -> WeighAnswer {
        // Sound: as above.
        unsafe {
            c::glaukemis_weigh(
                m,
                n,
                matrix.as_ptr(),
                matrix.len(),
                moduli.as_ptr(),
                moduli.len(),
                exponents.as_ptr(),
                exponents.len(),
                weights.as_mut_ptr(),
                weights.len(),
            )
        }
    }

    fn translate_numbers(
        &mut self,
        m: u32,
        n: u32,
        matrix: &[i32],
        moduli: &[i32],
        coefficients: &[i32],
        exponents: &[i32],
        kept: &mut [i32],
        translated: &mut [i32],
    ) -> TranslateAnswer {
        // Sound: as above.
        unsafe {
            c::glaukemis_translate_numbers(
                m,
                n,
                matrix.as_ptr(),
                matrix.len(),
                moduli.as_ptr(),
                moduli.len(),
                coefficients.as_ptr(),
                coefficients.len(),
                exponents.as_ptr(),
                exponents.len(),
                kept.as_mut_ptr(),
                kept.len(),
                translated.as_mut_ptr(),
                translated.len(),
            )
        }
    }

    fn gauge(
        &mut self,
        m: u32,
        n: u32,
        matrix: &[i32],
        moduli: &[i32],
        readings: &[f64],
        group: u32,
    ) -> GaugeAnswer {
        // Sound: each pointer and count come from one slice, and nothing is
        // written.
        unsafe {
            c::glaukemis_gauge(
                m,
                n,
                matrix.as_ptr(),
                matrix.len(),
                moduli.as_ptr(),
                moduli.len(),
                readings.as_ptr(),
                readings.len(),
                group,
            )
        }
    }
}

/// The model itself in the library's place.
pub struct Model;

impl Library for Model {
    fn build(
        &mut self,
        m: u32,
        n: u32,
        matrix: &[u8],
        moduli: &[u8],
        h: &mut [u8],
        v: &mut [u8],
        w: &mut [u8],
    ) -> BuildAnswer {
        build_bytes(m, n, matrix, moduli, h, v, w)
    }

    fn translate(
        &mut self,
        m: u32,
        n: u32,
        matrix: &[u8],
        moduli: &[u8],
        coefficients: &[u8],
        exponents: &[u8],
        kept: &mut [u8],
        translated: &mut [u8],
    ) -> TranslateAnswer {
        translate_bytes(
            m,
            n,
            matrix,
            moduli,
            coefficients,
            exponents,
            kept,
            translated,
        )
    }

    fn build_numbers(
        &mut self,
        m: u32,
        n: u32,
        matrix: &[i32],
        moduli: &[i32],
        h: &mut [i32],
        v: &mut [i32],
        w: &mut [i32],
    ) -> BuildAnswer {
        calls::build(m, n, matrix, moduli, h, v, w)
    }

    fn weigh(
        &mut self,
        m: u32,
        n: u32,
        matrix: &[i32],
        moduli: &[i32],
        exponents: &[i32],
        weights: &mut [i32],
    ) -> WeighAnswer {
        calls::weigh(m, n, matrix, moduli, exponents, weights)
    }

    fn translate_numbers(
        &mut self,
        m: u32,
        n: u32,
        matrix: &[i32],
        moduli: &[i32],
        coefficients: &[i32],
        exponents: &[i32],
        kept: &mut [i32],
        translated: &mut [i32],
    ) -> TranslateAnswer {
        calls::translate(
            m,
            n,
            matrix,
            moduli,
            coefficients,
            exponents,
            kept,
            translated,
        )
    }

    fn gauge(
        &mut self,
        m: u32,
        n: u32,
        matrix: &[i32],
        moduli: &[i32],
        readings: &[f64],
        group: u32,
    ) -> GaugeAnswer {
        gauge(m, n, matrix, moduli, readings, group)
    }
}

/// The ways in which `Damaged` is wrong.
#[derive(Clone, Copy, Debug, PartialEq, Eq)]
pub enum Damage {
    /// A refusal with another number, or with another place.
    Number,
    Place,
    /// A refusal with a field that is not zero.
    FieldOnRefusal,
    /// A refusal that touches the first byte of an output.
    TouchOnRefusal,
    /// A build with another rank, count of moduli or count of steps.
    Rank,
    Moduli,
    Steps,
    /// A build with another last entry of H, V or W.
    H,
    V,
    W,
    /// A build that writes behind W's last entry.
    BehindW,
    /// A translation with another d, coefficient or exponent.
    D,
    Kept,
    Translated,
    /// A translation that writes behind the last exponent.
    BehindTranslated,
    /// Every run that holds -(M + 1) but nothing further out is accepted, as by
    /// a 32-bit number.
    LeastPasses,
    /// Every run that comes to M or -M is refused 7.
    MostIsRefused,
    /// Values beyond M are looked for in two of T, V and W only; what ends
    /// within M is accepted.
    WithoutT,
    WithoutV,
    WithoutW,
    /// A wrong answer of a call over numbers, of weigh, or of gauge.
    Numbers(numbers::Wrong),
    Weigh(weights::Wrong),
    Gauge(Wrong),
}

/// Every way.
pub fn damages() -> Vec<Damage> {
    DAMAGES
        .into_iter()
        .chain(numbers::WRONGS.map(Damage::Numbers))
        .chain(weights::WRONGS.map(Damage::Weigh))
        .chain(WRONGS.map(Damage::Gauge))
        .collect()
}

impl Damage {
    /// The word for it; `GaugeBit` for `Gauge(Bit)`.
    pub fn name(self) -> String {
        format!("{self:?}").replace(['(', ')'], "")
    }
}

/// The ways to damage a build or a translation.
const DAMAGES: [Damage; 20] = [
    Damage::Number,
    Damage::Place,
    Damage::FieldOnRefusal,
    Damage::TouchOnRefusal,
    Damage::Rank,
    Damage::Moduli,
    Damage::Steps,
    Damage::H,
    Damage::V,
    Damage::W,
    Damage::BehindW,
    Damage::D,
    Damage::Kept,
    Damage::Translated,
    Damage::BehindTranslated,
    Damage::LeastPasses,
    Damage::MostIsRefused,
    Damage::WithoutT,
    Damage::WithoutV,
    Damage::WithoutW,
];

/// The model with one answer damaged (with the damages that judge a run otherwise,
/// from `LeastPasses` to `WithoutW`, every answer that they touch), to see that a
/// comparison can fail.
pub struct Damaged {
    damage: Damage,
    /// How many answers that can be damaged come before the one that is.
    before: usize,
}

impl Damaged {
    pub fn new(damage: Damage, before: usize) -> Damaged {
        Damaged { damage, before }
    }

    /// Whether this answer, which can be damaged so, is the one.
    fn now(&mut self, damage: Damage, possible: bool) -> bool {
        if damage != self.damage || !possible {
            return false;
        }
        let now = self.before == 0;
        self.before = self.before.wrapping_sub(1);
        now
    }

    /// A problem's build as the damages that judge a run would have it.
    fn of_run(&self, problem: &Problem, h: &mut [u8], v: &mut [u8], w: &mut [u8]) -> BuildAnswer {
        let run = run(problem, Until::TheEnd);
        let extremes = run.work.extremes;
        let all_but = |of: Of| {
            let ended = [&run.work.t, &run.work.v, &run.work.w];
            let ends_within = ended.into_iter().flatten().flatten().all(|x| x.abs() <= M);
            let others = (0..3).filter(|&other| other != of as usize);
            let mut sizes = others.map(|other| extremes[other].most.max(-extremes[other].least));
            ends_within && sizes.all(|size| size <= M)
        };
        let within = match self.damage {
            Damage::LeastPasses => extremes.iter().all(|e| -M - 1 <= e.least && e.most <= M),
            Damage::WithoutT => all_but(Of::T),
            Damage::WithoutV => all_but(Of::V),
            Damage::WithoutW => all_but(Of::W),
            _ => run.work.peak() < M,
        };
        let mut answer = BuildAnswer {
            number: 7,
            place: 0,
            rank: 0,
            moduli: 0,
            steps: 0,
        };
        if let (Some(rank), true) = (run.rank, within) {
            answer.number = 0;
            answer.rank = rank as u32;
            answer.moduli = problem.s() as u32;
            answer.steps = run.work.steps;
            for (output, matrix) in [(h, &run.work.t), (v, &run.work.v), (w, &run.work.w)] {
                let bytes = to_bytes(&flat(matrix));
                output[..bytes.len()].copy_from_slice(&bytes);
            }
        }
        answer
    }
}

impl Library for Damaged {
    fn build(
        &mut self,
        m: u32,
        n: u32,
        matrix: &[u8],
        moduli: &[u8],
        h: &mut [u8],
        v: &mut [u8],
        w: &mut [u8],
    ) -> BuildAnswer {
        let saved = (h.to_vec(), v.to_vec(), w.to_vec());
        let mut answer = build_bytes(m, n, matrix, moduli, h, v, w);
        let good = answer.number == 0;
        let size = if good {
            (n + answer.moduli) as usize
        } else {
            0
        };
        if self.now(Damage::Number, !good) {
            answer.number += 1;
        }
        if self.now(Damage::Place, !good) {
            answer.place += 1;
        }
        if self.now(Damage::FieldOnRefusal, !good) {
            answer.steps = 1;
        }
        if self.now(Damage::TouchOnRefusal, !good && !v.is_empty()) {
            v[0] ^= 1;
        }
        if self.now(Damage::Rank, good) {
            answer.rank += 1;
        }
        if self.now(Damage::Moduli, good) {
            answer.moduli += 1;
        }
        if self.now(Damage::Steps, good) {
            answer.steps += 1;
        }
        if self.now(Damage::H, good) {
            h[4 * m as usize * size - 1] ^= 1;
        }
        if self.now(Damage::V, good) {
            v[4 * size * size - 1] ^= 1;
        }
        if self.now(Damage::W, good) {
            w[4 * size * size - 1] ^= 1;
        }
        if self.now(Damage::BehindW, good && 4 * size * size < w.len()) {
            w[4 * size * size] ^= 1;
        }
        let by_run = matches!(
            self.damage,
            Damage::LeastPasses
                | Damage::MostIsRefused
                | Damage::WithoutT
                | Damage::WithoutV
                | Damage::WithoutW
        );
        if by_run && (good || answer.number == 7) {
            h.copy_from_slice(&saved.0);
            v.copy_from_slice(&saved.1);
            w.copy_from_slice(&saved.2);
            let problem = Problem::new(
                m as usize,
                n as usize,
                calls::from_bytes(matrix),
                calls::from_bytes(moduli),
            );
            answer = self.of_run(&problem, h, v, w);
        }
        answer
    }

    fn translate(
        &mut self,
        m: u32,
        n: u32,
        matrix: &[u8],
        moduli: &[u8],
        coefficients: &[u8],
        exponents: &[u8],
        kept: &mut [u8],
        translated: &mut [u8],
    ) -> TranslateAnswer {
        let mut answer = translate_bytes(
            m,
            n,
            matrix,
            moduli,
            coefficients,
            exponents,
            kept,
            translated,
        );
        let good = answer.number == 0;
        let written = coefficients.len() * answer.d as usize;
        if self.now(Damage::D, good) {
            answer.d += 1;
        }
        if self.now(Damage::Kept, good && !coefficients.is_empty()) {
            kept[coefficients.len() - 1] ^= 1;
        }
        if self.now(Damage::Translated, good && written > 0) {
            translated[written - 1] ^= 1;
        }
        if self.now(Damage::BehindTranslated, good && written < translated.len()) {
            translated[written] ^= 1;
        }
        answer
    }

    fn build_numbers(
        &mut self,
        m: u32,
        n: u32,
        matrix: &[i32],
        moduli: &[i32],
        h: &mut [i32],
        v: &mut [i32],
        w: &mut [i32],
    ) -> BuildAnswer {
        let mut lent = numbers::Build {
            m,
            n,
            inputs: [matrix.to_vec(), moduli.to_vec()],
            outputs: [h.to_vec(), v.to_vec(), w.to_vec()],
        };
        let right = calls::build(m, n, matrix, moduli, h, v, w);
        let Damage::Numbers(wrong) = self.damage else {
            return right;
        };
        let answer = wrong.build(&mut lent);
        let outputs = [h, v, w];
        let differs = answer != right || (0..3).any(|i| *outputs[i] != lent.outputs[i]);
        if !self.now(self.damage, differs) {
            return right;
        }
        for (output, wrong) in outputs.into_iter().zip(&lent.outputs) {
            output.copy_from_slice(wrong);
        }
        answer
    }

    fn weigh(
        &mut self,
        m: u32,
        n: u32,
        matrix: &[i32],
        moduli: &[i32],
        exponents: &[i32],
        weights: &mut [i32],
    ) -> WeighAnswer {
        let call = WeighCall {
            m,
            n,
            matrix: matrix.to_vec(),
            moduli: moduli.to_vec(),
            exponents: exponents.to_vec(),
            weights: weights.len(),
        };
        let right = weights::right(&call, weights);
        let given = match self.damage {
            Damage::Weigh(wrong) => {
                let given = wrong.answer(&call, weights);
                match self.now(self.damage, given != right) {
                    true => given,
                    false => right,
                }
            }
            _ => right,
        };
        weights.copy_from_slice(&given.1);
        given.0
    }

    fn translate_numbers(
        &mut self,
        m: u32,
        n: u32,
        matrix: &[i32],
        moduli: &[i32],
        coefficients: &[i32],
        exponents: &[i32],
        kept: &mut [i32],
        translated: &mut [i32],
    ) -> TranslateAnswer {
        let mut lent = numbers::Translate {
            m,
            n,
            inputs: [matrix, moduli, coefficients, exponents].map(<[i32]>::to_vec),
            outputs: [kept.to_vec(), translated.to_vec()],
        };
        let right = calls::translate(
            m,
            n,
            matrix,
            moduli,
            coefficients,
            exponents,
            kept,
            translated,
        );
        let Damage::Numbers(wrong) = self.damage else {
            return right;
        };
        let answer = wrong.translate(&mut lent);
        let outputs = [kept, translated];
        let differs = answer != right || (0..2).any(|i| *outputs[i] != lent.outputs[i]);
        if !self.now(self.damage, differs) {
            return right;
        }
        for (output, wrong) in outputs.into_iter().zip(&lent.outputs) {
            output.copy_from_slice(wrong);
        }
        answer
    }

    fn gauge(
        &mut self,
        m: u32,
        n: u32,
        matrix: &[i32],
        moduli: &[i32],
        readings: &[f64],
        group: u32,
    ) -> GaugeAnswer {
        let right = gauge(m, n, matrix, moduli, readings, group);
        let Damage::Gauge(wrong) = self.damage else {
            return right;
        };
        let call = GaugeCall {
            m,
            n,
            matrix: matrix.to_vec(),
            moduli: moduli.to_vec(),
            readings: readings.to_vec(),
            group,
        };
        let answer = wrong.answer(&call, right);
        if self.now(self.damage, answer != right) {
            answer
        } else {
            right
        }
    }
}

#[cfg(test)]
mod tests {
    use super::*;
    use crate::comparing::{Call, Tally};
    use crate::generate;
    use crate::random::Random;

    fn tally(library: &mut dyn Library, calls: &[Call]) -> Tally {
        let mut tally = Tally::default();
        let mut patterns = Random::new(2);
        for call in calls {
            let _ = tally.compare(library, call, &mut patterns);
        }
        tally
    }

    /// The model passes, and each damage is seen.
    #[test]
    fn damages_are_seen() {
        let mut random = Random::new(1);
        let mut calls = generate::known_and_near_m();
        calls.extend((0..600).map(|_| generate::call(&mut random)));
        assert_eq!(tally(&mut Model, &calls).failed, 0);
        for damage in DAMAGES {
            let mut library = Damaged::new(damage, 3);
            let failed = tally(&mut library, &calls).failed;
            assert!(failed > 0, "{damage:?} was not seen");
        }
    }

    /// The calls on number slices answer as those on byte slices do.
    #[test]
    fn number_slices_and_byte_slices() {
        let mut random = Random::new(3);
        let mut refusals = [0; 11];
        for _ in 0..3000 {
            let mut call = generate::call(&mut random);
            for length in [&mut call.h, &mut call.v, &mut call.w] {
                *length -= *length % 4;
            }
            for bytes in [
                &mut call.matrix,
                &mut call.moduli,
                &mut call.coefficients,
                &mut call.exponents,
            ] {
                bytes.truncate(bytes.len() / 4 * 4);
            }
            call.kept -= call.kept % 4;
            call.translated -= call.translated % 4;

            let mut bytes = [call.h, call.v, call.w].map(|length| vec![7u8; length]);
            let mut numbers = [0, 1, 2].map(|i: usize| calls::from_bytes(&bytes[i]));
            let [h, v, w] = &mut bytes;
            let answer = Model.build(call.m, call.n, &call.matrix, &call.moduli, h, v, w);
            let matrix = calls::from_bytes(&call.matrix);
            let moduli = calls::from_bytes(&call.moduli);
            let [h, v, w] = &mut numbers;
            let same = calls::build(call.m, call.n, &matrix, &moduli, h, v, w);
            assert_eq!(answer, same);
            for i in 0..3 {
                assert_eq!(bytes[i], to_bytes(&numbers[i]));
            }

            let mut bytes = [call.kept, call.translated].map(|length| vec![7u8; length]);
            let mut numbers = [0, 1].map(|i: usize| calls::from_bytes(&bytes[i]));
            let [kept, translated] = &mut bytes;
            let answer = Model.translate(
                call.m,
                call.n,
                &call.matrix,
                &call.moduli,
                &call.coefficients,
                &call.exponents,
                kept,
                translated,
            );
            let [kept, translated] = &mut numbers;
            let same = calls::translate(
                call.m,
                call.n,
                &matrix,
                &moduli,
                &calls::from_bytes(&call.coefficients),
                &calls::from_bytes(&call.exponents),
                kept,
                translated,
            );
            assert_eq!(answer, same);
            for i in 0..2 {
                assert_eq!(bytes[i], to_bytes(&numbers[i]));
            }
            refusals[answer.number as usize] += 1;
        }
        // All but 9, and 10, which is the program's.
        assert!(refusals[..9].iter().all(|&count| count > 0), "{refusals:?}");
    }
}
