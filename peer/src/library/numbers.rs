//! Wrong answers to the calls over numbers: mistakes that are easily made, to see that
//! the comparison tells each of them.

use crate::model::calls::{
    self, BuildAnswer, TranslateAnswer, H_SIZE, KEPT_SIZE, TRANSLATED_SIZE, V_SIZE, W_SIZE,
};

/// A mistake of the build, or of the translation where its name says so.
#[derive(Clone, Copy, Debug, PartialEq, Eq)]
pub enum Wrong {
    /// A refusal with another number or place, with a field that is not zero, or that
    /// writes.
    Number,
    Place,
    Field,
    Touch,
    /// Another rank, count of moduli or count of steps.
    Rank,
    Moduli,
    Steps,
    /// Another last entry of H, V or W, and a number written behind it.
    H,
    V,
    W,
    BehindH,
    BehindV,
    BehindW,
    /// Numbers with their bytes in the other order.
    Bytes,
    /// m and n exchanged; V and W exchanged; W not written.
    Sizes,
    VAndW,
    WithoutW,
    /// A matrix that is too long is taken; so are outputs with room for this problem.
    LongMatrix,
    Room,
    /// 3 before 2.
    OutputsFirst,
    /// The same of a translation.
    TranslateNumber,
    TranslatePlace,
    TranslateField,
    TranslateTouch,
    TranslateBytes,
    TranslateSizes,
    TranslateRoom,
    TranslateOutputsFirst,
    /// Another d, last coefficient or last exponent, and a number written behind it.
    D,
    Kept,
    Translated,
    BehindKept,
    BehindTranslated,
    /// Only the first term is translated; no coefficient is written; more than 64 terms
    /// are taken; coefficients and exponents exchanged.
    FirstTerm,
    WithoutKept,
    MoreTerms,
    Lists,
}

pub const WRONGS: [Wrong; 37] = [
    Wrong::Number,
    Wrong::Place,
    Wrong::Field,
    Wrong::Touch,
    Wrong::Rank,
    Wrong::Moduli,
    Wrong::Steps,
    Wrong::H,
    Wrong::V,
    Wrong::W,
    Wrong::BehindH,
    Wrong::BehindV,
    Wrong::BehindW,
    Wrong::Bytes,
    Wrong::Sizes,
    Wrong::VAndW,
    Wrong::WithoutW,
    Wrong::LongMatrix,
    Wrong::Room,
    Wrong::OutputsFirst,
    Wrong::TranslateNumber,
    Wrong::TranslatePlace,
    Wrong::TranslateField,
    Wrong::TranslateTouch,
    Wrong::TranslateBytes,
    Wrong::TranslateSizes,
    Wrong::TranslateRoom,
    Wrong::TranslateOutputsFirst,
    Wrong::D,
    Wrong::Kept,
    Wrong::Translated,
    Wrong::BehindKept,
    Wrong::BehindTranslated,
    Wrong::FirstTerm,
    Wrong::WithoutKept,
    Wrong::MoreTerms,
    Wrong::Lists,
];

/// What a build is lent: sizes, inputs, and h, v and w.
#[derive(Clone, Debug)]
pub struct Build {
    pub m: u32,
    pub n: u32,
    pub inputs: [Vec<i32>; 2],
    pub outputs: [Vec<i32>; 3],
}

/// What a translation is lent: sizes, inputs, and kept and translated.
#[derive(Clone, Debug)]
pub struct Translate {
    pub m: u32,
    pub n: u32,
    pub inputs: [Vec<i32>; 4],
    pub outputs: [Vec<i32>; 2],
}

/// Lets what is lent be written to, and gives the answer.
impl Build {
    pub fn right(&mut self) -> BuildAnswer {
        let ([matrix, moduli], [h, v, w]) = (&self.inputs, &mut self.outputs);
        calls::build(self.m, self.n, matrix, moduli, h, v, w)
    }
}

impl Translate {
    pub fn right(&mut self) -> TranslateAnswer {
        let [matrix, moduli, coefficients, exponents] = &self.inputs;
        let [kept, translated] = &mut self.outputs;
        calls::translate(
            self.m,
            self.n,
            matrix,
            moduli,
            coefficients,
            exponents,
            kept,
            translated,
        )
    }
}

/// Outputs that were made longer are cut to their lengths again, if nothing that was
/// written is cut off.
fn cut<const K: usize>(
    outputs: &mut [Vec<i32>; K],
    lengths: [usize; K],
    written: [usize; K],
) -> bool {
    let fits = (0..K).all(|i| written[i] <= lengths[i]);
    for i in 0..K {
        outputs[i].truncate(lengths[i]);
    }
    fits
}

/// Each number's bytes in the other order.
fn turn(numbers: &mut [i32]) {
    numbers.iter_mut().for_each(|x| *x = x.swap_bytes());
}

impl Wrong {
    /// The wrong answer to a build, which may write to what is lent; or the right one
    /// where the mistake makes no difference.
    pub fn build(self, lent: &mut Build) -> BuildAnswer {
        let before = lent.clone();
        let mut answer = lent.right();
        let good = answer.number == 0;
        let (m, n) = (lent.m as usize, lent.n as usize);
        let size = if good { n + answer.moduli as usize } else { 0 };
        let counts = [m * size, size * size, size * size];
        let behind = |i: usize| good && counts[i] < before.outputs[i].len();
        let outputs = &mut lent.outputs;
        match self {
            Wrong::Number if !good => answer.number += 1,
            Wrong::Place if !good => answer.place += 1,
            Wrong::Field if !good => answer.moduli = 1,
            Wrong::Touch if !good && !outputs[0].is_empty() => outputs[0][0] ^= 1,
            Wrong::Rank if good => answer.rank += 1,
            Wrong::Moduli if good => answer.moduli += 1,
            Wrong::Steps if good => answer.steps += 1,
            Wrong::H if good => outputs[0][counts[0] - 1] ^= 1,
            Wrong::V if good => outputs[1][counts[1] - 1] ^= 1,
            Wrong::W if good => outputs[2][counts[2] - 1] ^= 1,
            Wrong::BehindH if behind(0) => outputs[0][counts[0]] = 0,
            Wrong::BehindV if behind(1) => outputs[1][counts[1]] = 0,
            Wrong::BehindW if behind(2) => outputs[2][counts[2]] = 0,
            Wrong::Bytes if good => (0..3).for_each(|i| turn(&mut outputs[i][..counts[i]])),
            Wrong::WithoutW if good => outputs[2] = before.outputs[2].clone(),
            Wrong::VAndW if good => {
                let v = outputs[1][..counts[1]].to_vec();
                let w = outputs[2][..counts[2]].to_vec();
                outputs[1][..counts[1]].copy_from_slice(&w);
                outputs[2][..counts[2]].copy_from_slice(&v);
            }
            Wrong::Sizes => {
                *lent = before;
                std::mem::swap(&mut lent.m, &mut lent.n);
                answer = lent.right();
                std::mem::swap(&mut lent.m, &mut lent.n);
            }
            Wrong::LongMatrix if answer.number == 2 && m <= 8 && before.inputs[0].len() > m * n => {
                lent.inputs[0].truncate(m * n);
                answer = lent.right();
                lent.inputs = before.inputs;
            }
            Wrong::Room if answer.number == 3 => {
                let lengths = [0, 1, 2].map(|i: usize| lent.outputs[i].len());
                for (output, least) in lent.outputs.iter_mut().zip([H_SIZE, V_SIZE, W_SIZE]) {
                    output.resize(least.max(output.len()), 0);
                }
                let other = lent.right();
                let size = n + other.moduli as usize;
                if cut(
                    &mut lent.outputs,
                    lengths,
                    [m * size, size * size, size * size],
                ) {
                    answer = other;
                } else {
                    lent.outputs = before.outputs;
                }
            }
            Wrong::OutputsFirst if answer.number == 2 && before.outputs[0].len() < H_SIZE => {
                answer.number = 3;
            }
            _ => {}
        }
        answer
    }

    /// The same for a translation.
    pub fn translate(self, lent: &mut Translate) -> TranslateAnswer {
        let before = lent.clone();
        let mut answer = lent.right();
        let good = answer.number == 0;
        let terms = before.inputs[2].len();
        let d = answer.d as usize;
        let counts = [terms, terms * d];
        let written = |i: usize| good && counts[i] > 0;
        let behind = |i: usize| good && counts[i] < before.outputs[i].len();
        let outputs = &mut lent.outputs;
        match self {
            Wrong::TranslateNumber if !good => answer.number += 1,
            Wrong::TranslatePlace if !good => answer.place += 1,
            Wrong::TranslateField if !good => answer.d = 1,
            Wrong::TranslateTouch if !good && !outputs[1].is_empty() => outputs[1][0] ^= 1,
            Wrong::D if good => answer.d += 1,
            Wrong::Kept if written(0) => outputs[0][counts[0] - 1] ^= 1,
            Wrong::Translated if written(1) => outputs[1][counts[1] - 1] ^= 1,
            Wrong::BehindKept if behind(0) => outputs[0][counts[0]] = 0,
            Wrong::BehindTranslated if behind(1) => outputs[1][counts[1]] = 0,
            Wrong::TranslateBytes if good => {
                (0..2).for_each(|i| turn(&mut outputs[i][..counts[i]]));
            }
            Wrong::WithoutKept if good => outputs[0] = before.outputs[0].clone(),
            Wrong::FirstTerm if good && terms > 1 => {
                outputs[1][d..counts[1]].copy_from_slice(&before.outputs[1][d..counts[1]]);
            }
            Wrong::TranslateSizes => {
                *lent = before;
                std::mem::swap(&mut lent.m, &mut lent.n);
                answer = lent.right();
                std::mem::swap(&mut lent.m, &mut lent.n);
            }
            Wrong::Lists => {
                *lent = before;
                lent.inputs.swap(2, 3);
                answer = lent.right();
                lent.inputs.swap(2, 3);
            }
            Wrong::MoreTerms if answer.number == 2 && terms > 64 => {
                lent.inputs[2].truncate(64);
                lent.inputs[3].truncate(64 * before.n as usize);
                answer = lent.right();
                lent.inputs = before.inputs;
            }
            Wrong::TranslateRoom if answer.number == 3 => {
                let lengths = [0, 1].map(|i: usize| lent.outputs[i].len());
                for (output, least) in lent.outputs.iter_mut().zip([KEPT_SIZE, TRANSLATED_SIZE]) {
                    output.resize(least.max(output.len()), 0);
                }
                let other = lent.right();
                if cut(
                    &mut lent.outputs,
                    lengths,
                    [terms, terms * other.d as usize],
                ) {
                    answer = other;
                } else {
                    lent.outputs = before.outputs;
                }
            }
            Wrong::TranslateOutputsFirst
                if answer.number == 2 && before.outputs[0].len() < KEPT_SIZE =>
            {
                answer.number = 3;
            }
            _ => {}
        }
        answer
    }
}

#[cfg(test)]
mod tests {
    use super::super::{Damage, Damaged, Library, Model};
    use super::*;
    use crate::comparing::{numbers, Call};
    use crate::generate;
    use crate::random::Random;

    /// The first of these calls on which the library is found wrong.
    fn seen(library: &mut dyn Library, calls: &[Call]) -> Option<usize> {
        let mut patterns = Random::new(2);
        calls.iter().position(|call| {
            numbers::compare_build(library, call, &mut patterns).is_err()
                || numbers::compare_translate(library, call, &mut patterns).is_err()
        })
    }

    /// The model passes, and each mistake is seen, made in one answer only.
    #[test]
    fn all_are_seen() {
        let mut random = Random::new(1);
        let calls: Vec<Call> = (0..2000).map(|_| generate::call(&mut random)).collect();
        assert_eq!(seen(&mut Model, &calls), None);
        for wrong in WRONGS {
            let mut library = Damaged::new(Damage::Numbers(wrong), 1);
            assert!(seen(&mut library, &calls).is_some(), "{wrong:?}");
        }
    }
}
