//! Wrong answers to the call `weigh`: mistakes that are easily made, to see that the
//! comparison tells each of them.

use crate::comparing::weights::WeighCall;
use crate::model::calls::{build_numbers, narrow, weigh, WeighAnswer, WEIGHTS_SIZE};
use crate::model::Problem;

/// A mistake.
#[derive(Clone, Copy, Debug, PartialEq, Eq)]
pub enum Wrong {
    /// A refusal with another number or place, or that writes.
    Number,
    Place,
    Touch,
    /// Another weight in the first or in the last row; one that is not written; one
    /// weight more.
    First,
    Last,
    LeftOut,
    Behind,
    /// The product without its remainder; a remainder with the sign of the modulus, or
    /// always positive; the quotient in its place.
    NoRemainder,
    Floored,
    Positive,
    Quotient,
    /// A modulus of 1 taken for none.
    OneIsNone,
    /// Every weight that of the first row; the columns taken for the rows; m and n
    /// exchanged; the moduli in the other order.
    FirstRow,
    Transposed,
    Sizes,
    ModuliReversed,
    /// The product of 16 bits.
    Short,
    /// More or fewer exponents than n, or more entries, are taken; so is an output with
    /// room for m weights only.
    MoreExponents,
    FewerExponents,
    MoreEntries,
    RoomForM,
    /// 3 before 2, 5 before 4, 6 before 5; 7 where the build is refused; 8 where a weight
    /// is not 0.
    OutputFirst,
    EntriesFirst,
    ExponentsFirst,
    Builds,
    Judges,
    /// The last number out of range, not the first; 10,001 and 1001 are taken.
    LastPlace,
    Exponent10001,
    Modulus1001,
}

pub const WRONGS: [Wrong; 29] = [
    Wrong::Number,
    Wrong::Place,
    Wrong::Touch,
    Wrong::First,
    Wrong::Last,
    Wrong::LeftOut,
    Wrong::Behind,
    Wrong::NoRemainder,
    Wrong::Floored,
    Wrong::Positive,
    Wrong::Quotient,
    Wrong::OneIsNone,
    Wrong::FirstRow,
    Wrong::Transposed,
    Wrong::Sizes,
    Wrong::ModuliReversed,
    Wrong::Short,
    Wrong::MoreExponents,
    Wrong::FewerExponents,
    Wrong::MoreEntries,
    Wrong::RoomForM,
    Wrong::OutputFirst,
    Wrong::EntriesFirst,
    Wrong::ExponentsFirst,
    Wrong::Builds,
    Wrong::Judges,
    Wrong::LastPlace,
    Wrong::Exponent10001,
    Wrong::Modulus1001,
];

fn refused(number: u32, place: usize) -> WeighAnswer {
    WeighAnswer {
        number,
        place: place as u32,
    }
}

/// The right answer to a call, and what it leaves in the output.
pub fn right(call: &WeighCall, lent: &[i32]) -> (WeighAnswer, Vec<i32>) {
    let mut weights = lent.to_vec();
    let answer = weigh(
        call.m,
        call.n,
        &call.matrix,
        &call.moduli,
        &call.exponents,
        &mut weights,
    );
    (answer, weights)
}

impl Wrong {
    /// The wrong answer and what it leaves in the output, or the right ones where the
    /// mistake makes no difference.
    pub fn answer(self, call: &WeighCall, lent: &[i32]) -> (WeighAnswer, Vec<i32>) {
        let (answer, mut weights) = right(call, lent);
        let good = answer.number == 0;
        let (m, n) = (call.m as usize, call.n as usize);
        let out = |list: &[i32], least, most| {
            let mut places = list.iter();
            match self {
                Wrong::LastPlace => places.rposition(|x| !(least..=most).contains(x)),
                _ => places.position(|x| !(least..=most).contains(x)),
            }
        };
        // The answer to another call, with the output cut or made longer for it.
        let as_if = |change: &dyn Fn(&mut WeighCall)| {
            let mut other = call.clone();
            change(&mut other);
            let mut room = lent.to_vec();
            room.resize(other.weights, 0);
            let (answer, written) = right(&other, &room);
            room = lent.to_vec();
            let count = if answer.number == 0 { m } else { 0 };
            if count > room.len() {
                return right(call, lent);
            }
            room[..count].copy_from_slice(&written[..count]);
            (answer, room)
        };
        match self {
            Wrong::Number if !good => (refused(answer.number + 1, answer.place as usize), weights),
            Wrong::Place if !good => (refused(answer.number, answer.place as usize + 1), weights),
            Wrong::Touch if !good && !weights.is_empty() => {
                weights[0] ^= 1;
                (answer, weights)
            }
            Wrong::Behind if good && weights.len() > m => {
                weights[m] = 0;
                (answer, weights)
            }
            Wrong::LeftOut if good => {
                weights[m - 1] = lent[m - 1];
                (answer, weights)
            }
            Wrong::Sizes => as_if(&|call| std::mem::swap(&mut call.m, &mut call.n)),
            Wrong::ModuliReversed => as_if(&|call| call.moduli.reverse()),
            Wrong::MoreExponents if call.exponents.len() > n => {
                as_if(&|call| call.exponents.truncate(n))
            }
            Wrong::FewerExponents if call.exponents.len() < n && n <= 16 => {
                as_if(&|call| call.exponents.resize(n, 0))
            }
            Wrong::MoreEntries if m <= 8 && n <= 16 && call.matrix.len() > m * n => {
                as_if(&|call| call.matrix.truncate(m * n))
            }
            Wrong::RoomForM if answer.number == 3 && lent.len() >= m => {
                as_if(&|call| call.weights = WEIGHTS_SIZE)
            }
            Wrong::OutputFirst if answer.number == 2 && lent.len() < WEIGHTS_SIZE => {
                (refused(3, 0), weights)
            }
            Wrong::EntriesFirst if answer.number == 4 => match out(&call.matrix, -1000, 1000) {
                Some(place) => (refused(5, place), weights),
                None => (answer, weights),
            },
            Wrong::ExponentsFirst if (4..=5).contains(&answer.number) => {
                match out(&call.exponents, -10_000, 10_000) {
                    Some(place) => (refused(6, place), weights),
                    None => (answer, weights),
                }
            }
            Wrong::LastPlace if answer.number >= 4 => {
                let place = match answer.number {
                    4 => out(&call.moduli, 0, 1000),
                    5 => out(&call.matrix, -1000, 1000),
                    _ => out(&call.exponents, -10_000, 10_000),
                };
                (refused(answer.number, place.expect("a fault")), weights)
            }
            Wrong::Exponent10001 if answer.number == 6 => as_if(&|call| {
                let taken = |x: &&mut i32| **x == 10_001;
                call.exponents
                    .iter_mut()
                    .filter(taken)
                    .for_each(|x| *x = 10_000);
            }),
            Wrong::Modulus1001 if answer.number == 4 => as_if(&|call| {
                let taken = |x: &&mut i32| **x == 1001;
                call.moduli.iter_mut().filter(taken).for_each(|x| *x = 1000);
            }),
            _ if good => self.of_weights(call, lent, weights),
            _ => (answer, weights),
        }
    }

    /// What becomes of weights.
    fn of_weights(
        self,
        call: &WeighCall,
        lent: &[i32],
        mut weights: Vec<i32>,
    ) -> (WeighAnswer, Vec<i32>) {
        let (m, n) = (call.m as usize, call.n as usize);
        let problem = Problem::new(m, n, call.matrix.clone(), call.moduli.clone());
        if self == Wrong::Builds && build_numbers(&problem).is_err() {
            return (refused(7, 0), lent.to_vec());
        }
        if self == Wrong::Judges && !problem.is_free(&call.exponents) {
            return (refused(8, 0), lent.to_vec());
        }
        for i in 0..m {
            let times = problem.row_times(i, &call.exponents);
            let modulus = i128::from(call.moduli[i]);
            let weight = weights[i];
            weights[i] = match self {
                Wrong::First if i == 0 => weight ^ 1,
                Wrong::Last if i == m - 1 => weight ^ 1,
                Wrong::NoRemainder => narrow(times),
                Wrong::Floored if modulus > 0 => narrow(times.rem_euclid(modulus)),
                Wrong::Positive if modulus > 0 => weight.abs(),
                Wrong::Quotient if modulus > 0 => narrow(times / modulus),
                Wrong::OneIsNone if modulus == 1 => narrow(times),
                Wrong::FirstRow => weights[0],
                Wrong::Transposed => {
                    let entry = |j: usize| i128::from(call.matrix[(j * m + i) % (m * n)]);
                    let products = (0..n).map(|j| entry(j) * i128::from(call.exponents[j]));
                    let sum: i128 = products.sum();
                    narrow(if modulus > 0 { sum % modulus } else { sum })
                }
                Wrong::Short => weight as i16 as i32,
                _ => weight,
            };
        }
        (refused(0, 0), weights)
    }
}

#[cfg(test)]
mod tests {
    use super::super::{Damage, Damaged, Model};
    use super::*;
    use crate::boundary;
    use crate::comparing::single::tests::counted;
    use crate::comparing::single::Compared;
    use crate::comparing::weights::Due;
    use crate::generate;
    use crate::random::Random;

    /// The model passes, and each mistake is seen, made in one answer only.
    fn all_are_seen(calls: &[(WeighCall, Option<Due>)], before: usize) {
        let right = counted(&mut Model, calls);
        assert_eq!((right.failed, right.never(WeighCall::NUMBERS)), (0, vec![]));
        for wrong in WRONGS {
            let mut library = Damaged::new(Damage::Weigh(wrong), before);
            let failed = counted(&mut library, calls).failed;
            assert_eq!(failed, 1, "{wrong:?}");
        }
    }

    /// By the calls with written answers.
    #[test]
    fn seen_by_written_answers() {
        let cases = boundary::weights::cases().into_iter();
        let calls: Vec<_> = cases.map(|case| (case.call, Some(case.due))).collect();
        all_are_seen(&calls, 0);
    }

    /// By the systematic calls.
    #[test]
    fn seen_by_systematic_calls() {
        let calls = generate::weights::systematic(&mut Random::new(1));
        let calls: Vec<_> = calls.into_iter().map(|call| (call, None)).collect();
        all_are_seen(&calls, 0);
    }

    /// By as few random calls as are ever made; more than one of them shows it.
    #[test]
    fn seen_by_random_calls() {
        let mut random = Random::new(1);
        let call = |_| (generate::weights::call(&mut random), None);
        let calls: Vec<_> = (0..2000).map(call).collect();
        all_are_seen(&calls, 1);
    }

    /// A wrong answer is seen against what is written, though the model is wrong in
    /// the same way.
    #[test]
    fn seen_though_the_model_is_wrong() {
        for case in boundary::weights::cases() {
            let (number, place, weights) = case.due;
            let more = weights.iter().copied().chain([0]).collect();
            for due in [
                (number + 1, place, weights.clone()),
                (number, !place, weights.clone()),
                (number, place, more),
                (
                    number,
                    place,
                    weights.iter().map(|x| x ^ 1).chain([0]).collect(),
                ),
            ] {
                let failed = counted(&mut Model, &[(case.call.clone(), Some(due))]).failed;
                assert_eq!(failed, 1);
            }
        }
    }
}
