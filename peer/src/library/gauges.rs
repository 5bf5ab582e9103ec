//! Wrong answers to the call `gauge`: mistakes that are easily made, to see that
//! the comparison tells each of them.

use crate::comparing::gauges::GaugeCall;
use crate::model::calls::{build_numbers, Built};
use crate::model::gauges::{exponents, gauge, is_bad, running_value, GaugeAnswer};
use crate::model::Problem;

/// A mistake.
#[derive(Clone, Copy, Debug, PartialEq, Eq)]
pub enum Wrong {
    /// A refusal with another number or place, or with -0.0 for 0.0.
    Number,
    Place,
    Zero,
    /// A value with another last bit.
    Bit,
    /// 24, 12 and 13 at place 0.
    NoPlace,
    /// A carried NaN made quiet, or without its sign; a bad reading not carried.
    Quiet,
    Sign,
    NotCarried,
    /// 11 at the last bad reading, or only for quantities that the group has.
    LastBad,
    BadOfGroup,
    /// More readings than n are taken.
    MoreReadings,
    /// The group's number cut to a byte.
    GroupByte,
    /// The groups not cut to the quantity rows; 12 for modulus rows too.
    Uncut,
    ModulusRows,
    /// 11 before 7, 24 before 11, 12 before 11; 12 only when the product comes
    /// to that exponent.
    BadBeforeBuild,
    NoGroupBeforeBad,
    ExponentBeforeBad,
    LateExponent,
    /// 12 at exponent 64, or not yet at 65.
    SixtyFour,
    SixtyFive,
    /// Powers by squaring; a product with 1/x for a division; all products before
    /// the divisions; one division by the product of the divisors; the quantities
    /// from the last to the first.
    Squaring,
    Reciprocal,
    ProductsFirst,
    OneQuotient,
    LastFirst,
    /// A subnormal reading is bad, or a subnormal running value zero.
    SubnormalReading,
    SubnormalValue,
}

pub const WRONGS: [Wrong; 27] = [
    Wrong::Number,
    Wrong::Place,
    Wrong::Zero,
    Wrong::Bit,
    Wrong::NoPlace,
    Wrong::Quiet,
    Wrong::Sign,
    Wrong::NotCarried,
    Wrong::LastBad,
    Wrong::BadOfGroup,
    Wrong::MoreReadings,
    Wrong::GroupByte,
    Wrong::Uncut,
    Wrong::ModulusRows,
    Wrong::BadBeforeBuild,
    Wrong::NoGroupBeforeBad,
    Wrong::ExponentBeforeBad,
    Wrong::LateExponent,
    Wrong::SixtyFour,
    Wrong::SixtyFive,
    Wrong::Squaring,
    Wrong::Reciprocal,
    Wrong::ProductsFirst,
    Wrong::OneQuotient,
    Wrong::LastFirst,
    Wrong::SubnormalReading,
    Wrong::SubnormalValue,
];

fn answer(number: u32, place: u32, value: f64) -> GaugeAnswer {
    GaugeAnswer {
        number,
        place,
        value,
    }
}

/// The answer for a running value at the end, or for none.
fn of_value(value: Option<f64>, group: u32) -> GaugeAnswer {
    match value {
        Some(value) => answer(0, 0, value),
        None => answer(13, group, 0.0),
    }
}

/// A value that is not zero and finite.
fn sound(value: f64) -> Option<f64> {
    (value != 0.0 && value.is_finite()).then_some(value)
}

/// x to a power of at most 64, by squaring.
fn squaring(mut x: f64, mut power: u128) -> f64 {
    let mut value = 1.0;
    while power > 0 {
        if power % 2 == 1 {
            value *= x;
        }
        x *= x;
        power /= 2;
    }
    value
}

impl Wrong {
    /// The wrong answer, or the right one where the mistake makes no difference.
    pub fn answer(self, call: &GaugeCall, right: GaugeAnswer) -> GaugeAnswer {
        match self {
            Wrong::Number if right.number > 0 => GaugeAnswer {
                number: right.number + 1,
                ..right
            },
            Wrong::Place if right.number > 0 => GaugeAnswer {
                place: right.place.wrapping_add(1),
                ..right
            },
            Wrong::Zero if right.number > 0 && right.number != 11 => GaugeAnswer {
                value: -0.0,
                ..right
            },
            Wrong::Bit if right.number == 0 => GaugeAnswer {
                value: f64::from_bits(right.value.to_bits() ^ 1),
                ..right
            },
            Wrong::NoPlace if right.number > 11 => GaugeAnswer { place: 0, ..right },
            Wrong::MoreReadings if right.number == 2 && call.readings.len() > call.n as usize => {
                let readings = &call.readings[..call.n as usize];
                gauge(
                    call.m,
                    call.n,
                    &call.matrix,
                    &call.moduli,
                    readings,
                    call.group,
                )
            }
            Wrong::BadBeforeBuild if right.number == 7 => {
                self.of_bad(&call.readings).unwrap_or(right)
            }
            _ if right.number == 11 => self.of_carried(call, right),
            _ if right.number == 0 || right.number > 11 => self.of_group(call, right),
            _ => right,
        }
    }

    /// Refusal 11 for the first reading that it would take to be bad.
    fn of_bad(self, readings: &[f64]) -> Option<GaugeAnswer> {
        let subnormal = self == Wrong::SubnormalReading;
        let bad = |&x: &f64| is_bad(x) || subnormal && x.is_subnormal();
        let place = readings.iter().position(bad)?;
        Some(answer(11, place as u32, readings[place]))
    }

    /// What becomes of refusal 11.
    fn of_carried(self, call: &GaugeCall, right: GaugeAnswer) -> GaugeAnswer {
        let (problem, built) = built(call);
        let group = exponents(&problem, &built, call.group as usize);
        let bits = right.value.to_bits();
        let (last, &reading) = call
            .readings
            .iter()
            .enumerate()
            .rfind(|(_, x)| is_bad(**x))
            .expect("a bad reading");
        match (self, group) {
            (Wrong::Quiet, _) if right.value.is_nan() => {
                answer(11, right.place, f64::from_bits(bits | 1 << 51))
            }
            (Wrong::Sign, _) if right.value.is_nan() => {
                answer(11, right.place, f64::from_bits(bits << 1 >> 1))
            }
            (Wrong::NotCarried, _) => answer(11, right.place, 0.0),
            (Wrong::LastBad, _) => answer(11, last as u32, reading),
            (Wrong::NoGroupBeforeBad, None) => answer(24, call.group, 0.0),
            (Wrong::ExponentBeforeBad, Some(group)) if group.iter().any(|x| x.abs() > 64) => {
                answer(12, call.group, 0.0)
            }
            (Wrong::BadOfGroup, Some(group)) => {
                let of_group = |(_, exponent): &(&f64, &i128)| **exponent != 0;
                let used = call.readings.iter().zip(&group).filter(of_group);
                if used.clone().any(|(x, _)| is_bad(*x)) || used.clone().any(|(_, x)| x.abs() > 64)
                {
                    return right;
                }
                of_value(running_value(&call.readings, &group), call.group)
            }
            _ => right,
        }
    }

    /// What becomes of a value, or of 24, 12 or 13.
    fn of_group(self, call: &GaugeCall, right: GaugeAnswer) -> GaugeAnswer {
        if self == Wrong::SubnormalReading {
            return self.of_bad(&call.readings).unwrap_or(right);
        }
        let (problem, built) = built(call);
        let number = match self {
            Wrong::GroupByte => call.group as u8 as usize,
            _ => call.group as usize,
        };
        let Some(mut group) = exponents(&problem, &built, number) else {
            return right;
        };
        if self == Wrong::Uncut {
            let column = built.rank + number;
            group = built.v[..problem.n].iter().map(|row| row[column]).collect();
        }
        let most = group.iter().map(|x| x.abs()).max().expect("n is not 0");
        let limit = match self {
            Wrong::SixtyFour => 63,
            Wrong::SixtyFive => 65,
            _ => 64,
        };
        let readings = &call.readings;
        let column = built.v.iter().map(|row| row[built.rank + number].abs());
        match self {
            Wrong::ModulusRows if column.max() > Some(64) => answer(12, call.group, 0.0),
            Wrong::LateExponent => {
                let before = group.iter().take_while(|x| x.abs() <= 64).count();
                if running_value(readings, &group[..before]).is_none() {
                    return answer(13, call.group, 0.0);
                }
                right
            }
            _ if most > limit => answer(12, call.group, 0.0),
            _ => of_value(self.value(readings, &group), call.group),
        }
    }

    /// The value by another way to compute.
    fn value(self, readings: &[f64], exponents: &[i128]) -> Option<f64> {
        let pairs = || readings.iter().copied().zip(exponents.iter().copied());
        let times = |value: f64, (reading, exponent): (f64, i128)| match exponent > 0 {
            true => value * squaring(reading, exponent.unsigned_abs()),
            false => value / squaring(reading, exponent.unsigned_abs()),
        };
        let split = |keep: fn(i128) -> bool| -> Vec<i128> {
            let kept = |x: &i128| if keep(*x) { *x } else { 0 };
            exponents.iter().map(kept).collect()
        };
        match self {
            Wrong::Squaring => sound(pairs().fold(1.0, times)),
            Wrong::Reciprocal => {
                let up: Vec<f64> = pairs()
                    .map(|(x, exponent)| if exponent < 0 { 1.0 / x } else { x })
                    .collect();
                let positive: Vec<i128> = exponents.iter().map(|x| x.abs()).collect();
                running_value(&up, &positive)
            }
            Wrong::ProductsFirst => {
                let (up, down) = (split(|x| x > 0), split(|x| x < 0));
                let twice = [readings, readings].concat();
                running_value(&twice, &[up, down].concat())
            }
            Wrong::OneQuotient => {
                let down: Vec<i128> = split(|x| x < 0).iter().map(|x| -x).collect();
                let over = running_value(readings, &split(|x| x > 0))?;
                sound(over / running_value(readings, &down)?)
            }
            Wrong::LastFirst => {
                let (mut readings, mut exponents) = (readings.to_vec(), exponents.to_vec());
                readings.reverse();
                exponents.reverse();
                running_value(&readings, &exponents)
            }
            Wrong::SubnormalValue => {
                // Each unit on its own, to see every running value.
                let units = |(x, exponent): (f64, i128)| {
                    std::iter::repeat_n((x, exponent > 0), exponent.unsigned_abs() as usize)
                };
                let mut running = 1.0;
                for (x, up) in pairs().flat_map(units) {
                    running = if up { running * x } else { running / x };
                    sound(running).filter(|x| !x.is_subnormal())?;
                }
                Some(running)
            }
            _ => running_value(readings, exponents),
        }
    }
}

/// The problem and the build of a call that came through 7.
fn built(call: &GaugeCall) -> (Problem, Built) {
    let (m, n) = (call.m as usize, call.n as usize);
    let problem = Problem::new(m, n, call.matrix.clone(), call.moduli.clone());
    let built = build_numbers(&problem).expect("not refused 7");
    (problem, built)
}

#[cfg(test)]
mod tests {
    use super::super::{Damage, Damaged, Model};
    use super::*;
    use crate::boundary;
    use crate::comparing::single::tests::counted;
    use crate::comparing::single::Compared;
    use crate::generate;
    use crate::random::Random;
    use crate::verify::gauges::Due;

    /// The model passes, and each mistake is seen, made in one answer only.
    fn all_are_seen(calls: &[(GaugeCall, Option<Due>)], before: usize) {
        let right = counted(&mut Model, calls);
        assert_eq!((right.failed, right.never(GaugeCall::NUMBERS)), (0, vec![]));
        for wrong in WRONGS {
            let mut library = Damaged::new(Damage::Gauge(wrong), before);
            let failed = counted(&mut library, calls).failed;
            assert_eq!(failed, 1, "{wrong:?}");
        }
    }

    /// By the calls with written answers.
    #[test]
    fn seen_by_written_answers() {
        let cases = boundary::gauges::cases().into_iter();
        let calls: Vec<_> = cases.map(|case| (case.call, Some(case.due))).collect();
        all_are_seen(&calls, 0);
    }

    /// By as few random calls as are ever made; more than one of them shows it.
    #[test]
    fn seen_by_random_calls() {
        let mut random = Random::new(1);
        let call = |_| (generate::gauges::call(&mut random), None);
        let calls: Vec<_> = (0..2000).map(call).collect();
        all_are_seen(&calls, 3);
    }

    /// A wrong answer is seen against what is written, though the model is wrong
    /// in the same way.
    #[test]
    fn seen_though_the_model_is_wrong() {
        for case in boundary::gauges::cases() {
            let (number, place, bits) = case.due;
            for due in [
                (number + 1, place, bits),
                (number, !place, bits),
                (number, place, !bits),
            ] {
                let failed = counted(&mut Model, &[(case.call.clone(), Some(due))]).failed;
                assert_eq!(failed, 1);
            }
        }
    }
}
