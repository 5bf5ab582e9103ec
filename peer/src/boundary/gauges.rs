//! Calls of `gauge` at the limits of its rules, each with its number, place and
//! bits written out: by hand, and for the readings that are no powers of two by
//! exact fractions. None of the answers came from the model.

mod orders;
mod refusals;

use crate::comparing::gauges::GaugeCall;
use crate::comparing::single;
use crate::model::Problem;
use crate::problems;
use crate::verify::gauges::bits_of_two;

/// A call with its answer.
pub type Case = single::Case<GaugeCall>;

/// The call whose answer is a value with these bits.
fn value(problem: &Problem, readings: &[f64], group: u32, bits: u64) -> Case {
    Case {
        call: GaugeCall::new(problem, readings, group),
        due: (0, 0, bits),
    }
}

/// The call that is refused, but not with 11, and so carries 0.0.
fn refused(problem: &Problem, readings: &[f64], group: u32, (number, place): (u32, u32)) -> Case {
    Case {
        call: GaugeCall::new(problem, readings, group),
        due: (number, place, 0),
    }
}

/// The call that is refused with 11 at a place, and carries that reading.
fn bad(problem: &Problem, readings: &[f64], group: u32, place: u32, bits: u64) -> Case {
    Case {
        call: GaugeCall::new(problem, readings, group),
        due: (11, place, bits),
    }
}

/// One row without a modulus. The group of (1 e) is (-e, 1); that of (e 1) is
/// (-1, e) where e is positive, and (1, -e) where it is negative.
fn row(entries: &[i32]) -> Problem {
    Problem::of_rows(&[entries], &[0])
}

/// A row that is refused 7.
pub const SEVEN: [i32; 4] = [917, -618, -541, -185];

/// 2^exponent.
pub fn two(exponent: i32) -> f64 {
    f64::from_bits(bits_of_two(i128::from(exponent)).expect("a double"))
}

/// The least double above zero, the largest subnormal and the least normal one.
pub const TINY: f64 = f64::from_bits(1);
pub const SUBNORMAL: f64 = f64::from_bits(0x000f_ffff_ffff_ffff);
pub const NORMAL: f64 = f64::from_bits(0x0010_0000_0000_0000);

/// Readings that are refused: zeros, infinities, NaNs of both signs, quiet and
/// signalling, with several payloads, and negatives.
pub const BAD: [u64; 18] = [
    0x0000_0000_0000_0000,
    0x8000_0000_0000_0000,
    0x7ff0_0000_0000_0000,
    0xfff0_0000_0000_0000,
    0x7ff8_0000_0000_0000,
    0xfff8_0000_0000_0000,
    0x7ff0_0000_0000_0001,
    0xfff0_0000_0000_0001,
    0x7ff4_0000_0000_0000,
    0xfff7_ffff_ffff_ffff,
    0x7ff8_0000_dead_beef,
    0xfffc_0000_0000_0001,
    0x7fff_ffff_ffff_ffff,
    0xffff_ffff_ffff_ffff,
    0xbff0_0000_0000_0000,
    0x8000_0000_0000_0001,
    0x8010_0000_0000_0000,
    0xffef_ffff_ffff_ffff,
];

/// All of them.
pub fn cases() -> Vec<Case> {
    let parts = [
        values(),
        powers_of_two(),
        edges(),
        refusals::cases(),
        orders::cases(),
    ];
    parts.concat()
}

/// Values in the order of the operations, with and without moduli.
fn values() -> Vec<Case> {
    let (five, eight) = (problems::five(), problems::eight());
    let primes = [2.0, 3.0, 5.0, 7.0, 11.0];
    let tenths = [1.0, 1.0, 0.1, 0.2, 0.3];
    let turned = [1.0, 1.0, 0.3, 0.2, 0.1];
    vec![
        value(&problems::one(), &[5.0], 0, 0x4014_0000_0000_0000),
        value(&problems::three(), &[5.0], 0, 0x4014_0000_0000_0000),
        value(&problems::four(), &[2.0, 8.0], 0, 0x4000_0000_0000_0000),
        value(&problems::four(), &[4.0, 1.0], 0, 0x3fb0_0000_0000_0000),
        value(&problems::four(), &[3.0, 1.0], 0, 0x3fbc_71c7_1c71_c71c),
        value(&problems::four(), &[1.0, 1.0], 0, 0x3ff0_0000_0000_0000),
        // The groups of problem 5 are (3, 0, 0), (1, 1, 0) and (0, 0, 1).
        value(&five, &[3.0, 5.0, 7.0], 0, 0x403b_0000_0000_0000),
        value(&five, &[3.0, 5.0, 7.0], 1, 0x402e_0000_0000_0000),
        value(&five, &[3.0, 5.0, 7.0], 2, 0x401c_0000_0000_0000),
        value(&eight, &primes, 0, 0x4064_d555_5555_5554),
        value(&eight, &primes, 1, 0x40d5_8880_0000_0000),
        value(&eight, &primes, 2, 0x4078_1000_0000_0000),
        // In quantity order.
        value(&eight, &tenths, 2, 0x3f78_9374_bc6a_7efb),
        value(&eight, &turned, 2, 0x3f78_9374_bc6a_7efa),
        // x⁴ is four products: (x·x)·(x·x) would end in 79 and in 30.
        value(&row(&[1, -4]), &[1.1, 1.0], 0, 0x3ff7_6cf4_1f21_2d7a),
        value(&row(&[1, -4]), &[0.1, 1.0], 0, 0x3f1a_36e2_eb1c_432f),
        // Two divisions: by 1/x and a product it would end in fb, by x·x in fd.
        value(&problems::four(), &[49.0, 1.0], 0, 0x3f3b_4b98_5cf9_7efc),
        // 1/x·x is not always 1.
        value(&row(&[1, 1]), &[3.0, 3.0], 0, 0x3ff0_0000_0000_0000),
        value(&row(&[1, 1]), &[49.0, 49.0], 0, 0x3fef_ffff_ffff_ffff),
        // Sixty-four products and divisions.
        value(&row(&[1, -64]), &[1.1, 1.0], 0, 0x407b_dcaa_43ae_86dd),
        value(&row(&[1, 64]), &[1.1, 1.0], 0, 0x3f62_6055_4175_7c2a),
        value(&row(&[1, 64]), &[0.1, 1.0], 0, 0x4d38_4f03_e93f_f9ea),
    ]
}

/// Readings that are powers of two, subnormal ones among them; the bits are the
/// sums of whole exponents.
fn powers_of_two() -> Vec<Case> {
    // Its group is (1, 1), (-1, 1), (2, 1) and (-2, 1).
    let [times, over, square, unsquare] = [-1, 1, -2, 2].map(|e| row(&[1, e]));
    vec![
        value(&times, &[two(1023), TINY], 0, 0x3cc0_0000_0000_0000),
        value(&times, &[TINY, two(1023)], 0, 0x3cc0_0000_0000_0000),
        value(&times, &[two(1023), two(-1073)], 0, 0x3cd0_0000_0000_0000),
        value(&times, &[two(1022), two(1)], 0, 0x7fe0_0000_0000_0000),
        refused(&times, &[two(1023), two(1)], 0, (13, 0)),
        value(&times, &[two(-1021), two(-1)], 0, 0x0010_0000_0000_0000),
        value(&times, &[two(-1022), two(-1)], 0, 0x0008_0000_0000_0000),
        value(&times, &[TINY, 1.0], 0, 0x0000_0000_0000_0001),
        refused(&times, &[TINY, two(-1)], 0, (13, 0)),
        refused(&times, &[TINY, TINY], 0, (13, 0)),
        value(&over, &[two(-1023), TINY], 0, 0x3cc0_0000_0000_0000),
        value(&over, &[two(-1023), two(-1023)], 0, 0x3ff0_0000_0000_0000),
        value(&over, &[two(1023), two(1023)], 0, 0x3ff0_0000_0000_0000),
        value(&over, &[two(1022), 1.0], 0, 0x0010_0000_0000_0000),
        value(&over, &[two(1023), 1.0], 0, 0x0008_0000_0000_0000),
        value(&over, &[two(-1023), 1.0], 0, 0x7fe0_0000_0000_0000),
        refused(&over, &[two(-1024), 1.0], 0, (13, 0)),
        refused(&over, &[TINY, TINY], 0, (13, 0)),
        value(&square, &[two(511), two(1)], 0, 0x7fe0_0000_0000_0000),
        refused(&square, &[two(511), two(2)], 0, (13, 0)),
        refused(&square, &[two(512), TINY], 0, (13, 0)),
        value(&square, &[two(-511), 1.0], 0, 0x0010_0000_0000_0000),
        value(&square, &[two(-537), 1.0], 0, 0x0000_0000_0000_0001),
        value(&square, &[two(-537), two(1000)], 0, 0x3b50_0000_0000_0000),
        refused(&square, &[two(-538), two(1023)], 0, (13, 0)),
        value(&unsquare, &[two(537), two(1000)], 0, 0x3b50_0000_0000_0000),
        value(&unsquare, &[two(-511), two(1)], 0, 0x7fe0_0000_0000_0000),
        refused(&unsquare, &[two(-512), TINY], 0, (13, 0)),
        refused(&unsquare, &[two(538), two(1023)], 0, (13, 0)),
    ]
}

/// Rounding where the doubles end.
fn edges() -> Vec<Case> {
    let [times, over, square] = [-1, 1, -2].map(|e| row(&[1, e]));
    let above_half = f64::from_bits(0x3fe0_0000_0000_0001);
    let above_one = f64::from_bits(0x3ff0_0000_0000_0001);
    let below_two = f64::from_bits(0x3fff_ffff_ffff_ffff);
    vec![
        // At the least subnormal a tie goes to the even one; half of it to zero.
        value(&times, &[1.5, TINY], 0, 0x0000_0000_0000_0002),
        value(&times, &[2.5, TINY], 0, 0x0000_0000_0000_0002),
        value(&times, &[3.5, TINY], 0, 0x0000_0000_0000_0004),
        value(&times, &[0.75, TINY], 0, 0x0000_0000_0000_0001),
        value(&times, &[above_half, TINY], 0, 0x0000_0000_0000_0001),
        refused(&times, &[0.5, TINY], 0, (13, 0)),
        // 2.25·2^-1074 keeps 2, and comes back as 2^-73.
        value(
            &square,
            &[1.5 * two(-537), two(1000)],
            0,
            0x3b60_0000_0000_0000,
        ),
        value(&times, &[SUBNORMAL, 1.0], 0, 0x000f_ffff_ffff_ffff),
        value(&over, &[SUBNORMAL, 1.0], 0, 0x7fd0_0000_0000_0001),
        // The largest double, and what is above it.
        value(&times, &[two(1023), below_two], 0, 0x7fef_ffff_ffff_ffff),
        value(&times, &[f64::MAX, 1.0], 0, 0x7fef_ffff_ffff_ffff),
        refused(&times, &[f64::MAX, above_one], 0, (13, 0)),
        value(&over, &[f64::MAX, 1.0], 0, 0x0004_0000_0000_0000),
        value(&over, &[f64::MAX, f64::MAX], 0, 0x3fef_ffff_ffff_ffff),
        refused(&over, &[two(-1024), 1.0], 0, (13, 0)),
        value(
            &over,
            &[f64::from_bits(0x0004_0000_0000_0001), 1.0],
            0,
            0x7fef_ffff_ffff_fff8,
        ),
    ]
}

#[cfg(test)]
mod tests {
    use super::*;
    use crate::comparing::single::Compared;
    use crate::model::gauges::gauge;

    /// The model answers as is written, and every number is among the answers.
    #[test]
    fn cases_are_as_they_say() {
        let cases = cases();
        for Case { call, due } in &cases {
            let answer = gauge(
                call.m,
                call.n,
                &call.matrix,
                &call.moduli,
                &call.readings,
                call.group,
            );
            let given = (answer.number, answer.place, answer.value.to_bits());
            assert_eq!(given, *due, "{}", call.describe());
        }
        for &number in GaugeCall::NUMBERS {
            assert!(cases.iter().any(|case| case.due.0 == number), "{number}");
        }
    }
}
