//! 11, 24, 12 and 13, and the values next to them.

use super::{bad, refused, row, two, value, Case, BAD, NORMAL, SUBNORMAL, TINY};
use crate::model::Problem;
use crate::problems;

pub fn cases() -> Vec<Case> {
    [readings(), groups(), exponents(), running_values()].concat()
}

/// 11 and its neighbours: the last readings that are taken, and each bad one.
fn readings() -> Vec<Case> {
    let (one, four, eight) = (problems::one(), problems::four(), problems::eight());
    let mut cases = vec![
        value(&one, &[TINY], 0, 0x0000_0000_0000_0001),
        value(&one, &[SUBNORMAL], 0, 0x000f_ffff_ffff_ffff),
        value(&one, &[NORMAL], 0, 0x0010_0000_0000_0000),
        value(&one, &[f64::MAX], 0, 0x7fef_ffff_ffff_ffff),
    ];
    for (bits, next) in BAD.into_iter().zip(BAD.into_iter().cycle().skip(1)) {
        let [x, y] = [bits, next].map(f64::from_bits);
        cases.extend([
            bad(&one, &[x], 0, 0, bits),
            bad(&four, &[x, 1.0], 0, 0, bits),
            bad(&four, &[1.0, x], 0, 1, bits),
            bad(&four, &[x, y], 0, 0, bits),
            // Groups 0 and 1 have exponent 0 there, and it is bad all the same.
            bad(&eight, &[1.0, 1.0, 1.0, 1.0, x], 0, 4, bits),
            bad(&eight, &[1.0, 1.0, 1.0, 1.0, x], 1, 4, bits),
            bad(&eight, &[1.0, x, 1.0, y, y], 2, 1, bits),
        ]);
    }
    cases
}

/// 24 and its neighbours.
fn groups() -> Vec<Case> {
    let (two, five, eight) = (problems::two(), problems::five(), problems::eight());
    let ones = [1.0; 5];
    let wide = row(&[0; 16]);
    let sixteen: Vec<f64> = (1..=16).map(f64::from).collect();
    // d = 0 with a modulus: C is (-3 1), (0 1), of rank 2.
    let full = Problem::of_rows(&[&[1], &[1]], &[3, 0]);
    vec![
        refused(&two, &[1.0], 0, (24, 0)),
        refused(&two, &[1.0], 1, (24, 1)),
        refused(&two, &[1.0], u32::MAX, (24, u32::MAX)),
        refused(&full, &[1.0], 0, (24, 0)),
        refused(&full, &[1.0], 1, (24, 1)),
        value(&five, &ones[..3], 2, 0x3ff0_0000_0000_0000),
        // d is n + s - r: with a modulus neither n - r nor n + s.
        refused(&five, &ones[..3], 3, (24, 3)),
        refused(&five, &ones[..3], 4, (24, 4)),
        value(&eight, &ones, 2, 0x3ff0_0000_0000_0000),
        refused(&eight, &ones, 3, (24, 3)),
        refused(&eight, &ones, 4, (24, 4)),
        refused(&eight, &ones, 5, (24, 5)),
        refused(&eight, &ones, 256, (24, 256)),
        refused(&eight, &ones, 65_536, (24, 65_536)),
        refused(&eight, &ones, 1 << 31, (24, 1 << 31)),
        refused(&eight, &ones, u32::MAX, (24, u32::MAX)),
        value(&wide, &sixteen, 0, 0x3ff0_0000_0000_0000),
        value(&wide, &sixteen, 15, 0x4030_0000_0000_0000),
        refused(&wide, &sixteen, 16, (24, 16)),
        refused(&wide, &sixteen, 17, (24, 17)),
    ]
}

/// 12 and its neighbours.
fn exponents() -> Vec<Case> {
    // Its groups are (-64, 1, 0) and (-65, 0, 1).
    let both = row(&[1, 64, 65]);
    let ones = [1.0; 4];
    vec![
        value(&row(&[1, 64]), &[1.0, 3.0], 0, 0x4008_0000_0000_0000),
        value(&row(&[1, -64]), &[1.0, 3.0], 0, 0x4008_0000_0000_0000),
        value(&row(&[64, 1]), &[0.5, 1.0], 0, 0x4000_0000_0000_0000),
        value(&row(&[-64, 1]), &[0.5, 1.0], 0, 0x3fe0_0000_0000_0000),
        refused(&row(&[1, 65]), &[1.0, 3.0], 0, (12, 0)),
        refused(&row(&[1, -65]), &[1.0, 3.0], 0, (12, 0)),
        refused(&row(&[65, 1]), &[0.5, 1.0], 0, (12, 0)),
        refused(&row(&[-65, 1]), &[0.5, 1.0], 0, (12, 0)),
        refused(&row(&[1, 1000]), &[1.0, 1.0], 0, (12, 0)),
        refused(&problems::nine(), &ones, 0, (12, 0)),
        value(&both, &ones[..3], 0, 0x3ff0_0000_0000_0000),
        refused(&both, &ones[..3], 1, (12, 1)),
        value(
            &row(&[1, 0, 65]),
            &[1.0, 3.0, 1.0],
            0,
            0x4008_0000_0000_0000,
        ),
        refused(&row(&[1, 0, 65]), &[1.0, 3.0, 1.0], 1, (12, 1)),
        // C is (-1 100) and V's last column (100, 1); 100 is no exponent of the
        // group, which is (1).
        value(
            &Problem::of_rows(&[&[100]], &[1]),
            &[5.0],
            0,
            0x4014_0000_0000_0000,
        ),
        // Exactly 64 units: each way to the end of the range.
        value(
            &row(&[1, 64]),
            &[two(15), two(-62)],
            0,
            0x0010_0000_0000_0000,
        ),
        value(&row(&[1, 64]), &[two(16), 1.0], 0, 0x0004_0000_0000_0000),
        value(
            &row(&[1, 64]),
            &[two(-15), two(63)],
            0,
            0x7fe0_0000_0000_0000,
        ),
        refused(&row(&[1, 64]), &[two(-15), two(64)], 0, (13, 0)),
        value(
            &row(&[1, -64]),
            &[two(15), two(63)],
            0,
            0x7fe0_0000_0000_0000,
        ),
        value(
            &row(&[1, -64]),
            &[two(-15), two(-62)],
            0,
            0x0010_0000_0000_0000,
        ),
        value(
            &row(&[64, 1]),
            &[two(1000), two(15)],
            0,
            0x3d70_0000_0000_0000,
        ),
        value(
            &row(&[-64, 1]),
            &[two(-1000), two(15)],
            0,
            0x3d70_0000_0000_0000,
        ),
    ]
}

/// 13 and its neighbours: running values that leave the doubles, also where what
/// follows would bring them back.
fn running_values() -> Vec<Case> {
    let eight = problems::eight();
    let [up, down] = [two(1000), two(-1000)];
    vec![
        refused(&row(&[1, 64]), &[two(17), f64::MAX], 0, (13, 0)),
        refused(&row(&[1, 64]), &[two(-16), TINY], 0, (13, 0)),
        refused(&row(&[1, -64]), &[two(16), TINY], 0, (13, 0)),
        refused(&row(&[1, -64]), &[two(-17), f64::MAX], 0, (13, 0)),
        // Group 2 of problem 8 is (0, 0, 1, 1, 1).
        value(&eight, &[1.0, 1.0, up, down, up], 2, 0x7e70_0000_0000_0000),
        value(
            &eight,
            &[1.0, 1.0, down, up, down],
            2,
            0x0170_0000_0000_0000,
        ),
        refused(&eight, &[1.0, 1.0, up, up, down], 2, (13, 2)),
        refused(&eight, &[1.0, 1.0, down, down, up], 2, (13, 2)),
        // Group 1 is (1, 2, 2, 2, 0).
        refused(&eight, &[1.0, 1.0, up, up, down], 1, (13, 1)),
        refused(&eight, &[1.0, down, 1.0, up, 1.0], 1, (13, 1)),
        // Group 0 is (2, -1, 3, 0, 0).
        refused(&eight, &[up, up, down, 1.0, 1.0], 0, (13, 0)),
        refused(&eight, &[1.0, TINY, TINY, 1.0, 1.0], 0, (13, 0)),
        // What the group has not is not looked at.
        value(
            &eight,
            &[1.0, 1.0, 1.0, f64::MAX, TINY],
            0,
            0x3ff0_0000_0000_0000,
        ),
    ]
}
