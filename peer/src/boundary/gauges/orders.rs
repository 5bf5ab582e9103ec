//! 1, 2, 4 and 5 as the call gives them, and each refusal with a later fault.

use super::{bad, refused, row, value, Case, SEVEN, TINY};
use crate::comparing::gauges::GaugeCall;
use crate::model::Problem;
use crate::problems;

const NAN: f64 = f64::from_bits(0x7ff8_0000_dead_beef);

pub fn cases() -> Vec<Case> {
    [sizes_and_lengths(), ranges(), two_faults()].concat()
}

/// 1 and 2 and their neighbours.
fn sizes_and_lengths() -> Vec<Case> {
    let four = problems::four();
    let wide = row(&[0; 16]);
    let mut cases = Vec::new();
    for count in [0, 1, 3, 4, 15, 16, 17, 40] {
        cases.push(refused(&four, &vec![1.0; count], 0, (2, 0)));
    }
    for count in [0, 2, 16, 17, 40] {
        cases.push(refused(&problems::one(), &vec![1.0; count], 0, (2, 0)));
    }
    for count in [0, 1, 15, 17, 18, 32, 40] {
        cases.push(refused(&wide, &vec![1.0; count], 0, (2, 0)));
    }
    let mut with = |problem: &Problem, number, change: &dyn Fn(&mut GaugeCall)| {
        let mut case = refused(problem, &vec![1.0; problem.n], 0, (number, 0));
        change(&mut case.call);
        cases.push(case);
    };
    for m in [0, 9, 16, 256, 65_537, u32::MAX] {
        with(&four, 1, &|call| call.m = m);
    }
    for n in [0, 17, 18, 256, 65_538, u32::MAX] {
        with(&four, 1, &|call| call.n = n);
    }
    for count in [0, 1, 3, 4, 128, 200] {
        with(&four, 2, &|call| call.matrix = vec![1; count]);
    }
    for count in [0, 2, 3, 8, 9] {
        with(&four, 2, &|call| call.moduli = vec![0; count]);
    }
    // The lengths right for sizes that are out of range.
    with(&four, 1, &|call| {
        (call.m, call.matrix, call.moduli) = (0, vec![], vec![]);
    });
    with(&four, 1, &|call| {
        (call.m, call.matrix, call.moduli) = (9, vec![1; 18], vec![0; 9]);
    });
    with(&four, 1, &|call| {
        (call.n, call.matrix, call.readings) = (0, vec![], vec![]);
    });
    with(&four, 1, &|call| {
        (call.n, call.matrix, call.readings) = (17, vec![1; 17], vec![1.0; 17]);
    });
    cases
}

/// 4 and 5 with their neighbours, and their places.
fn ranges() -> Vec<Case> {
    let rows = |entries: [i32; 4], moduli: [i32; 2]| {
        Problem::of_rows(&[&entries[..2], &entries[2..]], &moduli)
    };
    let ones = [1.0; 2];
    vec![
        // C is (0 1000), of rank 1; the group is (1, 0).
        value(&row(&[0, 1000]), &[5.0, 1.0], 0, 0x4014_0000_0000_0000),
        value(&row(&[0, -1000]), &[5.0, 1.0], 0, 0x4014_0000_0000_0000),
        // With the modulus 1000 before it the group is (1000), and (1) for 0.
        refused(&Problem::of_rows(&[&[1]], &[1000]), &[1.0], 0, (12, 0)),
        value(
            &Problem::of_rows(&[&[0]], &[1000]),
            &[5.0],
            0,
            0x4014_0000_0000_0000,
        ),
        refused(&rows([1, 2, 3, 4], [-1, 0]), &ones, 0, (4, 0)),
        refused(&rows([1, 2, 3, 4], [0, 1001]), &ones, 0, (4, 1)),
        refused(&rows([1, 2, 3, 4], [i32::MIN, i32::MAX]), &ones, 0, (4, 0)),
        refused(&rows([1, 2, 3, 4], [1000, i32::MAX]), &ones, 0, (4, 1)),
        refused(&rows([1001, 2, 3, 4], [0, 0]), &ones, 0, (5, 0)),
        refused(&rows([1, -1001, 3, 4], [0, 0]), &ones, 0, (5, 1)),
        refused(&rows([1, 2, i32::MIN, 1001], [0, 0]), &ones, 0, (5, 2)),
        refused(&rows([1, 2, 3, i32::MAX], [0, 0]), &ones, 0, (5, 3)),
    ]
}

/// Each refusal with a later fault in the same call: the earlier one shows.
fn two_faults() -> Vec<Case> {
    let (one, four, ten) = (problems::one(), problems::four(), problems::ten());
    let (beyond, most, seven) = (row(&[1, 65]), row(&[1, 64]), row(&SEVEN));
    let wide = |entry: i32, modulus: i32| Problem::of_rows(&[&[entry; 17]], &[modulus]);
    let moduli = |moduli: [i32; 2]| Problem::of_rows(&[&[1, 1], &[1, 1001]], &moduli);
    let seven_and = |modulus: i32| Problem::of_rows(&[&SEVEN], &[modulus]);
    // Its run passes M, in the first row, if nobody looks at the entry.
    let entry_and_seven = Problem::of_rows(&[&[1, 1, 1001, 1], &SEVEN], &[0, 0]);
    let ones = [1.0; 17];
    let nans = [NAN; 17];
    let mut no_rows = refused(&four, &ones[..1], u32::MAX, (1, 0));
    no_rows.call.m = 0;
    let mut short = refused(&moduli([-1, 0]), &ones[..2], 0, (2, 0));
    short.call.matrix.pop();
    vec![
        // 1 before 2, 24; 4, 11; 5.
        no_rows,
        refused(&wide(0, -1), &nans, 0, (1, 0)),
        refused(&wide(1001, 0), &ones, 0, (1, 0)),
        // 2 before 4, 5, 7, 11, 24, 12, 13.
        short,
        refused(&moduli([-1, 0]), &ones[..1], 0, (2, 0)),
        refused(&moduli([0, 0]), &ones[..3], 0, (2, 0)),
        refused(&seven, &ones[..3], 0, (2, 0)),
        refused(&seven, &ones[..5], 0, (2, 0)),
        refused(&four, &[1.0, 1.0, NAN], 0, (2, 0)),
        refused(&four, &[NAN], 0, (2, 0)),
        refused(&four, &ones[..3], 1, (2, 0)),
        refused(&beyond, &ones[..3], 0, (2, 0)),
        refused(&most, &[TINY], 0, (2, 0)),
        // 4 before 5, 7, 11, 24, 12, 13.
        refused(&moduli([0, -1]), &ones[..2], 0, (4, 1)),
        refused(&seven_and(1001), &ones[..4], 0, (4, 0)),
        refused(&Problem::of_rows(&[&[0]], &[-1]), &[NAN], 0, (4, 0)),
        refused(&Problem::of_rows(&[&[0]], &[1001]), &[1.0], 1, (4, 0)),
        refused(
            &Problem::of_rows(&[&[1, 65]], &[-1]),
            &[1.0, 1.0],
            0,
            (4, 0),
        ),
        refused(
            &Problem::of_rows(&[&[1, 64]], &[-1]),
            &[TINY, 1.0],
            0,
            (4, 0),
        ),
        // 5 before 7, 11, 24.
        refused(&entry_and_seven, &ones[..4], 0, (5, 2)),
        refused(&row(&[1, 1001]), &[NAN, NAN], 0, (5, 1)),
        refused(&row(&[1, -1001]), &ones[..2], 1, (5, 1)),
        // 7 before 11 and 24; past M the group of problem 10 has 10^12, so 12.
        refused(&seven, &ones[..4], 0, (7, 0)),
        refused(&seven, &[NAN, 1.0, 1.0, 1.0], 0, (7, 0)),
        refused(&seven, &[1.0, 1.0, 1.0, -1.0], u32::MAX, (7, 0)),
        refused(&seven, &ones[..4], u32::MAX, (7, 0)),
        refused(&seven, &ones[..4], 3, (7, 0)),
        refused(&ten, &ones[..5], 0, (7, 0)),
        // 11 before 24, 12, 13.
        bad(&four, &[1.0, NAN], 1, 1, 0x7ff8_0000_dead_beef),
        bad(&problems::two(), &[-0.0], 0, 0, 0x8000_0000_0000_0000),
        bad(&one, &[-1.0], u32::MAX, 0, 0xbff0_0000_0000_0000),
        bad(&beyond, &[1.0, NAN], 0, 1, 0x7ff8_0000_dead_beef),
        bad(&most, &[TINY, -TINY], 0, 1, 0x8000_0000_0000_0001),
        bad(&most, &[0.0, TINY], 0, 0, 0),
        // 24 before 12 and 13 of the groups that there are.
        refused(&beyond, &ones[..2], 1, (24, 1)),
        refused(&beyond, &[TINY, 1.0], 2, (24, 2)),
        refused(&most, &[TINY, 1.0], 1, (24, 1)),
        // 12 before 13, which the first division or product would give.
        refused(&beyond, &[TINY, 1.0], 0, (12, 0)),
        refused(&row(&[65, 1]), &[TINY, 1.0], 0, (12, 0)),
        refused(&row(&[-65, 1]), &[f64::MAX, f64::MAX], 0, (12, 0)),
        refused(&row(&[1, 64, 65]), &[TINY, 1.0, 1.0], 1, (12, 1)),
        refused(&row(&[1, 64, 65]), &[TINY, 1.0, 1.0], 0, (13, 0)),
    ]
}
