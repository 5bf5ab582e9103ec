//! The known problems of the rules, R10.1 to R10.13, and as unit tests their results.

use crate::model::Problem;

/// Problems 1 to 13 (6 and 7 are terms of 5; 13 is the largest entry).
pub fn known() -> Vec<Problem> {
    vec![
        one(),
        two(),
        three(),
        four(),
        five(),
        eight(),
        nine(),
        ten(),
        eleven(),
        twelve(),
        thirteen([1, 1000]),
    ]
}

pub fn one() -> Problem {
    Problem::of_rows(&[&[0]], &[0])
}

pub fn two() -> Problem {
    Problem::of_rows(&[&[-5]], &[0])
}

pub fn three() -> Problem {
    Problem::of_rows(&[&[0]], &[1])
}

/// The whole example.
pub fn four() -> Problem {
    Problem::of_rows(&[&[1, 2]], &[0])
}

pub fn five() -> Problem {
    Problem::of_rows(&[&[1, 2, 0]], &[3])
}

pub fn eight() -> Problem {
    Problem::of_rows(&[&[6, 0, -4, 1, 3], &[0, 3, 1, -4, 3]], &[0, 0])
}

/// R10.9 and R10.10 with so many rows.
fn thousands(rows: usize) -> Problem {
    let n = rows + 1;
    let mut matrix = vec![0; rows * n];
    for i in 0..rows {
        matrix[i * n + i] = 1000;
        matrix[i * n + i + 1] = -1;
    }
    Problem::new(rows, n, matrix, vec![0; rows])
}

pub fn nine() -> Problem {
    thousands(3)
}

pub fn ten() -> Problem {
    thousands(4)
}

pub fn eleven() -> Problem {
    Problem::of_rows(&[&[4, -1, -3], &[-1, 4, -3]], &[6, 3])
}

/// The matrix of 002's introduction, given again in its sections 5 and 7.
pub fn twelve() -> Problem {
    Problem::of_rows(
        &[
            &[-1, 0, 0, -1, -1, 0, 1, 0, 0],
            &[0, 1, 1, 0, 1, 1, 0, 1, 0],
            &[0, -1, 0, 0, -1, 0, 0, 0, 1],
        ],
        &[0, 0, 0],
    )
}

/// R10.13: one row of two entries.
pub fn thirteen(entries: [i32; 2]) -> Problem {
    Problem::of_rows(&[&entries], &[0])
}

#[cfg(test)]
mod tests {
    use super::*;
    use crate::model::calls::{self, flat, Built, WeighAnswer};
    use crate::model::steps::{run, Stage, Until};
    use crate::model::{lines, refused, Matrix, M};
    use crate::verify;

    /// The build of a problem that is accepted, checked by `verify` too.
    fn built(problem: &Problem) -> Built {
        let built = calls::build_numbers(problem).expect("accepted");
        let (h, v, w) = (flat(&built.h), flat(&built.v), flat(&built.w));
        let given = verify::Given {
            rank: built.rank,
            moduli: problem.s(),
            h: &h,
            v: &v,
            w: &w,
        };
        verify::build(problem, given).expect("verified");
        built
    }

    fn rows(rows: &[&[i128]]) -> Matrix {
        rows.iter().map(|row| row.to_vec()).collect()
    }

    /// The groups (R6.6).
    fn groups(problem: &Problem, built: &Built) -> Vec<Vec<i128>> {
        (built.rank..problem.columns())
            .map(|j| built.v[problem.s()..].iter().map(|row| row[j]).collect())
            .collect()
    }

    #[test]
    fn problem_1() {
        let built = built(&one());
        assert_eq!(built.rank, 0);
        assert_eq!(built.h, rows(&[&[0]]));
        assert_eq!(built.v, rows(&[&[1]]));
        assert_eq!(built.steps, 0);
    }

    #[test]
    fn problem_2() {
        let built = built(&two());
        assert_eq!(built.rank, 1);
        assert_eq!(built.h, rows(&[&[5]]));
        assert_eq!(built.v, rows(&[&[-1]]));
        assert_eq!(built.w, rows(&[&[-1]]));
        assert!(groups(&two(), &built).is_empty());
        assert_eq!(built.steps, 1);
    }

    #[test]
    fn problem_3() {
        let built = built(&three());
        assert_eq!(built.h, rows(&[&[1, 0]]));
        assert_eq!(built.v, rows(&[&[-1, 0], &[0, 1]]));
        assert_eq!(built.w, rows(&[&[-1, 0], &[0, 1]]));
        assert_eq!(built.steps, 2);
    }

    #[test]
    fn problem_4_whole_example() {
        let built = built(&four());
        assert_eq!(groups(&four(), &built), rows(&[&[-2, 1]]));
        assert_eq!(built.steps, 2);
        let input = "010102\n02000000010002\n0300000005fffc0002\n";
        let output = "810102000100000002\n820000000100000000\n8300000001fffffffe\n\
                      830000000000000001\n840000000100000002\n840000000000000001\n\
                      850000000500000002\n";
        assert_eq!(lines::answer(input.as_bytes()), output);
        let read = lines::read(input.as_bytes()).expect("well formed");
        assert_eq!(lines::write(&read).as_deref(), Some(input));
    }

    #[test]
    fn problem_5() {
        let built = built(&five());
        assert_eq!(built.h, rows(&[&[1, 0, 0, 0]]));
        assert_eq!(
            built.v,
            rows(&[&[0, 1, 1, 0], &[1, 3, 1, 0], &[0, 0, 1, 0], &[0, 0, 0, 1]])
        );
        assert_eq!(
            built.w,
            rows(&[&[-3, 1, 2, 0], &[1, 0, -1, 0], &[0, 0, 1, 0], &[0, 0, 0, 1]])
        );
    }

    #[test]
    fn problem_6() {
        let translated = calls::translate_numbers(&five(), &[2, 2, 1]).expect("free");
        assert_eq!(translated.exponents, rows(&[&[0, 2, 1]]));
        let built = built(&five());
        verify::term(&five(), built.rank, &flat(&built.v), &[2, 2, 1], &[0, 2, 1])
            .expect("round trip");
        // R12.3: without k it is (-2, 2, 1).
        verify::term(
            &five(),
            built.rank,
            &flat(&built.v),
            &[2, 2, 1],
            &[-2, 2, 1],
        )
        .expect_err("k was left out");
    }

    #[test]
    fn problem_7() {
        let refusal = calls::translate_numbers(&five(), &[1, 0, 0]).expect_err("not free");
        assert_eq!(refusal, refused(8, 0));
        let refusal = calls::translate_numbers(&five(), &[2, 2, 1, 1, 0, 0]);
        assert_eq!(refusal.expect_err("not free"), refused(8, 1));
    }

    #[test]
    fn problem_8() {
        let built = built(&eight());
        assert_eq!(built.rank, 2);
        assert_eq!(built.h, rows(&[&[3, 2, 0, 0, 0], &[0, 1, 0, 0, 0]]));
        assert_eq!(
            groups(&eight(), &built),
            rows(&[&[2, -1, 3, 0, 0], &[1, 2, 2, 2, 0], &[0, 0, 1, 1, 1]])
        );
    }

    #[test]
    fn problem_9() {
        let built = built(&nine());
        assert_eq!(
            groups(&nine(), &built),
            rows(&[&[1, 1000, 1_000_000, 1_000_000_000]])
        );
    }

    #[test]
    fn problem_10() {
        let refusal = calls::build_numbers(&ten()).expect_err("refused");
        assert_eq!(refusal, refused(7, 0));
        // Past M the run comes to the group with 10^12 in it.
        let run = run(&ten(), Until::TheEnd);
        assert_eq!(run.rank, Some(4));
        assert_eq!(run.work.v[4][4], 1_000_000_000_000);
    }

    #[test]
    fn problem_11() {
        let built = built(&eleven());
        assert_eq!(built.rank, 2);
        assert_eq!(built.h, rows(&[&[3, 2, 0, 0, 0], &[0, 1, 0, 0, 0]]));
    }

    #[test]
    fn problem_12() {
        let built = built(&twelve());
        assert_eq!(built.rank, 3);
        for (i, row) in built.h.iter().enumerate() {
            let unit: Vec<i128> = (0..9).map(|j| i128::from(i == j)).collect();
            assert_eq!(row, &unit);
        }
    }

    #[test]
    fn problem_13() {
        built(&thirteen([1, 1000]));
        let refusal = calls::build_numbers(&thirteen([1, 1001])).expect_err("refused");
        assert_eq!(refusal, refused(5, 1));
        let [p, q] = [10_000, -10_000];
        let same = thirteen([1, 1]);
        calls::translate_numbers(&same, &[p, q]).expect("taken");
        let refusal = calls::translate_numbers(&same, &[0, 0, p, q - 1]).expect_err("refused");
        assert_eq!(refusal, refused(6, 3));
        let refusal = calls::translate_numbers(&same, &[p + 1, q]).expect_err("refused");
        assert_eq!(refusal, refused(6, 0));
    }

    /// R12.1: the floor right of the pivot.
    #[test]
    fn floor_right_of_the_pivot() {
        let built = built(&Problem::of_rows(&[&[3, -2], &[0, 1]], &[0, 0]));
        assert_eq!(built.h, rows(&[&[3, 1], &[0, 1]]));
    }

    /// A result within 917 whose steps pass M.
    #[test]
    fn refused_for_its_steps() {
        let problem = Problem::of_rows(&[&[917, -618, -541, -185]], &[0]);
        let run = run(&problem, Until::TheEnd);
        let first = run.work.first_beyond.expect("passes M");
        assert!(first.value.abs() > M);
        assert!(first.stage < Stage::Three);
        assert_eq!(run.rank, Some(1));
        let most = [&run.work.t, &run.work.v, &run.work.w]
            .into_iter()
            .flatten()
            .flatten()
            .map(|x| x.abs())
            .max();
        assert_eq!(most, Some(917));
        let refusal = calls::build_numbers(&problem).expect_err("refused");
        assert_eq!(refusal, refused(7, 0));
    }

    #[test]
    fn verify_refuses_what_is_wrong() {
        let problem = eight();
        let built = built(&problem);
        let (h, v, w) = (flat(&built.h), flat(&built.v), flat(&built.w));
        let check = |rank, moduli, h: &[i32], v: &[i32], w: &[i32]| {
            verify::build(
                &problem,
                verify::Given {
                    rank,
                    moduli,
                    h,
                    v,
                    w,
                },
            )
        };
        check(2, 0, &h, &v, &w).expect("right");
        check(1, 0, &h, &v, &w).expect_err("rank");
        check(3, 0, &h, &v, &w).expect_err("rank");
        check(2, 1, &h, &v, &w).expect_err("moduli");
        for (i, _) in h.iter().enumerate() {
            let mut other = h.clone();
            other[i] += 1;
            check(2, 0, &other, &v, &w).expect_err("H");
        }
        for (i, _) in v.iter().enumerate() {
            let mut other = v.clone();
            other[i] += 1;
            check(2, 0, &h, &other, &w).expect_err("V");
            let mut other = w.clone();
            other[i] -= 1;
            check(2, 0, &h, &v, &other).expect_err("W");
        }
        // Another multiplier, with its inverse, that is not normal: the first
        // group is added to the first column, and taken away in W.
        let (mut v2, mut w2) = (v.clone(), w.clone());
        for i in 0..5 {
            v2[5 * i] += v[5 * i + 2];
            w2[10 + i] -= w[i];
        }
        let error = check(2, 0, &h, &v2, &w2).expect_err("not normal");
        assert!(error.contains("in range"), "{error}");
        // Two groups swapped.
        let (mut v2, mut w2) = (v.clone(), w.clone());
        for i in 0..5 {
            v2.swap(5 * i + 2, 5 * i + 3);
            w2.swap(10 + i, 15 + i);
        }
        let error = check(2, 0, &h, &v2, &w2).expect_err("not normal");
        assert!(error.contains("pivot rows rise"), "{error}");
    }

    #[test]
    fn weights() {
        let five = five();
        let mut out = [77; 9];
        let answer = calls::weigh(1, 3, &five.matrix, &five.moduli, &[-5, 0, 9], &mut out);
        assert_eq!(
            answer,
            WeighAnswer {
                number: 0,
                place: 0
            }
        );
        // R8.2: the sign of the dividend.
        assert_eq!(out, [-2, 77, 77, 77, 77, 77, 77, 77, 77]);
        let refusal = |number, place| WeighAnswer { number, place };
        let mut weigh = |m, matrix: &[i32], moduli: &[i32], exponents: &[i32], size: usize| {
            calls::weigh(m, 3, matrix, moduli, exponents, &mut out[..size])
        };
        assert_eq!(weigh(0, &[], &[], &[], 0), refusal(1, 0));
        assert_eq!(weigh(9, &[], &[], &[], 0), refusal(1, 0));
        assert_eq!(weigh(1, &[1, 2], &[-1], &[0; 3], 0), refusal(2, 0));
        assert_eq!(weigh(1, &[1, 2, 3], &[], &[0; 3], 0), refusal(2, 0));
        assert_eq!(weigh(1, &[1, 2, 3], &[-1], &[0; 2], 0), refusal(2, 0));
        assert_eq!(weigh(1, &[1, 2, 1001], &[-1], &[0; 3], 7), refusal(3, 0));
        assert_eq!(weigh(1, &[1, 2, 1001], &[-1], &[0; 3], 8), refusal(4, 0));
        assert_eq!(
            weigh(1, &[1, 2, 1001], &[1], &[0, 10_001, 0], 8),
            refusal(5, 2)
        );
        assert_eq!(
            weigh(1, &[1, 2, 1000], &[1], &[0, -10_001, 0], 8),
            refusal(6, 1)
        );
        assert_eq!(out, [-2, 77, 77, 77, 77, 77, 77, 77, 77]);
        // A problem that the build refuses has weights.
        let ten = ten();
        let exponents = [1, 2, 3, 4, 5];
        let answer = calls::weigh(4, 5, &ten.matrix, &ten.moduli, &exponents, &mut out);
        assert_eq!(answer, refusal(0, 0));
        assert_eq!(out, [998, 1997, 2996, 3995, 77, 77, 77, 77, 77]);
    }

    #[test]
    fn program_refusals() {
        let answer = |input: &str| lines::answer(input.as_bytes());
        let good = "010102\n02000000010002\n0300000005fffc0002\n";
        assert_eq!(answer(""), "ff0a0000\n");
        assert_eq!(answer("\n"), "ff0a0000\n");
        assert_eq!(answer("010102"), "ff0a0000\n");
        assert_eq!(answer("010102\r\n"), "ff0a0000\n");
        assert_eq!(answer("01010A\n"), "ff0a0000\n");
        assert_eq!(answer("010900"), "ff0a0000\n");
        assert_eq!(answer("010900\n"), "ff010000\n");
        assert_eq!(answer("010011\n"), "ff010000\n");
        assert_eq!(answer("010111\ngarbage"), "ff010000\n");
        assert_eq!(answer("010102\n"), "ff0a0001\n");
        assert_eq!(answer("010202\n02000000010002\n"), "ff0a0002\n");
        assert_eq!(answer(&good[..good.len() - 1]), "ff0a0002\n");
        assert_eq!(answer(&format!("{good}\n")), "ff0a0003\n");
        assert_eq!(answer(&format!("{good}x")), "ff0a0003\n");
        let term = "0300000005fffc0002\n";
        let terms = |count: usize| format!("010102\n02000000010002\n{}", term.repeat(count));
        assert_eq!(answer(&terms(64)).lines().count(), 1 + 1 + 2 + 2 + 64);
        assert_eq!(answer(&terms(65)), "ff0a0042\n");
        assert_eq!(answer("010102\n02ffff00010002\n"), "ff040000\n");
        assert_eq!(answer("010102\n02000003e9fc17\n"), "ff050000\n");
        assert_eq!(answer("010102\n02000003e8fc17\n"), "ff050001\n");
        assert_eq!(
            answer("010102\n02000003e8fc18\n030000000027112711\n"),
            "ff060000\n"
        );
        assert_eq!(
            answer("010102\n02000003e8fc18\n0300000000ffff0000\n"),
            "ff080000\n"
        );
    }

    #[test]
    fn order_of_checks_on_byte_slices() {
        let mut buffers = [vec![7u8; 4 * 192], vec![7u8; 4 * 576], vec![7u8; 4 * 576]];
        let mut number = |m, n, matrix: &[u8], moduli: &[u8], sizes: [usize; 3]| {
            let [h, v, w] = &mut buffers;
            let answer = calls::build_bytes(
                m,
                n,
                matrix,
                moduli,
                &mut h[..sizes[0]],
                &mut v[..sizes[1]],
                &mut w[..sizes[2]],
            );
            assert_eq!((answer.rank, answer.moduli, answer.steps), (0, 0, 0));
            assert_eq!(answer.place, 0);
            answer.number
        };
        let full = [4 * 192, 4 * 576, 4 * 576];
        assert_eq!(number(0, 1, &[0; 3], &[0; 4], [0; 3]), 1);
        assert_eq!(number(1, 17, &[0; 3], &[0; 4], [0; 3]), 1);
        assert_eq!(number(u32::MAX, 1, &[0; 4], &[0; 4], full), 1);
        assert_eq!(number(1, 1, &[0; 5], &[0; 4], [0; 3]), 2);
        assert_eq!(number(1, 1, &[0; 4], &[0; 3], [1; 3]), 2);
        assert_eq!(number(1, 1, &[0; 8], &[0; 4], full), 2);
        assert_eq!(number(1, 1, &[0; 4], &[255; 4], [767, 2304, 2304]), 3);
        assert_eq!(number(1, 1, &[0; 4], &[255; 4], [768, 2300, 2304]), 3);
        assert_eq!(number(1, 1, &[0; 4], &[255; 4], [768, 2304, 2303]), 3);
        assert_eq!(number(1, 1, &[127; 4], &[255; 4], full), 4);
        assert_eq!(number(1, 1, &[127; 4], &[0; 4], full), 5);
        assert!(buffers.iter().flatten().all(|&byte| byte == 7));
    }
}
