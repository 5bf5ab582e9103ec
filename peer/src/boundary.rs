//! Problems whose runs come to exactly M (and are accepted) and to M + 1 (and
//! are refused 7 for that value alone).

pub mod gauges;
pub mod weights;

use crate::model::steps::{run, Of, Stage, Until};
use crate::model::{Problem, M};

/// What a run is to come to: `value`, which is M, -M, M + 1 or -(M + 1), in
/// one of the matrices, and nothing beyond it.
#[derive(Clone, Copy, Debug, PartialEq, Eq)]
pub struct Aim {
    pub of: Of,
    pub value: i128,
}

/// All aims.
pub fn aims() -> Vec<Aim> {
    [Of::T, Of::V, Of::W]
        .into_iter()
        .flat_map(|of| [M, -M, M + 1, -(M + 1)].map(|value| Aim { of, value }))
        .collect()
}

/// How far a problem's run, past M, is from an aim; 0 when it has come to it, or
/// has come to its negative before.
pub fn distance(problem: &Problem, aim: Aim) -> i128 {
    let run = run(problem, Until::TheEnd);
    let mut distance = 0;
    for (of, extremes) in [Of::T, Of::V, Of::W].into_iter().zip(run.work.extremes) {
        for (sign, value) in [(1, extremes.most), (-1, extremes.least)] {
            let size = value.abs();
            distance += if of != aim.of {
                (size - M).max(0)
            } else if sign != aim.value.signum() {
                (size - aim.value.abs()).max(0)
            } else {
                (size - aim.value.abs()).abs()
            };
        }
    }
    distance
}

/// Whether a problem's run comes to an aim: M or -M in that matrix in an accepted
/// run, or M + 1 or -(M + 1) in that matrix as the first value beyond M, with no
/// larger one in the same step and T and V within M where the aim is in W.
pub fn reaches(problem: &Problem, aim: Aim) -> bool {
    let run = run(problem, Until::BeyondM);
    match run.work.first_beyond {
        Some(first) => first.of == aim.of && first.value == aim.value && first.peak == M + 1,
        None => {
            let extremes = run.work.extremes[aim.of as usize];
            extremes.most == aim.value || extremes.least == aim.value
        }
    }
}

/// A problem with the aim that its run comes to.
#[derive(Clone, Debug)]
pub struct Row {
    pub aim: Aim,
    pub problem: Problem,
}

fn row(of: Of, value: i128, m: usize, n: usize, matrix: &[i32], moduli: &[i32]) -> Row {
    Row {
        aim: Aim { of, value },
        problem: Problem::new(m, n, matrix.to_vec(), moduli.to_vec()),
    }
}

/// The problems found by `src/bin/search.rs`.
pub fn table() -> Vec<Row> {
    vec![
        row(
            Of::T,
            -2147483647,
            2,
            5,
            &[1, -1000, 578, -582, 353, 0, 104, 715, -736, 1000],
            &[0, 0],
        ),
        row(
            Of::T,
            -2147483647,
            4,
            4,
            &[
                435, -472, -520, 956, 0, 777, 823, 419, -1, 583, -80, 72, 0, 749, 0, 0,
            ],
            &[0, 0, 0, 0],
        ),
        row(
            Of::T,
            -2147483647,
            5,
            3,
            &[
                370, -785, -657, -290, -311, -59, 0, 892, 813, 0, 583, 0, 1, 581, -20,
            ],
            &[0, 0, 907, 0, 0],
        ),
        row(
            Of::T,
            -2147483647,
            5,
            4,
            &[
                -426, 773, 286, 926, -608, -618, -539, 582, 0, 868, 121, -8, 0, 285, 311, 0, 0,
                798, 0, 0,
            ],
            &[0, 407, 0, 0, 0],
        ),
        row(
            Of::T,
            -2147483648,
            3,
            5,
            &[
                -985, -125, 376, -266, 212, 6, 1, -3, -472, 828, 147, 0, 0, -181, -790,
            ],
            &[0, 0, 615],
        ),
        row(
            Of::T,
            -2147483648,
            2,
            5,
            &[988, 1000, -1000, 768, -632, 0, -1000, 762, 871, 987],
            &[492, 0],
        ),
        row(
            Of::T,
            -2147483648,
            4,
            3,
            &[-38, 474, -46, 0, 733, 0, -336, -306, -446, 670, 524, 0],
            &[0, 0, 0, 521],
        ),
        row(
            Of::T,
            -2147483648,
            5,
            4,
            &[
                -451, -452, -696, -626, -199, -493, 992, 26, 0, 894, 0, 24, 93, 657, -101, 495, 0,
                -101, 0, 0,
            ],
            &[0, 0, 0, 0, 0],
        ),
        row(
            Of::T,
            2147483647,
            4,
            4,
            &[
                -936, -1000, -601, 414, 13, 498, -972, -62, 0, -20, -886, 886, 0, 0, 0, 762,
            ],
            &[0, 0, 0, 0],
        ),
        row(
            Of::T,
            2147483647,
            3,
            4,
            &[350, 323, 647, -814, 0, 0, 0, -453, -955, -940, -1000, -119],
            &[0, 0, 0],
        ),
        row(
            Of::T,
            2147483647,
            5,
            4,
            &[
                659, 418, -542, -362, -644, 984, 407, -764, -8, 360, -760, 0, -905, 0, 328, 264,
                947, 1, -475, 0,
            ],
            &[0, 0, 0, 0, 0],
        ),
        row(
            Of::T,
            2147483647,
            3,
            5,
            &[
                -420, -778, -283, 747, 977, -440, 727, -585, -20, -320, 1, 0, 4, -369, 369,
            ],
            &[1, 40, 0],
        ),
        row(
            Of::T,
            2147483648,
            2,
            4,
            &[912, 947, 816, 551, 714, -195, -856, -573],
            &[2, 0],
        ),
        row(
            Of::T,
            2147483648,
            3,
            5,
            &[
                -539, -614, 1000, 2, 60, -801, -600, 0, 0, -924, -990, 1000, -1, 0, 982,
            ],
            &[0, 0, 0],
        ),
        row(
            Of::T,
            2147483648,
            2,
            4,
            &[944, 656, -120, -880, -172, -20, -973, 954],
            &[2, 0],
        ),
        row(
            Of::T,
            2147483648,
            3,
            5,
            &[
                -188, -990, 992, 664, 895, 0, 0, 1000, -560, -70, 0, -1, -960, 552, 969,
            ],
            &[92, 0, 0],
        ),
        row(
            Of::V,
            -2147483647,
            3,
            5,
            &[
                -208, 10, 0, 0, -244, 847, 913, -1, 0, 286, 740, 790, -880, -1, 973,
            ],
            &[0, 0, 0],
        ),
        row(
            Of::V,
            -2147483647,
            2,
            5,
            &[-695, 611, -1, 784, 713, -770, -209, 0, 607, 885],
            &[0, 0],
        ),
        row(
            Of::V,
            -2147483647,
            4,
            5,
            &[
                197, -1, 0, 0, 0, -18, -392, 1, 0, 0, -37, 47, -253, 1, 0, -54, -13, -238, -109, -1,
            ],
            &[0, 0, 0, 0],
        ),
        row(
            Of::V,
            -2147483647,
            4,
            5,
            &[
                66, -1, 0, 0, 0, -105, 352, -1, 0, 0, -390, -325, -353, 1, 0, -49, -247, -122,
                -262, -1,
            ],
            &[0, 0, 0, 0],
        ),
        row(
            Of::V,
            -2147483648,
            3,
            5,
            &[
                954, 4, 0, 0, -559, -897, -505, -1, 0, -998, 834, 106, -32, -1, 955,
            ],
            &[0, 0, 0],
        ),
        row(
            Of::V,
            -2147483648,
            4,
            5,
            &[
                75, -1, 0, 0, 0, 317, 326, -1, 0, 0, 0, -271, -119, 1, 0, -10, -43, -77, -723, -1,
            ],
            &[0, 0, 0, 0],
        ),
        row(
            Of::V,
            -2147483648,
            4,
            5,
            &[
                119, -1, 0, 0, 0, 236, -335, 1, 0, 0, -236, -134, 129, -1, 0, 44, 203, 52, 421, 1,
            ],
            &[0, 0, 0, 0],
        ),
        row(
            Of::V,
            -2147483648,
            4,
            5,
            &[
                163, -1, 0, 0, 0, 98, -41, 1, 0, 0, -44, 377, 399, -1, 0, 119, 36, 273, 798, 1,
            ],
            &[0, 0, 0, 0],
        ),
        row(
            Of::V,
            2147483647,
            2,
            5,
            &[1, -1000, 578, -582, 353, 0, 104, 715, -736, 1000],
            &[0, 0],
        ),
        row(
            Of::V,
            2147483647,
            3,
            5,
            &[
                1, -1000, -37, -888, 213, 0, 0, -273, 971, -884, 0, 1, -130, -962, 27,
            ],
            &[0, 580, 0],
        ),
        row(
            Of::V,
            2147483647,
            4,
            5,
            &[
                -169, 1, 0, 0, 0, -154, -327, 1, 0, 0, 241, 333, -207, 1, 0, 68, 28, 27, 188, -1,
            ],
            &[0, 0, 0, 0],
        ),
        row(
            Of::V,
            2147483647,
            4,
            5,
            &[
                -316, 1, 0, 0, 0, -229, 177, -1, 0, 0, 108, -8, -287, 1, 0, -245, -99, -88, -134, 1,
            ],
            &[0, 0, 0, 0],
        ),
        row(
            Of::V,
            2147483648,
            4,
            5,
            &[
                -361, 1, 0, 0, 0, -113, 212, -1, 0, 0, -82, 65, 172, -1, 0, -252, -118, -15, -163,
                1,
            ],
            &[0, 0, 0, 0],
        ),
        row(
            Of::V,
            2147483648,
            4,
            5,
            &[
                -349, 1, 0, 0, 0, -28, 354, -1, 0, 0, 373, -284, 23, -1, 0, -153, -334, -2, -783, 1,
            ],
            &[0, 0, 0, 0],
        ),
        row(
            Of::V,
            2147483648,
            4,
            5,
            &[
                218, -1, 0, 0, 0, 276, -248, 1, 0, 0, -273, 165, -189, 1, 0, -91, -244, -185, -211,
                1,
            ],
            &[0, 0, 0, 0],
        ),
        row(
            Of::V,
            2147483648,
            4,
            5,
            &[
                -192, 1, 0, 0, 0, -7, -130, 1, 0, 0, -5, 271, 134, -1, 0, -55, -117, -7, -632, 1,
            ],
            &[0, 0, 0, 0],
        ),
        row(
            Of::W,
            -2147483647,
            2,
            5,
            &[1, -1000, 578, -582, 353, 0, 104, 715, -736, 1000],
            &[0, 0],
        ),
        row(
            Of::W,
            -2147483647,
            2,
            5,
            &[-695, 611, -1, 784, 713, -770, -209, 0, 607, 885],
            &[0, 0],
        ),
        row(
            Of::W,
            -2147483647,
            3,
            5,
            &[
                1, -1000, -37, -888, 213, 0, 0, -273, 971, -884, 0, 1, -130, -962, 27,
            ],
            &[0, 580, 0],
        ),
        row(
            Of::W,
            -2147483647,
            2,
            5,
            &[386, -1, -921, 686, -787, 60, 0, 38, 677, -690],
            &[0, 382],
        ),
        row(
            Of::W,
            -2147483647,
            2,
            5,
            &[1, -179, 285, 92, -439, 0, 486, -20, -367, 579],
            &[0, 0],
        ),
        row(
            Of::W,
            -2147483647,
            3,
            5,
            &[
                -420, -778, -283, 747, 977, -440, 727, -585, -20, -320, 1, 0, 4, -369, 369,
            ],
            &[1, 40, 0],
        ),
        row(
            Of::W,
            -2147483647,
            3,
            5,
            &[
                -268, -511, -1, -775, 894, 0, -590, 0, -995, -995, 1, -3, 0, 755, 778,
            ],
            &[0, 0, 717],
        ),
        row(
            Of::W,
            -2147483647,
            2,
            4,
            &[878, 576, -823, -703, 130, 325, 8, -944],
            &[1, 0],
        ),
        row(
            Of::W,
            -2147483647,
            2,
            5,
            &[-1, 963, 408, 502, -505, 0, 204, 879, 812, -879],
            &[0, 289],
        ),
        row(
            Of::W,
            -2147483648,
            2,
            5,
            &[-461, -1000, -67, -673, 926, -27, -468, 0, 909, 776],
            &[0, 0],
        ),
        row(
            Of::W,
            2147483647,
            2,
            5,
            &[-695, 611, -1, 784, 713, -770, -209, 0, 607, 885],
            &[0, 0],
        ),
        row(
            Of::W,
            2147483647,
            2,
            5,
            &[386, -1, -921, 686, -787, 60, 0, 38, 677, -690],
            &[0, 382],
        ),
        row(
            Of::W,
            2147483647,
            3,
            5,
            &[
                -420, -778, -283, 747, 977, -440, 727, -585, -20, -320, 1, 0, 4, -369, 369,
            ],
            &[1, 40, 0],
        ),
        row(
            Of::W,
            2147483647,
            3,
            5,
            &[
                -268, -511, -1, -775, 894, 0, -590, 0, -995, -995, 1, -3, 0, 755, 778,
            ],
            &[0, 0, 717],
        ),
        row(
            Of::W,
            2147483647,
            2,
            4,
            &[878, 576, -823, -703, 130, 325, 8, -944],
            &[1, 0],
        ),
        row(
            Of::W,
            2147483647,
            2,
            5,
            &[-1, 963, 408, 502, -505, 0, 204, 879, 812, -879],
            &[0, 289],
        ),
        row(
            Of::W,
            2147483647,
            3,
            5,
            &[
                -31, -488, 184, -984, 919, 1, -622, 317, -993, 982, 0, 82, 80, 530, 271,
            ],
            &[18, 97, 0],
        ),
        row(
            Of::W,
            2147483647,
            2,
            5,
            &[-206, -910, -1, -893, -647, -516, 968, 0, -827, -1000],
            &[0, 0],
        ),
        row(
            Of::W,
            2147483648,
            3,
            5,
            &[
                20, 0, 0, -51, 940, 295, 0, 1, 56, 976, 0, 367, -864, 765, -418,
            ],
            &[0, 0, 149],
        ),
        row(
            Of::W,
            2147483648,
            3,
            5,
            &[
                0, 997, -428, 0, 1, -996, 966, -924, 887, 188, 0, -1, -188, 0, 0,
            ],
            &[0, 0, 0],
        ),
        row(
            Of::W,
            2147483648,
            2,
            4,
            &[-654, 928, -148, -898, -4, -924, 918, -63],
            &[134, 16],
        ),
    ]
}

/// A problem with the stage and the matrix of its run's first value beyond M.
#[derive(Clone, Debug)]
pub struct StageRow {
    pub stage: Stage,
    pub of: Of,
    pub problem: Problem,
}

fn stage_row(stage: Stage, of: Of, m: usize, n: usize, matrix: &[i32], moduli: &[i32]) -> StageRow {
    StageRow {
        stage,
        of,
        problem: Problem::new(m, n, matrix.to_vec(), moduli.to_vec()),
    }
}

/// For each stage a problem whose run is refused there, in each matrix that is
/// written there (T has only zeros in the columns of stages 2 and 3).
pub fn stages() -> Vec<StageRow> {
    vec![
        stage_row(
            Stage::OneA,
            Of::T,
            3,
            2,
            &[0, 10, -72, 1, 72, -6],
            &[1, 927, 287],
        ),
        stage_row(Stage::OneA, Of::V, 2, 2, &[43, -15, 4, -98], &[7, 999]),
        stage_row(Stage::OneA, Of::W, 3, 1, &[7, 6, -9], &[1, 7, 466]),
        stage_row(Stage::OneB, Of::T, 3, 1, &[999, 999, 1], &[3, 11, 999]),
        stage_row(Stage::OneB, Of::V, 2, 1, &[-551, 643], &[2, 951]),
        stage_row(
            Stage::OneB,
            Of::W,
            6,
            1,
            &[-6, 9, 4, -1, 2, -9],
            &[2, 1, 11, 1, 999, 999],
        ),
        stage_row(Stage::Three, Of::V, 2, 2, &[6, -4, -7, -4], &[8, 197]),
        stage_row(
            Stage::Three,
            Of::W,
            2,
            12,
            &[
                -9, 3, 0, -1000, 0, 18, 30, 0, 30, -3, -3, -1000, 3, -1, 0, 381, 0, -6, -10, 0,
                -10, 1, 1, 804,
            ],
            &[0, 713],
        ),
        stage_row(Stage::TwoA, Of::V, 1, 3, &[666, 685, 300], &[442]),
        stage_row(Stage::TwoA, Of::W, 1, 3, &[30, -92, -23], &[999]),
        stage_row(Stage::TwoB, Of::V, 1, 4, &[58, 39, 46, 3], &[449]),
        stage_row(Stage::TwoB, Of::W, 1, 3, &[-408, 810, -87], &[425]),
    ]
}

#[cfg(test)]
mod tests {
    use super::*;
    use crate::model::calls::build_numbers;
    use crate::model::refused;

    /// Each row comes to its aim, and there is one for each aim.
    #[test]
    fn table_is_as_it_says() {
        for row in table() {
            assert!(reaches(&row.problem, row.aim), "{row:?}");
            match build_numbers(&row.problem) {
                Ok(_) => assert_eq!(row.aim.value.abs(), M),
                Err(refusal) => {
                    assert_eq!(refusal, refused(7, 0));
                    assert_eq!(row.aim.value.abs(), M + 1);
                }
            }
        }
        for aim in aims() {
            assert!(table().iter().any(|row| row.aim == aim), "{aim:?}");
        }
    }

    #[test]
    fn stages_are_as_they_say() {
        for row in stages() {
            let run = run(&row.problem, Until::BeyondM);
            let first = run.work.first_beyond.expect("beyond M");
            assert_eq!((first.stage, first.of), (row.stage, row.of));
        }
        assert_eq!(stages().len(), 12);
    }
}
