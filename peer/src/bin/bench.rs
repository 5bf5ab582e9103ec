//! `bench` prints the µs per build of the C library (feature `bench`), of FLINT and
//! PARI doing the same task (feature `others`), and of the model, for four shapes,
//! on fixed random problems with small entries that are accepted. It asserts no time.

use peer::library::{Library, Model};
use peer::model::calls::{build_numbers, to_bytes, H_SIZE, V_SIZE, W_SIZE};
use peer::model::Problem;
use peer::random::Random;
use std::time::Instant;

const SHAPES: [(usize, usize); 4] = [(2, 5), (3, 9), (4, 8), (8, 16)];
const PROBLEMS: usize = 200;

/// Accepted problems of one shape; the same in every run.
fn problems(m: usize, n: usize) -> Vec<Problem> {
    let mut random = Random::new(1);
    let mut found = Vec::new();
    while found.len() < PROBLEMS {
        // In 8 by 16 problems with larger entries are mostly refused 7.
        let most = if m * n > 40 { 1 } else { 5 };
        let matrix = (0..m * n).map(|_| random.between(-most, most)).collect();
        let problem = Problem::new(m, n, matrix, vec![0; m]);
        if build_numbers(&problem).is_ok() {
            found.push(problem);
        }
    }
    found
}

/// The µs per call: the least of twenty rounds, each over all of the calls, many times.
fn least_of_rounds<Call>(calls: &[Call], mut one: impl FnMut(&Call)) -> f64 {
    let mut least = f64::INFINITY;
    for _ in 0..20 {
        let mut builds = 0;
        let begin = Instant::now();
        while begin.elapsed().as_millis() < 100 {
            for call in calls {
                one(call);
                builds += 1;
            }
        }
        least = least.min(begin.elapsed().as_secs_f64() * 1e6 / f64::from(builds));
    }
    least
}

/// The µs per build of a library of the C calls.
fn time(library: &mut dyn Library, problems: &[Problem]) -> f64 {
    let calls: Vec<(u32, u32, Vec<u8>, Vec<u8>)> = problems
        .iter()
        .map(|p| {
            let (matrix, moduli) = (to_bytes(&p.matrix), to_bytes(&p.moduli));
            (p.m as u32, p.n as u32, matrix, moduli)
        })
        .collect();
    let mut h = vec![0; 4 * H_SIZE];
    let mut v = vec![0; 4 * V_SIZE];
    let mut w = vec![0; 4 * W_SIZE];
    least_of_rounds(&calls, |(m, n, matrix, moduli)| {
        let answer = library.build(*m, *n, matrix, moduli, &mut h, &mut v, &mut w);
        assert_eq!(std::hint::black_box(answer).number, 0, "accepted problems");
    })
}

/// The C library, if this was built with it.
#[cfg(feature = "bench")]
fn c_library() -> Option<Box<dyn Library>> {
    Some(Box::new(peer::library::CLibrary))
}

#[cfg(not(feature = "bench"))]
fn c_library() -> Option<Box<dyn Library>> {
    println!("without the C library: build with --features bench to time it too");
    None
}

/// FLINT's and PARI's builds (others.c), where this was linked with them.
#[cfg(feature = "others")]
mod others {
    use super::{least_of_rounds, Problem};
    use peer::model::calls::build_numbers;
    use peer::model::Matrix;

    pub type Build = unsafe extern "C" fn(usize, usize, *const i32, *mut i32, *mut i32, *mut i32);

    #[link(name = "others", kind = "static")]
    #[link(name = "flint")]
    #[link(name = "gmp")]
    #[link(name = "pari")]
    extern "C" {
        fn flint_build(m: usize, n: usize, a: *const i32, h: *mut i32, v: *mut i32, w: *mut i32);
        fn pari_build(m: usize, n: usize, a: *const i32, h: *mut i32, v: *mut i32, w: *mut i32);
    }

    pub const ALL: [(&str, Build); 2] = [("FLINT", flint_build), ("PARI", pari_build)];

    /// The µs per build, after a look that each answer is the model's.
    pub fn time(build: Build, problems: &[Problem]) -> f64 {
        let calls: Vec<(usize, usize, Vec<i32>)> = problems
            .iter()
            .map(|p| (p.m, p.n, p.matrix.clone()))
            .collect();
        let (mut h, mut v, mut w) = ([0; 192], [0; 576], [0; 576]);
        let mut one = |(m, n, a): &(usize, usize, Vec<i32>)| {
            // The matrix has m·n entries, and the outputs have room for 8 by 24 and 24 by 24.
            unsafe {
                build(
                    *m,
                    *n,
                    a.as_ptr(),
                    h.as_mut_ptr(),
                    v.as_mut_ptr(),
                    w.as_mut_ptr(),
                )
            };
            (h, v, w)
        };
        for (problem, call) in problems.iter().zip(&calls) {
            let right = build_numbers(problem).expect("accepted");
            let (h, v, w) = one(call);
            let flat =
                |rows: &Matrix| -> Vec<i32> { rows.concat().iter().map(|&x| x as i32).collect() };
            assert_eq!(h[..problem.m * problem.n], flat(&right.h)[..], "the same H");
            assert_eq!(v[..problem.n * problem.n], flat(&right.v)[..], "the same V");
            assert_eq!(w[..problem.n * problem.n], flat(&right.w)[..], "the same W");
        }
        least_of_rounds(&calls, |call| {
            std::hint::black_box(one(call));
        })
    }
}

#[cfg(feature = "others")]
fn other_times(problems: &[Problem]) -> Vec<(&'static str, f64)> {
    let timed = others::ALL.map(|(name, build)| (name, others::time(build, problems)));
    timed.to_vec()
}

#[cfg(not(feature = "others"))]
fn other_times(_: &[Problem]) -> Vec<(&'static str, f64)> {
    Vec::new()
}

fn main() {
    let mut library = c_library();
    println!("µs per build, {PROBLEMS} problems of each shape; in brackets how many times the C library's");
    for (m, n) in SHAPES {
        let problems = problems(m, n);
        let steps: u64 = problems
            .iter()
            .map(|p| build_numbers(p).expect("accepted").steps)
            .sum();
        print!("{m}x{n}: {:.1} steps", steps as f64 / PROBLEMS as f64);
        let own = library
            .as_mut()
            .map(|library| time(library.as_mut(), &problems));
        if let Some(own) = own {
            print!(", C library {own:.2}");
        }
        let mut rest = other_times(&problems);
        rest.push(("model", time(&mut Model, &problems)));
        for (name, other) in rest {
            print!(", {name} {other:.2}");
            if let Some(own) = own {
                print!(" ({:.1})", other / own);
            }
        }
        println!();
    }
}
