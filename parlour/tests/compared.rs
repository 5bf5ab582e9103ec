//! What is printed for random problems, read again, is what the independent second program
//! says of them.

mod common;

use common::output::{factors, formula, groups, sections, table, Table};
use common::writing::{written, Written};
use common::{parlour, Stored};
use parlour::commands::Outcome;
use parlour::words::Status;
use peer::generate;
use peer::model::calls::{build_numbers, translate_numbers, weigh, Built, Translated};
use peer::model::gauges::{exponents, gauge, GaugeAnswer};
use peer::model::lines::{self, Input};
use peer::model::{Matrix, Problem, Refusal};
use peer::random::Random;

fn named(letter: &str, count: usize) -> Vec<String> {
    (1..=count).map(|i| format!("{letter}{i}")).collect()
}

/// "1 group", "2 groups".
fn counted(count: usize, one: &str, many: &str) -> String {
    format!("{count} {}", if count == 1 { one } else { many })
}

/// The first line of a report.
fn counts(problem: &Problem, built: &Built) -> String {
    [
        counted(problem.n, "quantity", "quantities"),
        counted(problem.m, "dimension", "dimensions"),
        counted(problem.s(), "modulus", "moduli"),
        format!("rank {}", built.rank),
        counted(problem.columns() - built.rank, "group", "groups"),
        counted(built.steps as usize, "column step", "column steps"),
    ]
    .join(", ")
}

/// Holds a report, without its values, to the peer's answer.
fn check_report(out: &str, file: &Written, input: &Input, answer: &Translated) {
    let sections = sections(out);
    let (problem, built) = (&input.problem, &answer.built);
    assert_eq!(sections[&counts(problem, built)], [""; 0]);
    let found = groups(&sections["groups"]);
    assert_eq!(found.len(), answer.d);
    for (i, group) in found.iter().enumerate() {
        let due = exponents(problem, built, i).expect("a group");
        assert_eq!(factors(&file.quantities, group), due);
    }
    if input.coefficients.is_empty() {
        assert!(!out.contains("formula"), "{out}");
        return;
    }
    let in_groups = formula(&named("g", answer.d), &sections["formula in the groups"]);
    let back = formula(&file.quantities, &sections["formula put back"]);
    let given = input.exponents.chunks_exact(problem.n);
    assert_eq!(in_groups.len(), answer.exponents.len());
    assert_eq!(back.len(), answer.exponents.len());
    for (t, given) in given.enumerate() {
        let given = given.iter().map(|&x| i128::from(x)).collect();
        let coefficient = input.coefficients[t];
        assert_eq!(in_groups[t], (coefficient, answer.exponents[t].clone()));
        assert_eq!(back[t], (coefficient, given));
    }
}

fn check_table(table: &Table, rows: &[String], columns: &[String], due: &Matrix) {
    assert_eq!(table.columns, columns);
    let names: Vec<&String> = table.rows.iter().map(|(name, _)| name).collect();
    assert_eq!(names, rows.iter().collect::<Vec<_>>());
    let numbers: Matrix = table.rows.iter().map(|(_, row)| row.clone()).collect();
    assert_eq!(&numbers, due);
}

/// Holds the three tables to the peer's matrices.
fn check_tables(out: &str, file: &Written, problem: &Problem, built: &Built) {
    let sections = sections(out);
    let of_modulus = |row: usize| format!("mod:{}", file.dimensions[row]);
    let mut all: Vec<String> = problem.modulus_rows().into_iter().map(of_modulus).collect();
    all.extend(file.quantities.iter().cloned());
    let mut multiplier = named("c", built.rank);
    multiplier.extend(named("g", problem.columns() - built.rank));
    let of = |heading: &str| table(&sections[heading]);
    check_table(&of("H"), &file.dimensions, &multiplier, &built.h);
    check_table(&of("V"), &all, &multiplier, &built.v);
    check_table(&of("W"), &multiplier, &all, &built.w);
}

/// The tables need no formula, so only what the build refuses is refused.
fn check_matrices(outcome: &Outcome, file: &Written, input: &Input) {
    match build_numbers(&input.problem) {
        Ok(built) => {
            assert_eq!((outcome.status, &outcome.err[..]), (Status::Done, ""));
            check_tables(&outcome.out, file, &input.problem, &built);
        }
        Err(refusal) => {
            let words = refusal_words(file, input, refusal);
            assert_eq!(outcome.err, format!("standard input{words}"));
            assert_eq!((outcome.status, &outcome.out[..]), (Status::Refused, ""));
        }
    }
}

/// The words for a refusal of the peer, with the line of the file.
fn refusal_words(file: &Written, input: &Input, refusal: Refusal) -> String {
    let (place, n) = (refusal.place as usize, input.problem.n);
    let (line, words) = match refusal.number {
        4 => {
            let (name, modulus) = (&file.dimensions[place], input.problem.moduli[place]);
            let words = format!("the modulus of {name} is {modulus}: it must be from 0 to 1000");
            (file.dimension_lines[place], words)
        }
        5 => {
            let (i, j, entry) = (place / n, place % n, input.problem.matrix[place]);
            let (quantity, dimension) = (&file.quantities[j], &file.dimensions[i]);
            let rule = "the exponent must be from -1000 to 1000";
            let words = format!("quantity {quantity} has {dimension}^{entry}: {rule}");
            (file.quantity_lines[j], words)
        }
        6 => {
            let (term, name) = (place / n, &file.quantities[place % n]);
            let exponent = input.exponents[place];
            let rule = "the exponent must be from -10000 to 10000";
            let words = format!("term {} has {name}^{exponent}: {rule}", term + 1);
            (file.term_lines[term], words)
        }
        7 => {
            let words = "a number of the build passes 2147483647: the exponents are too large";
            return format!(": {words} (refusal 7)\n");
        }
        8 => (file.term_lines[place], weight_words(file, input, place)),
        number => panic!("refusal {number}"),
    };
    format!(":{line}: {words} (refusal {})\n", refusal.number)
}

fn weight_words(file: &Written, input: &Input, term: usize) -> String {
    let (problem, n) = (&input.problem, input.problem.n);
    let exponents = &input.exponents[term * n..(term + 1) * n];
    let mut weights = [0; 8];
    let (m, matrix) = (problem.m as u32, &problem.matrix);
    weigh(
        m,
        n as u32,
        matrix,
        &problem.moduli,
        exponents,
        &mut weights,
    );
    let all = file.dimensions.iter().zip(weights);
    let all: Vec<_> = all.filter(|(_, weight)| *weight != 0).collect();
    let words = match all.len() {
        1 => format!("its weight in {} is {}", all[0].0, all[0].1),
        _ => {
            let each = all.iter().map(|(name, weight)| format!("{name} {weight}"));
            let each: Vec<String> = each.collect();
            format!("its weights are {}", each.join(", "))
        }
    };
    format!("term {} is not free of dimension: {words}", term + 1)
}

/// A problem with a formula; in one of four a number is beyond its limit.
fn random_input(random: &mut Random) -> Input {
    let mut input = generate::input(random);
    let far = random.pick(&[1001, 10_001, 32_767, -32_768]);
    match random.below(12) {
        0 => {
            let row = random.below(input.problem.m);
            input.problem.moduli[row] = random.pick(&[-1, 1001, 32_767]);
        }
        1 => {
            let place = random.below(input.problem.matrix.len());
            input.problem.matrix[place] = far;
        }
        2 if !input.exponents.is_empty() => {
            let place = random.below(input.exponents.len());
            input.exponents[place] = random.pick(&[10_001, -10_001, 32_767, -32_768]);
        }
        _ => {}
    }
    input
}

/// All commands on a random file.
fn check_file(random: &mut Random, seen: &mut [usize; 16]) {
    let input = random_input(random);
    let file = written(&input, &[], random);
    let (text, answer) = (
        &file.text,
        translate_numbers(&input.problem, &input.exponents),
    );
    let report = parlour(&["-"], text.as_bytes());
    match &answer {
        Ok(answer) => {
            assert_eq!(
                (report.status, &report.err[..]),
                (Status::Done, ""),
                "{text}"
            );
            check_report(&report.out, &file, &input, answer);
            seen[0] += 1;
        }
        Err(refusal) => {
            let words = refusal_words(&file, &input, *refusal);
            assert_eq!(report.err, format!("standard input{words}"));
            assert_eq!((report.status, &report.out[..]), (Status::Refused, ""));
            seen[refusal.number as usize] += 1;
        }
    }
    let matrices = parlour(&["matrices", "-"], text.as_bytes());
    check_matrices(&matrices, &file, &input);
    let frames = parlour(&["frames", "-"], text.as_bytes());
    assert_eq!((frames.status, &frames.err[..]), (Status::Done, ""));
    assert_eq!(Some(&frames.out), lines::write(&input).as_ref());
    check_explained(&frames.out, &report.out, &matrices.out, &report.err, text);
}

/// What the peer prints for the frames, explained, is what the program itself says.
fn check_explained(frames: &str, report: &str, matrices: &str, err: &str, text: &str) {
    let lines = lines::answer(frames.as_bytes());
    let file = Stored::new("explained", text.as_bytes());
    let named = parlour(&["explain", file.path()], lines.as_bytes());
    let unnamed = parlour(&["explain"], lines.as_bytes());
    assert_eq!((&named.err[..], &unnamed.err[..]), ("", ""));
    assert_eq!(named.status, unnamed.status);
    if lines.starts_with("ff") {
        assert_eq!(named.status, Status::Refused);
        assert_eq!(named.out, err.replace("standard input", file.path()));
        let number = err.split("(refusal").last().expect("a number");
        assert!(unnamed.out.ends_with(number), "{} {err}", unnamed.out);
        assert!(unnamed.out.starts_with(|c: char| c.is_lowercase()));
    } else {
        assert_eq!(named.status, Status::Done);
        assert_eq!(named.out, format!("{report}\n{matrices}"));
        let (named, unnamed) = (sections(&named.out), sections(&unnamed.out));
        let rows = |heading| table(&unnamed[heading]).rows.len();
        assert_eq!(rows("H"), table(&named["H"]).rows.len());
        for heading in ["H", "V", "W"] {
            let numbers = |all: &Vec<String>| -> Vec<Vec<i128>> {
                table(all).rows.into_iter().map(|(_, row)| row).collect()
            };
            assert_eq!(numbers(&named[heading]), numbers(&unnamed[heading]));
        }
        let heading = "formula in the groups";
        assert_eq!(named.get(heading), unnamed.get(heading));
    }
}

#[test]
fn every_command_says_what_the_peer_says() {
    let mut random = Random::new(1);
    let mut seen = [0; 16];
    for _ in 0..3000 {
        check_file(&mut random, &mut seen);
    }
    for (number, least) in [(0, 1000), (4, 100), (5, 100), (6, 100), (7, 100), (8, 100)] {
        assert!(seen[number] >= least, "{number}: {seen:?}");
    }
}

/// A problem with small exponents, so that most groups have values.
fn small_problem(random: &mut Random) -> Problem {
    let (m, n) = (1 + random.below(4), 1 + random.below(7));
    let most = random.pick(&[1, 2, 3, 70]);
    let matrix = (0..m * n).map(|_| random.between(-most, most)).collect();
    let moduli = (0..m).map(|_| random.pick(&[0, 0, 2, 3])).collect();
    let problem = Problem::new(m, n, matrix, moduli);
    match build_numbers(&problem) {
        Ok(_) => problem,
        Err(_) => small_problem(random),
    }
}

fn reading(random: &mut Random) -> f64 {
    match random.below(60) {
        0 => random.pick(&[0.0, -0.0, -1.0, f64::NAN, f64::INFINITY, f64::NEG_INFINITY]),
        1 => random.pick(&[5e-324, 1e-310, f64::MAX, f64::MIN_POSITIVE]),
        2..=10 => f64::from_bits(1 + random.bits() % f64::MAX.to_bits()),
        11..=20 => 2f64.powi(random.between(-30, 30)),
        _ => f64::from(random.between(1, 1000)) / 10.0,
    }
}

/// A file with readings, what the program printed, and what the peer has of its groups.
struct Gauged {
    problem: Problem,
    readings: Vec<f64>,
    file: Written,
    built: Built,
    outcome: Outcome,
}

impl Gauged {
    fn new(random: &mut Random) -> Gauged {
        let input = Input {
            problem: small_problem(random),
            coefficients: Vec::new(),
            exponents: Vec::new(),
        };
        let readings: Vec<f64> = (0..input.problem.n).map(|_| reading(random)).collect();
        let file = written(&input, &readings, random);
        Gauged {
            built: build_numbers(&input.problem).expect("accepted"),
            outcome: parlour(&["-"], file.text.as_bytes()),
            problem: input.problem,
            readings,
            file,
        }
    }

    fn ask(&self, group: usize) -> GaugeAnswer {
        let Problem { m, n, .. } = self.problem;
        let (matrix, moduli) = (&self.problem.matrix, &self.problem.moduli);
        gauge(
            m as u32,
            n as u32,
            matrix,
            moduli,
            &self.readings,
            group as u32,
        )
    }

    fn is_refused(&self) {
        let Outcome { status, out, .. } = &self.outcome;
        assert_eq!((*status, &out[..]), (Status::Refused, ""));
    }

    /// 11, at a place.
    fn check_reading(&self, place: usize) {
        let (line, name) = (self.file.reading_lines[place], &self.file.quantities[place]);
        let shown = self.readings[place];
        let rule = match shown.is_finite() {
            true => "it must be above zero",
            false => "it must be a finite number",
        };
        let words = format!("reading of {name} is {shown}: {rule} (refusal 11)");
        assert_eq!(
            self.outcome.err,
            format!("standard input:{line}: {words}\n")
        );
        self.is_refused();
    }

    /// Every group has a value.
    fn check_values(&self, answers: &[GaugeAnswer]) {
        let Outcome { status, out, err } = &self.outcome;
        assert_eq!((*status, &err[..]), (Status::Done, ""));
        let values = groups(&sections(out)["values"]);
        let bits = |text: &String| text.parse::<f64>().expect("a double").to_bits();
        let values: Vec<u64> = values.iter().map(bits).collect();
        let due: Vec<u64> = answers
            .iter()
            .map(|answer| answer.value.to_bits())
            .collect();
        assert_eq!(values, due);
    }

    /// 12 and 13: a line for each group that has none.
    fn check_refused(&self, refused: &[&GaugeAnswer]) {
        self.is_refused();
        let lines: Vec<&str> = self.outcome.err.lines().collect();
        assert_eq!(lines.len(), refused.len());
        for (line, answer) in lines.iter().zip(refused) {
            let start = format!("standard input: g{} has no value: ", answer.place + 1);
            assert!(line.starts_with(&start), "{line}");
            let end = match answer.number {
                12 => format!(", not {} (refusal 12)", self.large(answer.place as usize)),
                _ => "is zero or not finite (refusal 13)".to_string(),
            };
            assert!(line.ends_with(&end), "{line}");
        }
    }

    /// The factors of a group beyond 64.
    fn large(&self, group: usize) -> String {
        let group = exponents(&self.problem, &self.built, group).expect("a group");
        let all = self.file.quantities.iter().zip(group);
        let large = all.filter(|(_, exponent)| exponent.abs() > 64);
        let factors = large.map(|(name, exponent)| format!("{name}^{exponent}"));
        factors.collect::<Vec<_>>().join(" ")
    }

    /// Holds all of it to the peer, and returns the numbers of its answers.
    fn check(&self) -> Vec<u32> {
        let first = self.ask(0);
        if first.number == 11 {
            self.check_reading(first.place as usize);
            return vec![11];
        }
        let d = self.problem.columns() - self.built.rank;
        let answers: Vec<GaugeAnswer> = (0..d).map(|group| self.ask(group)).collect();
        let refused: Vec<_> = answers.iter().filter(|answer| answer.number != 0).collect();
        if refused.is_empty() {
            self.check_values(&answers);
            return vec![0];
        }
        self.check_refused(&refused);
        refused.iter().map(|answer| answer.number).collect()
    }
}

#[test]
fn values_are_the_peers_bit_for_bit() {
    let mut random = Random::new(2);
    let mut seen = [0; 16];
    for _ in 0..4000 {
        for number in Gauged::new(&mut random).check() {
            seen[number as usize] += 1;
        }
    }
    for (number, least) in [(0, 1000), (11, 100), (12, 100), (13, 100)] {
        assert!(seen[number] >= least, "{number}: {seen:?}");
    }
}

/// The known problems, and those whose runs come to the largest numbers.
#[test]
fn known_problems() {
    let mut random = Random::new(3);
    let boundary = peer::boundary::table()
        .into_iter()
        .map(|row| row.problem.clone());
    let problems: Vec<Problem> = peer::problems::known()
        .into_iter()
        .chain(boundary)
        .collect();
    assert!(problems.len() > 20);
    for problem in problems {
        let input = Input {
            problem,
            coefficients: Vec::new(),
            exponents: Vec::new(),
        };
        let file = written(&input, &[], &mut random);
        let outcome = parlour(&["matrices", "-"], file.text.as_bytes());
        check_matrices(&outcome, &file, &input);
    }
}
