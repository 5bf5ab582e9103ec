//! A text file as a person might write it: lines in any order that declares a name before
//! its use, factors in any order and in parts, blanks, tabs, comments, either line end.

use peer::model::lines::Input;
use peer::model::Problem;
use peer::random::Random;

/// A file, with what is called how and where it stands, in lines counted from 1.
pub struct Written {
    pub text: String,
    pub dimensions: Vec<String>,
    pub quantities: Vec<String>,
    pub dimension_lines: Vec<usize>,
    pub quantity_lines: Vec<usize>,
    pub term_lines: Vec<usize>,
    pub reading_lines: Vec<usize>,
}

const WORDS: [&str; 24] = [
    "mass",
    "length",
    "time",
    "sign",
    "vacuum",
    "density",
    "viscosity",
    "bore",
    "flow",
    "rate",
    "g",
    "mod",
    "term",
    "reading",
    "dimension",
    "quantity",
    "g1x",
    "η",
    "Δp",
    "pulse_ratio",
    "x2",
    "G1",
    "e",
    "nan",
];

/// Different names; a dimension and a quantity may have the same.
fn names(count: usize, random: &mut Random) -> Vec<String> {
    let mut names: Vec<String> = Vec::new();
    while names.len() < count {
        let mut name = random.pick(&WORDS).to_string();
        if random.one_in(3) {
            name += &format!("_{}", random.below(100));
        }
        if !names.contains(&name) {
            names.push(name);
        }
    }
    names
}

/// A whole number as it may be written.
fn whole(number: i32, random: &mut Random) -> String {
    match random.below(8) {
        0 if number >= 0 => format!("+{number}"),
        1 => format!("{number:04}"),
        _ => number.to_string(),
    }
}

/// Numbers that add up to the given one.
fn parts(sum: i32, random: &mut Random) -> Vec<i32> {
    let mut parts = vec![sum];
    while random.one_in(4) {
        let part = random.between(-12, 12);
        parts[0] -= part;
        parts.push(part);
    }
    parts
}

fn blank(random: &mut Random) -> String {
    random.pick(&[" ", " ", "  ", "\t", " \t "]).to_string()
}

/// Factors with a blank before each. Those with exponent 0 may be left out, and those of
/// names that are not declared yet must.
fn factors(names: &[String], exponents: &[i32], declared: usize, random: &mut Random) -> String {
    let mut factors = Vec::new();
    for (name, &exponent) in names[..declared].iter().zip(exponents) {
        if exponent == 0 && !random.one_in(10) {
            continue;
        }
        for part in parts(exponent, random) {
            factors.push(match part {
                1 if !random.one_in(3) => name.clone(),
                _ => format!("{name}^{}", whole(part, random)),
            });
        }
    }
    for i in (1..factors.len()).rev() {
        factors.swap(i, random.below(i + 1));
    }
    let with_blank = |factor| format!("{}{factor}", blank(random));
    factors.into_iter().map(with_blank).collect()
}

/// How many names a list of exponents needs.
fn needed(exponents: &[i32]) -> usize {
    let last = exponents.iter().rposition(|&exponent| exponent != 0);
    last.map_or(0, |last| last + 1)
}

/// The file so far, and how much of the problem it has.
struct Writer<'a> {
    input: &'a Input,
    readings: &'a [f64],
    written: Written,
    read: Vec<bool>,
    line_end: &'static str,
}

/// The exponents of a quantity.
fn column(problem: &Problem, quantity: usize) -> Vec<i32> {
    let rows = problem.matrix.chunks_exact(problem.n);
    rows.map(|row| row[quantity]).collect()
}

impl Writer<'_> {
    /// Adds a line and returns its number.
    fn line(&mut self, line: &str, random: &mut Random) -> usize {
        let before = random.pick(&["", "", "", " ", "\t"]);
        let after = random.pick(&["", "", "", " ", " # a note", "#mass^2 # twice", "\t#"]);
        let text = &mut self.written.text;
        *text += &format!("{before}{line}{after}{}", self.line_end);
        text.matches('\n').count()
    }

    fn dimension(&mut self, random: &mut Random) {
        let i = self.written.dimension_lines.len();
        if i == self.input.problem.m {
            return;
        }
        let name = &self.written.dimensions[i];
        let mut line = format!("dimension{}{name}", blank(random));
        let modulus = self.input.problem.moduli[i];
        if modulus != 0 || random.one_in(10) {
            line += &format!("{}mod {}", blank(random), whole(modulus, random));
        }
        let number = self.line(&line, random);
        self.written.dimension_lines.push(number);
    }

    fn quantity(&mut self, random: &mut Random) {
        let j = self.written.quantity_lines.len();
        let declared = self.written.dimension_lines.len();
        if j == self.input.problem.n {
            return;
        }
        let exponents = column(&self.input.problem, j);
        if needed(&exponents) > declared {
            return;
        }
        let factors = factors(&self.written.dimensions, &exponents, declared, random);
        let name = &self.written.quantities[j];
        let line = format!("quantity{}{name}{factors}", blank(random));
        let number = self.line(&line, random);
        self.written.quantity_lines.push(number);
    }

    fn term(&mut self, random: &mut Random) {
        let (t, n) = (self.written.term_lines.len(), self.input.problem.n);
        let declared = self.written.quantity_lines.len();
        if t == self.input.coefficients.len() {
            return;
        }
        let exponents = &self.input.exponents[t * n..(t + 1) * n];
        if needed(exponents) > declared {
            return;
        }
        let factors = factors(&self.written.quantities, exponents, declared, random);
        let coefficient = whole(self.input.coefficients[t], random);
        let line = format!("term{}{coefficient}{factors}", blank(random));
        let number = self.line(&line, random);
        self.written.term_lines.push(number);
    }

    fn reading(&mut self, random: &mut Random) {
        let j = random.below(self.input.problem.n);
        if self.readings.is_empty() || self.read[j] {
            return;
        }
        if j >= self.written.quantity_lines.len() {
            return;
        }
        let reading = self.readings[j];
        let number = match random.below(3) {
            0 => format!("{reading:e}"),
            1 => format!("{reading}"),
            _ => format!("{reading:?}"),
        };
        let name = &self.written.quantities[j];
        let line = format!("reading{}{name}{}{number}", blank(random), blank(random));
        self.written.reading_lines[j] = self.line(&line, random);
        self.read[j] = true;
    }

    fn is_done(&self) -> bool {
        let (input, written) = (self.input, &self.written);
        written.dimension_lines.len() == input.problem.m
            && written.quantity_lines.len() == input.problem.n
            && written.term_lines.len() == input.coefficients.len()
            && (self.readings.is_empty() || self.read.iter().all(|&read| read))
    }
}

/// Writes a problem with a formula, and readings where there are any.
pub fn written(input: &Input, readings: &[f64], random: &mut Random) -> Written {
    let (m, n) = (input.problem.m, input.problem.n);
    let mut writer = Writer {
        input,
        readings,
        written: Written {
            text: random.pick(&["", "", "", "\u{feff}"]).to_string(),
            dimensions: names(m, random),
            quantities: names(n, random),
            dimension_lines: Vec::new(),
            quantity_lines: Vec::new(),
            term_lines: Vec::new(),
            reading_lines: vec![0; n],
        },
        read: vec![false; n],
        line_end: random.pick(&["\n", "\n", "\r\n"]),
    };
    while !writer.is_done() {
        match random.below(12) {
            0..=2 => writer.dimension(random),
            3..=5 => writer.quantity(random),
            6..=8 => writer.term(random),
            9 | 10 => writer.reading(random),
            _ => drop(writer.line("", random)),
        }
    }
    let mut written = writer.written;
    if random.one_in(4) && written.text.ends_with('\n') {
        written.text.pop();
    }
    written
}
