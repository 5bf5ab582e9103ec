//! The program's lines, section 9 of the rules.

use super::calls::{check_sizes, translate_numbers, Translated};
use super::{refused, Problem, Refusal, MOST_TERMS};

/// A well-formed input.
#[derive(Clone, Debug, PartialEq, Eq)]
pub struct Input {
    pub problem: Problem,
    pub coefficients: Vec<i32>,
    pub exponents: Vec<i32>,
}

/// The value of a lower-case hexadecimal digit.
fn digit(byte: u8) -> Option<u8> {
    match byte {
        b'0'..=b'9' => Some(byte - b'0'),
        b'a'..=b'f' => Some(byte - b'a' + 10),
        _ => None,
    }
}

/// The bytes after the tag, if the line (with its newline, if it has one) is a
/// frame with this tag and so many bytes after it.
fn frame(line: &[u8], tag: u8, length: usize) -> Option<Vec<u8>> {
    let digits = line.strip_suffix(b"\n")?;
    if digits.len() != 2 * (1 + length) {
        return None;
    }
    let bytes: Vec<u8> = digits
        .chunks_exact(2)
        .map(|pair| Some(16 * digit(pair[0])? + digit(pair[1])?))
        .collect::<Option<_>>()?;
    (bytes[0] == tag).then(|| bytes[1..].to_vec())
}

/// Signed big-endian numbers of two bytes.
fn numbers(bytes: &[u8]) -> Vec<i32> {
    bytes
        .chunks_exact(2)
        .map(|b| i32::from(i16::from_be_bytes([b[0], b[1]])))
        .collect()
}

/// Reads an input: 10 for the form of the first line, then 1, then 10 for the
/// first other line that is bad or missing.
pub fn read(input: &[u8]) -> Result<Input, Refusal> {
    // Lines with their newlines; only the last piece can be without, and there
    // is no piece after the last newline.
    let mut lines = input.split_inclusive(|&byte| byte == b'\n');

    let first = lines.next().and_then(|line| frame(line, 0x01, 2));
    let sizes = first.ok_or(refused(10, 0))?;
    let (m, n) = check_sizes(u32::from(sizes[0]), u32::from(sizes[1]))?;

    let mut moduli = Vec::new();
    let mut matrix = Vec::new();
    for row in 0..m {
        let line = lines.next().and_then(|line| frame(line, 0x02, 2 + 2 * n));
        let row = numbers(&line.ok_or(refused(10, 1 + row))?);
        moduli.push(row[0]);
        matrix.extend(&row[1..]);
    }

    let mut coefficients = Vec::new();
    let mut exponents = Vec::new();
    for (term, line) in lines.enumerate() {
        let bad = refused(10, 1 + m + term);
        if term == MOST_TERMS {
            return Err(bad);
        }
        let bytes = frame(line, 0x03, 4 + 2 * n).ok_or(bad)?;
        coefficients.push(i32::from_be_bytes([bytes[0], bytes[1], bytes[2], bytes[3]]));
        exponents.extend(numbers(&bytes[4..]));
    }

    Ok(Input {
        problem: Problem::new(m, n, matrix, moduli),
        coefficients,
        exponents,
    })
}

/// A line: the tag and the bytes after it in hexadecimal, and a newline.
fn line(tag: u8, bytes: &[u8]) -> String {
    let mut text = format!("{tag:02x}");
    for byte in bytes {
        text.push_str(&format!("{byte:02x}"));
    }
    text.push('\n');
    text
}

/// Numbers of four bytes.
fn four_bytes(numbers: &[i128]) -> Vec<u8> {
    numbers
        .iter()
        .flat_map(|&x| super::calls::narrow(x).to_be_bytes())
        .collect()
}

/// The lines of an answer that is not a refusal.
fn accepted(input: &Input, answer: &Translated) -> String {
    let problem = &input.problem;
    let built = &answer.built;
    let mut sizes: Vec<u8> = [problem.m, problem.n, problem.s(), built.rank]
        .iter()
        .map(|&size| u8::try_from(size).expect("at most 16"))
        .collect();
    let steps = u32::try_from(built.steps).expect("few steps");
    sizes.extend(steps.to_be_bytes());

    let mut text = line(0x81, &sizes);
    for (tag, matrix) in [(0x82, &built.h), (0x83, &built.v), (0x84, &built.w)] {
        for row in matrix {
            text.push_str(&line(tag, &four_bytes(row)));
        }
    }
    for (coefficient, exponents) in input.coefficients.iter().zip(&answer.exponents) {
        let mut bytes = coefficient.to_be_bytes().to_vec();
        bytes.extend(four_bytes(exponents));
        text.push_str(&line(0x85, &bytes));
    }
    text
}

/// What the program prints for an input.
pub fn answer(input: &[u8]) -> String {
    let result = read(input).and_then(|input| {
        let answer = translate_numbers(&input.problem, &input.exponents)?;
        Ok(accepted(&input, &answer))
    });
    result.unwrap_or_else(|refusal| {
        let number = u8::try_from(refusal.number).expect("at most 10");
        let place = u16::try_from(refusal.place).expect("at most 1,343");
        let mut bytes = vec![number];
        bytes.extend(place.to_be_bytes());
        line(0xff, &bytes)
    })
}

/// The lines of an input, if every number fits its two bytes.
pub fn write(input: &Input) -> Option<String> {
    let two_bytes = |numbers: &[i32]| -> Option<Vec<u8>> {
        let words: Option<Vec<i16>> = numbers.iter().map(|&x| i16::try_from(x).ok()).collect();
        Some(words?.iter().flat_map(|x| x.to_be_bytes()).collect())
    };
    let problem = &input.problem;
    let sizes = [u8::try_from(problem.m).ok()?, u8::try_from(problem.n).ok()?];
    let mut text = line(0x01, &sizes);
    for (&modulus, row) in problem
        .moduli
        .iter()
        .zip(problem.matrix.chunks_exact(problem.n))
    {
        let mut bytes = two_bytes(&[modulus])?;
        bytes.extend(two_bytes(row)?);
        text.push_str(&line(0x02, &bytes));
    }
    for (coefficient, exponents) in input
        .coefficients
        .iter()
        .zip(input.exponents.chunks_exact(problem.n))
    {
        let mut bytes = coefficient.to_be_bytes().to_vec();
        bytes.extend(two_bytes(exponents)?);
        text.push_str(&line(0x03, &bytes));
    }
    Some(text)
}
