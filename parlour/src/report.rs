//! What is printed: a line of counts, and sections, each with a heading and lines that
//! begin with two blanks. Names and exponents are written as in the file.

mod tables;

pub use tables::matrices;

use crate::answer::{Answer, PutBack};
use crate::library::Term;
use crate::names::{group, Names};
use crate::words::{counted, decimal};
use std::fmt::Display;

/// The groups and the formula.
pub fn report(names: &Names, answer: &Answer) -> String {
    let mut text = counts(names, answer);
    text += &section("groups", &groups(names, answer));
    if !answer.terms.is_empty() {
        text += &section("formula in the groups", &formula(answer));
        text += &section("formula put back", &formula_back(names, answer));
    }
    text
}

/// The values of the groups.
pub fn values(values: &[f64]) -> String {
    let line = |(i, &value): (usize, &f64)| format!("{} = {}", group(i), decimal(value));
    let lines: Vec<String> = values.iter().enumerate().map(line).collect();
    section("values", &lines)
}

/// One line, its parts with commas between them.
fn counts(names: &Names, answer: &Answer) -> String {
    let built = &answer.built;
    let steps = usize::try_from(built.steps).unwrap_or(usize::MAX);
    let parts = [
        counted(names.quantities.len(), "quantity", "quantities"),
        counted(names.dimensions.len(), "dimension", "dimensions"),
        counted(built.moduli, "modulus", "moduli"),
        format!("rank {}", built.rank),
        counted(built.groups(), "group", "groups"),
        counted(steps, "column step", "column steps"),
    ];
    format!("{}\n", parts.join(", "))
}

/// A heading, and lines below it.
fn section(heading: &str, lines: &[String]) -> String {
    let none = [String::from("none")];
    let lines = if lines.is_empty() { &none } else { lines };
    let lines: String = lines.iter().map(|line| format!("  {line}\n")).collect();
    format!("\n{heading}\n{lines}")
}

fn groups(names: &Names, answer: &Answer) -> Vec<String> {
    let line = |i: usize| {
        let exponents = answer.built.group(i);
        format!("{} ={}", group(i), factors(&names.quantities, &exponents))
    };
    (0..answer.built.groups()).map(line).collect()
}

fn formula(answer: &Answer) -> Vec<String> {
    let names: Vec<String> = (0..answer.built.groups()).map(group).collect();
    let line = |term: &Term| line(term.coefficient, &names, &term.exponents);
    answer.terms.iter().map(line).collect()
}

fn formula_back(names: &Names, answer: &Answer) -> Vec<String> {
    let line = |term: &PutBack| line(term.coefficient, &names.quantities, &term.exponents);
    answer.put_back().iter().map(line).collect()
}

/// A term: its coefficient with a sign, and its factors.
fn line<T: Display>(coefficient: i32, names: &[String], exponents: &[T]) -> String {
    format!("{coefficient:+}{}", factors(names, exponents))
}

/// Names with their exponents, a blank before each; 0 leaves a name out, and 1 is not
/// written.
fn factors<T: Display>(names: &[String], exponents: &[T]) -> String {
    let factor = |(name, exponent): (&String, &T)| match exponent.to_string().as_str() {
        "0" => String::new(),
        "1" => format!(" {name}"),
        exponent => format!(" {name}^{exponent}"),
    };
    names.iter().zip(exponents).map(factor).collect()
}
