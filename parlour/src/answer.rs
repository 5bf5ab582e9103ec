//! What the library says to a file, and whether it fits.

use crate::file::Sheet;
use crate::library::{Built, Library, Term};
use crate::names::Names;
use crate::words::{self, Fault, Status};

/// The number of a refusal that says that there is no such group.
const NO_GROUP: u32 = 24;
/// The numbers of the refusals that speak of one group alone.
const OF_GROUP: [u32; 2] = [12, 13];

/// The matrices, and the formula in the groups.
#[derive(Clone, Debug, PartialEq, Eq)]
pub struct Answer {
    pub built: Built,
    pub terms: Vec<Term>,
}

/// A term worked out from the groups; its exponents may be any whole numbers.
#[derive(Clone, Debug, PartialEq, Eq)]
pub struct PutBack {
    pub coefficient: i32,
    pub exponents: Vec<i128>,
}

impl Answer {
    /// The formula with each group's exponents put where the group stands.
    pub fn put_back(&self) -> Vec<PutBack> {
        let count = self.built.groups();
        let groups: Vec<Vec<i32>> = (0..count).map(|g| self.built.group(g)).collect();
        let quantities = self.built.v.columns - self.built.moduli;
        let term = |term: &Term| PutBack {
            coefficient: term.coefficient,
            exponents: (0..quantities)
                .map(|j| exponent(&groups, &term.exponents, j))
                .collect(),
        };
        self.terms.iter().map(term).collect()
    }
}

/// The exponent of a quantity in a product of powers of the groups.
fn exponent(groups: &[Vec<i32>], powers: &[i32], quantity: usize) -> i128 {
    let factors = groups.iter().zip(powers);
    factors
        .map(|(group, &power)| i128::from(group[quantity]) * i128::from(power))
        .sum()
}

/// Asks the library for the matrices alone.
pub fn build(library: &dyn Library, sheet: &Sheet) -> Result<Built, Fault> {
    let built = library.build(&sheet.problem());
    built.map_err(|refusal| words::of_file(library, sheet, refusal))
}

/// Asks the library for the formula in the groups and then for the matrices, as the
/// program `glaukemis` does, so that both refuse a file for the same reason.
pub fn solve(library: &dyn Library, sheet: &Sheet) -> Result<Answer, Fault> {
    let problem = sheet.problem();
    let translated = library
        .translate(&problem, &sheet.terms)
        .map_err(|refusal| words::of_file(library, sheet, refusal))?;
    let built = build(library, sheet)?;
    if translated.groups != built.groups() {
        let (one, other) = (built.groups(), translated.groups);
        let words = format!("the library builds {one} groups and translates into {other}");
        return Err(Fault::wrong(None, words));
    }
    let answer = Answer {
        built,
        terms: translated.terms,
    };
    check(sheet, &answer)?;
    Ok(answer)
}

/// Holds the formula put back to the one that was given: every term, in its place.
pub fn check(sheet: &Sheet, answer: &Answer) -> Result<(), Fault> {
    let (given, answered) = (sheet.terms.len(), answer.terms.len());
    if given != answered {
        let words = format!("terms: {given} in the file and {answered} in the answer");
        return Err(Fault::wrong(None, words));
    }
    for (i, (term, back)) in sheet.terms.iter().zip(answer.put_back()).enumerate() {
        if let Some(words) = difference(sheet, term, &back) {
            let words = format!("term {} put back differs: {words}", i + 1);
            return Err(Fault::wrong(sheet.term_lines.get(i).copied(), words));
        }
    }
    Ok(())
}

/// Where a term put back is not the one that was given.
fn difference(sheet: &Sheet, term: &Term, back: &PutBack) -> Option<String> {
    let (given, answered) = (term.coefficient, back.coefficient);
    if given != answered {
        return Some(format!("the coefficient is {answered} and was {given}"));
    }
    let names = sheet.quantities.iter().map(|q| &q.name);
    let pairs = term.exponents.iter().zip(&back.exponents);
    let mut differing = names
        .zip(pairs)
        .filter(|(_, (&given, &answered))| i128::from(given) != answered);
    let (name, (given, answered)) = differing.next()?;
    Some(format!(
        "the exponent of {name} is {answered} and was {given}"
    ))
}

/// The value of each group, where there are readings. The library is asked for one group
/// after the other until it says that there is no such group, so that bad readings are
/// told also where there are no groups.
pub fn values(library: &dyn Library, sheet: &Sheet, built: &Built) -> Result<Vec<f64>, Fault> {
    let (problem, readings) = (sheet.problem(), sheet.values());
    let names = Names::of_sheet(sheet);
    let (mut values, mut refused) = (Vec::new(), Vec::new());
    for group in 0..=built.groups() {
        match library.gauge(&problem, &readings, group) {
            Ok(value) => values.push(value),
            Err(refusal) if refusal.number == NO_GROUP => break,
            Err(refusal) if OF_GROUP.contains(&refusal.number) => {
                refused.push(words::of_group(&names, built, refusal)?);
            }
            Err(refusal) => return Err(words::of_file(library, sheet, refusal)),
        }
    }
    told(values, refused, built.groups())
}

/// The values, if every group has one.
fn told(values: Vec<f64>, refused: Vec<words::Message>, groups: usize) -> Result<Vec<f64>, Fault> {
    let count = values.len() + refused.len();
    if count != groups {
        let words = format!("the library builds {groups} groups and has {count} of values");
        return Err(Fault::wrong(None, words));
    }
    if refused.is_empty() {
        return Ok(values);
    }
    Err(Fault {
        status: Status::Refused,
        messages: refused,
    })
}

#[cfg(test)]
mod tests {
    use super::*;
    use crate::library::Matrix;

    /// A group's exponent times a term's passes 64 bits on the way to a small sum.
    #[test]
    fn put_back_is_exact() {
        let large = i32::MAX;
        let matrix = |entries: [i32; 9]| Matrix {
            columns: 3,
            entries: entries.to_vec(),
        };
        let groups = matrix([large, large, large, 1, 0, 0, 0, 1, 0]);
        let term = |exponents: [i32; 3]| Term {
            coefficient: 5,
            exponents: exponents.to_vec(),
        };
        let answer = Answer {
            built: Built {
                rank: 0,
                moduli: 0,
                steps: 0,
                h: matrix([0; 9]),
                v: groups.clone(),
                w: groups,
            },
            terms: vec![term([large; 3]), term([large, large, i32::MIN])],
        };
        let back: Vec<Vec<i128>> = answer.put_back().into_iter().map(|t| t.exponents).collect();
        let large = i128::from(large);
        assert_eq!(back[0], [3 * large * large, large, large]);
        assert_eq!(back[1], [large * (large - 1), large, large]);
    }
}
