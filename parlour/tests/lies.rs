//! A library that answers wrongly is found out: the formula put back is not the one that was
//! given, or its answers do not fit together.

mod common;

use common::parlour_with;
use parlour::library::{Built, CLibrary, Library, Problem, Refusal, Term, Translated};
use parlour::words::Status;

const FILE: &str = "\
dimension length
dimension sign mod 2
quantity bore length
quantity pipe length
quantity flow sign
term 3 bore pipe^-1
term 4 bore^2 pipe^-2 flow^2
reading bore 2
reading pipe 4
reading flow 8
";

/// Each changes one answer of the library.
#[derive(Clone, Copy, Default)]
struct Lies {
    translated: Option<fn(&mut Translated)>,
    built: Option<fn(&mut Built)>,
    refused: Option<Refusal>,
    weights: Option<fn() -> Vec<i32>>,
    gauge: Option<fn(usize) -> Result<f64, Refusal>>,
}

impl Library for Lies {
    fn build(&self, problem: &Problem) -> Result<Built, Refusal> {
        let mut built = CLibrary.build(problem)?;
        if let Some(lie) = self.built {
            lie(&mut built);
        }
        Ok(built)
    }

    fn translate(&self, problem: &Problem, terms: &[Term]) -> Result<Translated, Refusal> {
        if let Some(refusal) = self.refused {
            return Err(refusal);
        }
        let mut translated = CLibrary.translate(problem, terms)?;
        if let Some(lie) = self.translated {
            lie(&mut translated);
        }
        Ok(translated)
    }

    fn weigh(&self, problem: &Problem, exponents: &[i32]) -> Result<Vec<i32>, Refusal> {
        match self.weights {
            Some(lie) => Ok(lie()),
            None => CLibrary.weigh(problem, exponents),
        }
    }

    fn gauge(&self, problem: &Problem, readings: &[f64], group: usize) -> Result<f64, Refusal> {
        match self.gauge {
            Some(lie) => lie(group),
            None => CLibrary.gauge(problem, readings, group),
        }
    }
}

fn refusal(number: u32, place: usize) -> Refusal {
    Refusal {
        number,
        place,
        reading: 0.0,
    }
}

/// The lie leads to status 3, nothing printed and these words.
fn found_out(lies: Lies, words: &str) {
    let outcome = parlour_with(&lies, &["-"], FILE.as_bytes());
    assert_eq!(outcome.err, format!("standard input{words}\n"));
    assert_eq!((outcome.status, &outcome.out[..]), (Status::Wrong, ""));
}

#[test]
fn the_truth_is_printed() {
    let outcome = parlour_with(&Lies::default(), &["-"], FILE.as_bytes());
    assert_eq!((outcome.status, &outcome.err[..]), (Status::Done, ""));
    assert!(outcome.out.contains("\n  +4 bore^2 pipe^-2 flow^2\n"));
}

#[test]
fn the_last_term_keeps_an_old_exponent() {
    let lies = Lies {
        translated: Some(|t| t.terms[1].exponents = t.terms[0].exponents.clone()),
        ..Lies::default()
    };
    let words = "term 2 put back differs: the exponent of bore is 1 and was 2";
    found_out(lies, &format!(":7: {words}"));
}

#[test]
fn a_coefficient_is_another() {
    let lies = Lies {
        translated: Some(|t| t.terms[0].coefficient = -3),
        ..Lies::default()
    };
    let words = "term 1 put back differs: the coefficient is -3 and was 3";
    found_out(lies, &format!(":6: {words}"));
}

#[test]
fn a_term_is_left_out() {
    let lies = Lies {
        translated: Some(|t| drop(t.terms.pop())),
        ..Lies::default()
    };
    found_out(lies, ": terms: 2 in the file and 1 in the answer");
}

#[test]
fn a_group_is_another() {
    // The last row of V is that of flow, and the last column that of its group.
    let lies = Lies {
        built: Some(|built| *built.v.entries.last_mut().expect("entries") += 1),
        ..Lies::default()
    };
    let words = "term 2 put back differs: the exponent of flow is 3 and was 2";
    found_out(lies, &format!(":7: {words}"));
}

#[test]
fn the_calls_count_the_groups_differently() {
    let lies = Lies {
        translated: Some(|t| t.groups += 1),
        ..Lies::default()
    };
    let words = "the library builds 2 groups and translates into 3";
    found_out(lies, &format!(": {words}"));
}

#[test]
fn values_for_more_or_fewer_groups() {
    let more: fn(usize) -> Result<f64, Refusal> = |_| Ok(1.0);
    let fewer: fn(usize) -> Result<f64, Refusal> = |group| Err(refusal(24, group));
    for (gauge, count) in [(more, 3), (fewer, 0)] {
        let lies = Lies {
            gauge: Some(gauge),
            ..Lies::default()
        };
        let words = format!("the library builds 2 groups and has {count} of values");
        found_out(lies, &format!(": {words}"));
    }
}

#[test]
fn refusals_that_the_file_cannot_lead_to() {
    let impossible = [
        (1, 0),
        (2, 0),
        (3, 0),
        (4, 0),
        (4, 2),
        (5, 0),
        (5, 6),
        (6, 0),
        (6, 6),
        (8, 0),
        (8, 2),
        (9, 2),
        (11, 0),
        (11, 3),
        (12, 0),
        (24, 0),
        (77, 0),
    ];
    for (number, place) in impossible {
        let lies = Lies {
            refused: Some(refusal(number, place)),
            ..Lies::default()
        };
        let words = format!("this file cannot lead to refusal {number} at place {place}");
        found_out(lies, &format!(": {words}"));
    }
}

#[test]
fn a_group_that_is_not_there_is_refused_a_value() {
    let lies = Lies {
        gauge: Some(|_| Err(refusal(13, 2))),
        ..Lies::default()
    };
    found_out(lies, ": this file cannot lead to refusal 13 at place 2");
}

#[test]
fn a_term_without_weights_is_refused() {
    let lies = Lies {
        refused: Some(refusal(8, 0)),
        weights: Some(|| vec![0, 0]),
        ..Lies::default()
    };
    found_out(lies, ": this file cannot lead to refusal 8 at place 0");
}

/// 9 is never given, and its words are there all the same.
#[test]
fn the_refusal_that_never_comes() {
    let lies = Lies {
        refused: Some(refusal(9, 1)),
        ..Lies::default()
    };
    let outcome = parlour_with(&lies, &["-"], FILE.as_bytes());
    let words = "term 2 has an exponent in the groups that passes 2147483647 (refusal 9)";
    assert_eq!(outcome.err, format!("standard input:7: {words}\n"));
    assert_eq!((outcome.status, &outcome.out[..]), (Status::Refused, ""));
}
