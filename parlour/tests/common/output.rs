//! What the program printed, read again.

use std::collections::BTreeMap;

/// A term: its coefficient and its exponents.
pub type Term = (i32, Vec<i128>);

/// A line of names, and rows of a name and numbers.
pub struct Table {
    pub columns: Vec<String>,
    pub rows: Vec<(String, Vec<i128>)>,
}

/// The lines of each heading, without the two blanks before them. What stands before the
/// first heading is below the heading "".
pub fn sections(out: &str) -> BTreeMap<String, Vec<String>> {
    let mut sections: BTreeMap<String, Vec<String>> = BTreeMap::new();
    let mut heading = String::new();
    assert!(out.ends_with('\n') && !out.ends_with("\n\n"), "{out}");
    for block in out.trim_end_matches('\n').split("\n\n") {
        for line in block.split('\n') {
            match line.strip_prefix("  ") {
                Some(line) => {
                    let lines = sections.get_mut(&heading).expect("a heading");
                    lines.push(line.to_string());
                }
                None => {
                    heading = line.to_string();
                    let twice = sections.insert(heading.clone(), Vec::new());
                    assert!(twice.is_none(), "{out}");
                }
            }
        }
    }
    sections
}

/// The exponents of the names, each of which stands at most once and in its order.
pub fn factors(names: &[String], words: &str) -> Vec<i128> {
    let mut exponents = vec![0; names.len()];
    let mut last = None;
    for word in words.split_whitespace() {
        let (name, exponent) = match word.split_once('^') {
            None => (word, 1),
            Some((name, exponent)) => (name, exponent.parse().expect("a whole number")),
        };
        let place = names.iter().position(|other| other == name);
        let place = place.expect("a name");
        assert!(last < Some(place) && exponent != 0, "{words}");
        last = Some(place);
        exponents[place] = exponent;
    }
    exponents
}

/// Lines such as `+3 bore^4`.
pub fn formula(names: &[String], lines: &[String]) -> Vec<Term> {
    let term = |line: &String| {
        let (coefficient, rest) = line.split_once(' ').unwrap_or((line, ""));
        assert!(coefficient.starts_with(['+', '-']), "{line}");
        let coefficient = coefficient.parse().expect("a whole number");
        (coefficient, factors(names, rest))
    };
    lines.iter().map(term).collect()
}

/// Lines `g1 = ..`, numbered without gaps, or the word none.
pub fn groups(lines: &[String]) -> Vec<String> {
    if lines == ["none"] {
        return Vec::new();
    }
    let group = |(i, line): (usize, &String)| {
        let (name, rest) = line.split_once(" = ").expect("a group");
        assert_eq!(name, format!("g{}", i + 1));
        rest.to_string()
    };
    lines.iter().enumerate().map(group).collect()
}

/// A table: the columns' names, then a row on each line.
pub fn table(lines: &[String]) -> Table {
    let words =
        |line: &String| -> Vec<String> { line.split_whitespace().map(str::to_string).collect() };
    let row = |line: &String| {
        let words = words(line);
        let numbers = words[1..]
            .iter()
            .map(|word| word.parse().expect("a number"));
        (words[0].clone(), numbers.collect())
    };
    let ends = |line: &String| line.chars().count();
    assert!(lines.iter().all(|line| ends(line) == ends(&lines[0])));
    Table {
        columns: words(&lines[0]),
        rows: lines[1..].iter().map(row).collect(),
    }
}
