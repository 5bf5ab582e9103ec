//! The words of one line, taken one after the other.

use crate::words::{expected, quoted, Fault};
use std::num::IntErrorKind;
use std::str::SplitWhitespace;

/// The longest name, in characters.
const LONGEST_NAME: usize = 32;

/// Declared names, each with its line.
pub type Names<'a> = [(&'a str, usize)];

pub struct Line<'a> {
    pub number: usize,
    words: SplitWhitespace<'a>,
}

impl<'a> Line<'a> {
    /// The words before a comment.
    pub fn new(number: usize, text: &'a str) -> Line<'a> {
        let before = text.split('#').next().unwrap_or(text);
        Line {
            number,
            words: before.split_whitespace(),
        }
    }

    pub fn next(&mut self) -> Option<&'a str> {
        self.words.next()
    }

    fn fault(&self, words: impl Into<String>) -> Fault {
        Fault::in_line(self.number, words)
    }

    pub fn expected(&self, what: &str, found: Option<&str>) -> Fault {
        self.fault(expected(what, found))
    }

    /// Nothing follows.
    pub fn end(&mut self) -> Result<(), Fault> {
        match self.next() {
            None => Ok(()),
            found => Err(self.expected("the end of the line", found)),
        }
    }

    // Names.

    pub fn name(&mut self, what: &str) -> Result<&'a str, Fault> {
        match self.next() {
            Some(word) => self.checked_name(word),
            None => Err(self.expected(what, None)),
        }
    }

    fn checked_name(&self, word: &'a str) -> Result<&'a str, Fault> {
        let inner = |c: char| c.is_alphabetic() || c.is_ascii_digit() || c == '_';
        if !word.starts_with(char::is_alphabetic) || !word.chars().all(inner) {
            let rule = "a name is a letter, and then letters, digits and _";
            return Err(self.fault(format!("{rule}, not {}", quoted(word))));
        }
        if word.chars().count() > LONGEST_NAME {
            let rule = format!("a name has at most {LONGEST_NAME} characters");
            return Err(self.fault(format!("{rule}, not {}", quoted(word))));
        }
        Ok(word)
    }

    /// A name that none of its kind has yet.
    pub fn new_name(&self, kind: &str, name: &str, known: &Names) -> Result<(), Fault> {
        match known.iter().find(|(other, _)| *other == name) {
            None => Ok(()),
            Some((_, line)) => {
                let words = format!("{kind} {name} is declared in line {line} already");
                Err(self.fault(words))
            }
        }
    }

    /// g and digits: the output calls the groups so.
    pub fn not_a_group(&self, name: &str) -> Result<(), Fault> {
        let digits = name.strip_prefix('g').unwrap_or("");
        if !digits.is_empty() && digits.chars().all(|c| c.is_ascii_digit()) {
            let words = format!("{name} is a name for groups: give the quantity another");
            return Err(self.fault(words));
        }
        Ok(())
    }

    /// The place of a declared name.
    pub fn known(&self, kind: &str, name: &str, known: &Names) -> Result<usize, Fault> {
        let place = known.iter().position(|(other, _)| *other == name);
        place.ok_or_else(|| {
            let words = format!("no {kind} {name} is declared above this line");
            self.fault(words)
        })
    }

    /// There is room for one more.
    pub fn at_most(&self, most: usize, count: usize, what: &str) -> Result<(), Fault> {
        if count < most {
            return Ok(());
        }
        Err(self.fault(format!("there are at most {most} {what}; this is one more")))
    }

    // Numbers.

    /// A whole number of 32 bits.
    pub fn whole(&mut self, what: &str) -> Result<i32, Fault> {
        match self.next() {
            Some(word) => self.checked_whole(what, word),
            None => Err(self.expected(what, None)),
        }
    }

    fn checked_whole(&self, what: &str, word: &str) -> Result<i32, Fault> {
        word.parse::<i32>().map_err(|error| match error.kind() {
            IntErrorKind::PosOverflow | IntErrorKind::NegOverflow => {
                self.fault(format!("{} does not fit 32 bits", quoted(word)))
            }
            _ => self.expected(what, Some(word)),
        })
    }

    /// The modulus of a dimension, or 0 where there is none.
    pub fn modulus(&mut self) -> Result<i32, Fault> {
        match self.next() {
            None => Ok(0),
            Some("mod") => self.whole("a whole number after mod"),
            found => Err(self.expected("mod or the end of the line", found)),
        }
    }

    /// A double. NaN and infinity are numbers here: a gauge may show them, and the library
    /// refuses them.
    pub fn reading(&mut self) -> Result<f64, Fault> {
        let what = "the reading, a number such as 42e3";
        let word = self.next().ok_or_else(|| self.expected(what, None))?;
        let value: f64 = word.parse().map_err(|_| self.expected(what, Some(word)))?;
        let has_digit = |from: char| move |c: char| (from..='9').contains(&c);
        let before_exponent = word.split(['e', 'E']).next().unwrap_or(word);
        if value.is_infinite() && word.contains(has_digit('0')) {
            return Err(self.fault(format!("{} is too large for a double", quoted(word))));
        }
        if value == 0.0 && before_exponent.contains(has_digit('1')) {
            return Err(self.fault(format!("{} is too small for a double", quoted(word))));
        }
        Ok(value)
    }

    // Factors.

    /// The rest of the line: names with exponents, the sum of the exponents of each name.
    pub fn factors(&mut self, kind: &str, known: &Names) -> Result<Vec<i32>, Fault> {
        // Each exponent fits 32 bits, and a file has too few words to pass 64.
        let mut sums = vec![0i64; known.len()];
        while let Some(word) = self.next() {
            let (name, exponent) = self.factor(kind, word)?;
            sums[self.known(kind, name, known)?] += exponent;
        }
        let sums = sums.iter().zip(known);
        let fitting = sums.map(|(&sum, (name, _))| {
            i32::try_from(sum).map_err(|_| {
                let words = format!("the exponents of {name} add up to {sum}");
                self.fault(format!("{words}, which does not fit 32 bits"))
            })
        });
        fitting.collect()
    }

    /// A name, or a name, ^ and an exponent.
    fn factor(&self, kind: &str, word: &'a str) -> Result<(&'a str, i64), Fault> {
        if kind == "quantity" && ["+", "-", "="].contains(&word) {
            let rule = "each term has a line of its own";
            return Err(self.fault(format!("{rule}, not {}", quoted(word))));
        }
        if word.contains(['*', '/']) && !word.contains("^(") {
            let rule = "write factors with blanks between them, and an exponent below 0 to divide";
            return Err(self.fault(format!("{rule}, not {}", quoted(word))));
        }
        match word.split_once('^') {
            None => Ok((self.checked_name(word)?, 1)),
            Some(("", _)) => Err(self.expected("a name before ^", Some(word))),
            Some((name, exponent)) => {
                let name = self.checked_name(name)?;
                Ok((name, self.exponent(name, exponent)?))
            }
        }
    }

    /// A whole number, or in parentheses a sum of such. Without them `x^2+3` could be meant
    /// for two terms.
    fn exponent(&self, name: &str, word: &str) -> Result<i64, Fault> {
        let sum = word
            .strip_prefix('(')
            .and_then(|word| word.strip_suffix(')'));
        if let Some(sum) = sum {
            let what = format!("whole numbers with + or - between them in {name}^(..)");
            let numbers = signed_parts(sum).map(|part| match part.parse::<i32>() {
                Ok(number) => Ok(i64::from(number)),
                Err(_) => Err(self.expected(&what, Some(word))),
            });
            return numbers.sum();
        }
        if signed_parts(word).count() > 1
            && signed_parts(word).all(|part| part.parse::<i32>().is_ok())
        {
            let rule = format!("put a sum in parentheses, {name}^({word})");
            return Err(self.fault(format!("{rule}, not {}", quoted(word))));
        }
        let what = format!("a whole number right after {name}^");
        self.checked_whole(&what, word).map(i64::from)
    }
}

/// A sum cut before each sign but the first character's: `2+1-5` is 2, +1 and -5.
fn signed_parts(sum: &str) -> impl Iterator<Item = &str> {
    let signs = sum
        .char_indices()
        .skip(1)
        .filter(|(_, c)| ['+', '-'].contains(c));
    let mut cuts: Vec<usize> = vec![0];
    cuts.extend(signs.map(|(at, _)| at));
    cuts.push(sum.len());
    (1..cuts.len()).map(move |i| &sum[cuts[i - 1]..cuts[i]])
}
