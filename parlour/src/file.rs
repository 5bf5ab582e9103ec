//! The text file: dimensions, quantities, terms and readings, by name.

mod line;
#[cfg(test)]
mod tests;

use crate::library::{Problem, Term};
use crate::words::Fault;
use line::Line;

/// The counts that the library takes at most.
pub const MOST_DIMENSIONS: usize = 8;
pub const MOST_QUANTITIES: usize = 16;
pub const MOST_TERMS: usize = 64;

#[derive(Clone, Debug, PartialEq)]
pub struct Dimension {
    pub name: String,
    /// 0 says that there is none.
    pub modulus: i32,
    pub line: usize,
}

#[derive(Clone, Debug, PartialEq)]
pub struct Quantity {
    pub name: String,
    /// One for each dimension.
    pub exponents: Vec<i32>,
    pub line: usize,
}

#[derive(Clone, Debug, PartialEq)]
pub struct Reading {
    pub value: f64,
    pub line: usize,
}

/// What a file says.
#[derive(Clone, Debug, Default, PartialEq)]
pub struct Sheet {
    pub dimensions: Vec<Dimension>,
    pub quantities: Vec<Quantity>,
    /// One exponent for each quantity.
    pub terms: Vec<Term>,
    /// The line of each term.
    pub term_lines: Vec<usize>,
    /// One for each quantity, or none at all.
    pub readings: Vec<Reading>,
}

impl Sheet {
    /// The numbers of the problem.
    pub fn problem(&self) -> Problem {
        let row = |i: usize| self.quantities.iter().map(move |q| q.exponents[i]);
        Problem {
            matrix: (0..self.dimensions.len()).flat_map(row).collect(),
            moduli: self.dimensions.iter().map(|d| d.modulus).collect(),
            quantities: self.quantities.len(),
        }
    }

    /// The readings as numbers, where there are any.
    pub fn values(&self) -> Vec<f64> {
        self.readings.iter().map(|reading| reading.value).collect()
    }
}

/// Reads a file.
pub fn read(bytes: &[u8]) -> Result<Sheet, Fault> {
    let mut reader = Reader::default();
    for (index, text) in text(bytes)?.lines().enumerate() {
        reader.line(Line::new(index + 1, text))?;
    }
    reader.finish()
}

/// The bytes as text, without the mark that some editors put before it.
fn text(bytes: &[u8]) -> Result<&str, Fault> {
    let text = std::str::from_utf8(bytes).map_err(|error| {
        let before = &bytes[..error.valid_up_to()];
        let line = 1 + before.iter().filter(|&&byte| byte == b'\n').count();
        Fault::in_line(line, "this is not text in UTF-8")
    })?;
    Ok(text.strip_prefix('\u{feff}').unwrap_or(text))
}

/// What was read so far. A dimension may come after a quantity, so that lists of
/// exponents are filled up at the end.
#[derive(Default)]
struct Reader {
    sheet: Sheet,
    /// One for each quantity up to the last that has one.
    readings: Vec<Option<Reading>>,
}

impl Reader {
    fn line(&mut self, mut line: Line) -> Result<(), Fault> {
        match line.next() {
            None => Ok(()),
            Some("dimension") => self.dimension(line),
            Some("quantity") => self.quantity(line),
            Some("term") => self.term(line),
            Some("reading") => self.reading(line),
            found => Err(line.expected("dimension, quantity, term or reading", found)),
        }
    }

    fn dimension(&mut self, mut line: Line) -> Result<(), Fault> {
        let name = line.name("the dimension's name")?;
        let known = self.dimensions();
        line.new_name("dimension", name, &known)?;
        line.at_most(MOST_DIMENSIONS, known.len(), "dimensions")?;
        let modulus = line.modulus()?;
        line.end()?;
        self.sheet.dimensions.push(Dimension {
            name: name.to_string(),
            modulus,
            line: line.number,
        });
        Ok(())
    }

    fn quantity(&mut self, mut line: Line) -> Result<(), Fault> {
        let name = line.name("the quantity's name")?;
        let known = self.quantities();
        line.not_a_group(name)?;
        line.new_name("quantity", name, &known)?;
        line.at_most(MOST_QUANTITIES, known.len(), "quantities")?;
        let exponents = line.factors("dimension", &self.dimensions())?;
        self.sheet.quantities.push(Quantity {
            name: name.to_string(),
            exponents,
            line: line.number,
        });
        Ok(())
    }

    fn term(&mut self, mut line: Line) -> Result<(), Fault> {
        let coefficient = line.whole("the coefficient, a whole number")?;
        line.at_most(MOST_TERMS, self.sheet.terms.len(), "terms")?;
        let exponents = line.factors("quantity", &self.quantities())?;
        self.sheet.terms.push(Term {
            coefficient,
            exponents,
        });
        self.sheet.term_lines.push(line.number);
        Ok(())
    }

    fn reading(&mut self, mut line: Line) -> Result<(), Fault> {
        let name = line.name("the name of a quantity")?;
        let quantity = line.known("quantity", name, &self.quantities())?;
        if self.readings.len() <= quantity {
            self.readings.resize(quantity + 1, None);
        }
        if let Some(first) = &self.readings[quantity] {
            let words = format!("{name} has its reading in line {} already", first.line);
            return Err(Fault::in_line(line.number, words));
        }
        let value = line.reading()?;
        line.end()?;
        self.readings[quantity] = Some(Reading {
            value,
            line: line.number,
        });
        Ok(())
    }

    fn dimensions(&self) -> Vec<(&str, usize)> {
        let all = self.sheet.dimensions.iter();
        all.map(|d| (d.name.as_str(), d.line)).collect()
    }

    fn quantities(&self) -> Vec<(&str, usize)> {
        let all = self.sheet.quantities.iter();
        all.map(|q| (q.name.as_str(), q.line)).collect()
    }

    fn finish(mut self) -> Result<Sheet, Fault> {
        let (m, n) = (self.sheet.dimensions.len(), self.sheet.quantities.len());
        if m == 0 {
            return Err(Fault::unreadable("no dimension is declared"));
        }
        if n == 0 {
            return Err(Fault::unreadable("no quantity is declared"));
        }
        for quantity in &mut self.sheet.quantities {
            quantity.exponents.resize(m, 0);
        }
        for term in &mut self.sheet.terms {
            term.exponents.resize(n, 0);
        }
        if !self.readings.is_empty() {
            self.readings.resize(n, None);
            self.check_readings()?;
        }
        self.sheet.readings = self.readings.into_iter().flatten().collect();
        Ok(self.sheet)
    }

    /// A reading for each quantity.
    fn check_readings(&self) -> Result<(), Fault> {
        let all = self.sheet.quantities.iter().zip(&self.readings);
        let without = all.filter(|(_, reading)| reading.is_none());
        let names: Vec<&str> = without.map(|(q, _)| q.name.as_str()).collect();
        let lines = self.readings.iter().flatten().map(|reading| reading.line);
        match (names.is_empty(), lines.max()) {
            (false, Some(last)) => {
                let words = "give a reading of every quantity or of none; there is none of";
                Err(Fault::in_line(
                    last,
                    format!("{words} {}", names.join(", ")),
                ))
            }
            _ => Ok(()),
        }
    }
}
