//! Lists of numbers as they are lent: inputs between numbers that would be refused,
//! and outputs filled and surrounded with a pattern.

use crate::random::Random;
use std::hint::black_box;

/// Numbers before (up to 3 more) and behind a lent list.
const GUARD: usize = 20;

/// A lent list between numbers that must stay as they are. They are such as would
/// be refused, so that a library that reads one of them shows it.
pub(super) struct Between<T> {
    all: Vec<T>,
    around: T,
    start: usize,
    length: usize,
}

impl<T: Copy> Between<T> {
    /// It begins at any address that is a multiple of the size of a T.
    pub(super) fn new(content: &[T], around: T, random: &mut Random) -> Between<T> {
        let start = GUARD + random.below(4);
        let mut all = vec![around; start];
        all.extend_from_slice(content);
        all.extend([around; GUARD]);
        Between {
            all,
            around,
            start,
            length: content.len(),
        }
    }

    pub(super) fn lend(&self) -> &[T] {
        &self.all[self.start..self.start + self.length]
    }

    /// All is what it was, as `bits` tells. The call had a shared slice only, by
    /// which the compiler might take that for granted; black_box forbids it.
    pub(super) fn unchanged<B: PartialEq>(
        &self,
        call: &str,
        content: &[T],
        bits: impl Fn(T) -> B,
    ) -> Result<(), String> {
        let now = black_box(&self.all);
        let front = std::iter::repeat_n(&self.around, self.start);
        let behind = std::iter::repeat_n(&self.around, GUARD);
        let before = front.chain(content).chain(behind);
        if now.iter().map(|&x| bits(x)).eq(before.map(|&x| bits(x))) {
            Ok(())
        } else {
            Err(format!("an input lent to {call} was changed"))
        }
    }
}

/// What is around lists of entries, moduli, exponents and coefficients. Any number is
/// a coefficient; this one is not often met.
pub(super) const NO_ENTRY: i32 = i32::MIN;
pub(super) const NO_MODULUS: i32 = -1;
pub(super) const NO_EXPONENT: i32 = 10_001;
pub(super) const STRANGE: i32 = 0x5eed_0bad;

/// A lent output. The pattern that it holds before a call is random.
#[derive(Clone)]
pub(super) struct Output {
    all: Vec<i32>,
    start: usize,
    length: usize,
}

impl Output {
    pub(super) fn new(length: usize, random: &mut Random) -> Output {
        let start = GUARD + random.below(4);
        let all = (0..start + length + GUARD).map(|_| random.bits() as i32);
        Output {
            all: all.collect(),
            start,
            length,
        }
    }

    pub(super) fn lend(&mut self) -> &mut [i32] {
        &mut self.all[self.start..self.start + self.length]
    }

    /// The first `count` numbers.
    pub(super) fn numbers(&self, count: usize) -> &[i32] {
        &self.all[self.start..self.start + count]
    }

    /// All, with what is around it, is what the model made of the same output.
    pub(super) fn is(&self, what: &str, model: &Output) -> Result<(), String> {
        self.from(what, model, 0)
    }

    /// All but the first `count` numbers is what it was before.
    pub(super) fn rest_is(&self, what: &str, before: &Output, count: usize) -> Result<(), String> {
        self.from(what, before, count)
    }

    fn from(&self, what: &str, other: &Output, count: usize) -> Result<(), String> {
        let written = self.start..self.start + count;
        let mut places = 0..self.all.len().max(other.all.len());
        let differs = |&i: &usize| !written.contains(&i) && self.all.get(i) != other.all.get(i);
        match places.find(differs) {
            None => Ok(()),
            Some(i) => Err(format!(
                "{what}, number {}: library {:?}, but it has to be {:?}",
                i as i64 - self.start as i64,
                self.all.get(i),
                other.all.get(i)
            )),
        }
    }
}

#[cfg(test)]
mod tests {
    use super::*;

    const NO_READING: f64 = f64::from_bits(0x7ff4_0000_0000_dead);

    /// A change of the list or around it is seen, also one that keeps the value.
    #[test]
    fn changes_are_seen() {
        let mut random = Random::new(1);
        let content = [0.0, 1.0, f64::NAN];
        let lent = Between::new(&content, NO_READING, &mut random);
        assert_eq!(lent.lend().len(), 3);
        let unchanged = |lent: &Between<f64>| lent.unchanged("gauge", &content, f64::to_bits);
        unchanged(&lent).expect("nothing was done");
        for place in 0..lent.all.len() {
            for bit in [0, 51, 63] {
                let mut other = Between {
                    all: lent.all.clone(),
                    ..lent
                };
                let bits = other.all[place].to_bits() ^ (1 << bit);
                other.all[place] = f64::from_bits(bits);
                unchanged(&other).expect_err("a bit was changed");
            }
        }
    }

    /// A change of an output or around it is seen, and of what was not written.
    #[test]
    fn written_is_seen() {
        let mut random = Random::new(1);
        let before = Output::new(5, &mut random);
        before.is("nothing", &before).expect("nothing was done");
        for place in 0..before.all.len() {
            let mut now = before.clone();
            now.all[place] ^= 1;
            now.is("it", &before).expect_err("a number was changed");
            let within = (before.start..before.start + 3).contains(&place);
            assert_eq!(now.rest_is("it", &before, 3).is_ok(), within);
        }
        let mut short = before.clone();
        short.all.pop();
        short.is("it", &before).expect_err("another length");
    }
}
