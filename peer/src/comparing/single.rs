//! What every call that is compared by itself has in common: its inputs, tried one
//! after the other, and how many answers of each number there were.

use crate::library::Library;
use crate::random::Random;
use std::collections::BTreeMap;
use std::fmt::Debug;

/// One input of such a call.
pub trait Compared: Clone + Debug {
    /// The call's name.
    const NAME: &'static str;

    /// The numbers that it answers, in the order of its checks; 0 is no refusal.
    const NUMBERS: &'static [u32];

    /// What an answer has to be.
    type Due: Clone + Debug;

    /// All of the input.
    fn describe(&self) -> String;

    /// Calls the library and the model on this input and compares them; gives the
    /// answer's number. `written` is what the answer has to be, where that is known.
    fn compare(
        &self,
        library: &mut dyn Library,
        written: Option<&Self::Due>,
        random: &mut Random,
    ) -> Result<u32, String>;
}

/// An input with the answer that it has to get.
#[derive(Clone, Debug)]
pub struct Case<C: Compared> {
    pub call: C,
    pub due: C::Due,
}

/// How many answers of each number there were.
#[derive(Clone, Debug, Default)]
pub struct Count {
    pub numbers: BTreeMap<u32, u64>,
    pub passed: u64,
    pub failed: u64,
}

impl Count {
    /// Compares one input and counts it; gives what is wrong.
    pub fn compare<C: Compared>(
        &mut self,
        library: &mut dyn Library,
        call: &C,
        written: Option<&C::Due>,
        random: &mut Random,
    ) -> Result<(), String> {
        match call.compare(library, written, random) {
            Ok(number) => {
                *self.numbers.entry(number).or_default() += 1;
                self.passed += 1;
                Ok(())
            }
            Err(error) => {
                self.failed += 1;
                Err(error)
            }
        }
    }

    /// The numbers that no answer had: without them a comparison says nothing of
    /// those answers.
    pub fn never(&self, numbers: &[u32]) -> Vec<u32> {
        let never = |number: &u32| !self.numbers.contains_key(number);
        numbers.iter().copied().filter(never).collect()
    }
}

#[cfg(test)]
pub mod tests {
    use super::*;

    /// A count tells what it never met.
    #[test]
    fn never_is_told() {
        let mut count = Count::default();
        assert_eq!(count.never(&[0, 24, 12]), [0, 24, 12]);
        count.numbers.insert(24, 1);
        assert_eq!(count.never(&[0, 24, 12]), [0, 12]);
        count.numbers.extend([(0, 1), (12, 1)]);
        assert!(count.never(&[0, 24, 12]).is_empty());
    }

    /// All inputs, each with what its answer has to be where that is known.
    pub fn counted<C: Compared>(library: &mut dyn Library, calls: &[(C, Option<C::Due>)]) -> Count {
        let mut count = Count::default();
        let mut patterns = Random::new(2);
        for (call, written) in calls {
            let _ = count.compare(library, call, written.as_ref(), &mut patterns);
        }
        count
    }
}
