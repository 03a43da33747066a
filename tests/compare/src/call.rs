//! A call of the library and what the evaluator expects of it.

use evaluator::refusal::Answer;
use evaluator::rules::Verdict;

use crate::exports::Export;
use crate::slices::Watched;

/// A call that was made.
pub struct Call<'a> {
    pub export: &'a Export,
    result: u64,
    pub expected: Answer<Vec<u64>>,
    slices: Vec<&'a dyn Watched>,
    numbers: Vec<u32>,
    /// The verdicts that were given, for the coverage.
    pub verdicts: Vec<Verdict>,
}

impl<'a> Call<'a> {
    pub fn new(
        export: &'a Export,
        result: u64,
        expected: Answer<Vec<u64>>,
        slices: Vec<&'a dyn Watched>,
    ) -> Call<'a> {
        Call {
            export,
            result,
            expected,
            slices,
            numbers: Vec::new(),
            verdicts: Vec::new(),
        }
    }

    pub fn with_numbers(mut self, numbers: &[u32]) -> Call<'a> {
        self.numbers = numbers.to_vec();
        self
    }

    pub fn with_verdicts<'v>(mut self, verdicts: impl Iterator<Item = &'v Verdict>) -> Call<'a> {
        self.verdicts = verdicts.copied().collect();
        self
    }

    /// What differs: the result, taken apart or as one number, and the first place of each slice.
    pub fn complaints(&self) -> Vec<String> {
        let (result, expected) = (self.result, &self.expected);
        let unpacked = self.export.unpacked(result);
        let packed = self.export.packed(expected);
        let wrong = unpacked != *expected || result != packed;
        let result =
            wrong.then(|| format!("result {result} {unpacked:?}, not {packed} {expected:?}"));
        let slices = self.slices.iter().filter_map(|slice| slice.difference());
        result.into_iter().chain(slices).collect()
    }

    pub fn shown(&self) -> String {
        let slices = self.slices.iter().map(|slice| slice.shown());
        let numbers = self.numbers.iter().map(u32::to_string);
        let words: Vec<String> = slices.chain(numbers).collect();
        format!("{}({})", self.export.name, words.join(", "))
    }
}
