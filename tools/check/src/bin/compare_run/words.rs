//! Listed words by calls that are refused for more than one cause, so that
//! their order shows.

use crate::{Comparison, Differs};
use check::runs::Case;
use rlimg::encode::encode;
use rlimg::image::{LENGTH_LIMIT, WORK};
use rlimg::run::{Call, BUDGET};
use rlimg::runs::words::{image, listed, Words};
use std::collections::BTreeSet;

impl Comparison {
    /// Each of the words must have just the answers that such words can have.
    pub fn listed_words(&mut self) -> Result<(), Differs> {
        let bytes = encode(&image());
        let cut = bytes[..bytes.len() - 1].to_vec();
        let cases = [bytes, cut, vec![1; LENGTH_LIMIT + 1]].map(Case::new);
        for words in listed() {
            let seen = self.answers(&cases, &words)?;
            let must = words.kind.answers();
            if !seen.iter().eq(must) {
                println!("{}: the answers are {seen:?}, expected {must:?}", words.name);
                return Err(Differs);
            }
            self.tally.words[words.kind as usize] += 1;
        }
        Ok(())
    }

    /// What both answer to the words, by functions that take as many values,
    /// one more or one fewer or too many, or that are not there.
    fn answers(&mut self, cases: &[Case], words: &Words) -> Result<BTreeSet<u32>, Differs> {
        let count = words.words.len() as u32 / 2;
        let functions = [count, count + 1, count.saturating_sub(1), 17, 18, 1 << 16, u32::MAX];
        let mut seen = BTreeSet::new();
        for case in cases {
            for function in functions {
                for (work, budget) in
                    [(WORK, 9), (WORK, BUDGET + 1), (WORK - 1, u32::MAX), (WORK - 1, 9)]
                {
                    let words = words.words.clone();
                    seen.insert(self.compare(case, &Call { work, function, words, budget })?);
                }
            }
        }
        Ok(seen)
    }
}
