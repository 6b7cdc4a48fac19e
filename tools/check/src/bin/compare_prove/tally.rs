//! How often each thing was seen.

use oracle::HERE;
use std::collections::BTreeMap;

/// Everything that is counted must have been seen so often.
const ENOUGH: usize = 50;
/// The refusals that are counted for that.
const REFUSALS: [u32; 14] = [2, 3, 4, 5, 6, 7, 8, 9, 10, 15, 16, 17, 18, 20];
/// The sorts of values, in the order of their numbers, and of the floats
/// those that are easily got wrong.
const SORTS: [&str; 8] = ["none", "Int", "Float", "Str", "Bool", "NaN", "0.0", "-0.0"];
const FLOAT: u64 = 2;

/// How many values of each sort.
pub type Sorts = [usize; SORTS.len()];

#[derive(Default)]
pub struct Tally {
    pub images: usize,
    pub refused: usize,
    pub folded: Sorts,
    /// Calls and whole images.
    pub proved: [usize; 2],
    /// Refinements and requires.
    pub reports: [usize; 2],
    pub texts: usize,
    /// Messages, and reports that are not there.
    pub messages: [usize; 2],
    pub refusals: BTreeMap<u32, usize>,
    pub original: Original,
}

/// What the original was asked.
#[derive(Default)]
pub struct Original {
    pub images: usize,
    pub reports: usize,
    pub messages: usize,
    pub folded: Sorts,
    /// Images and nodes on which it would take too long.
    pub unasked: [usize; 2],
}

/// The place of a value among the sorts.
pub fn sort_of([sort, payload]: [u64; 2]) -> usize {
    let float = f64::from_bits(payload);
    match sort {
        FLOAT if float.is_nan() => 5,
        FLOAT if float == 0.0 => 6 + usize::from(float.is_sign_negative()),
        _ => sort as usize,
    }
}

impl Tally {
    /// Everything has been seen often enough.
    pub fn is_enough(&self) -> bool {
        let refused = |number: &u32| self.refusals.get(number).copied().unwrap_or(0);
        let counts = [&self.folded[..], &self.proved, &self.reports, &self.messages].concat();
        let counts = counts.into_iter().chain([self.texts, self.refused]);
        let counts = counts.chain(REFUSALS.iter().map(refused));
        let original = [self.original.reports, self.original.messages];
        let original = self.original.folded.into_iter().chain(original);
        counts.chain(original.filter(|_| HERE)).min() >= Some(ENOUGH)
    }

    pub fn print(&self) {
        let refusals = self.refusals.iter().map(|(number, count)| format!("{number}: {count}"));
        let [calls, images] = self.proved;
        let [refinements, requires] = self.reports;
        let [messages, missing] = self.messages;
        println!(
            "compare_prove: {} images ({} refused), 0 differ; folds {}; calls {calls}, whole images \
             {images}; refinements {refinements}, requires {requires}; texts {}, messages {messages}, \
             none {missing}; refusals {}",
            self.images,
            self.refused,
            by_sort(&self.folded),
            self.texts,
            refusals.collect::<Vec<String>>().join(", "),
        );
        println!("compare_prove: {}", oracle::compared(&self.original.said()));
        if !self.is_enough() {
            println!("something was seen fewer than {ENOUGH} times");
        }
    }
}

impl Original {
    fn said(&self) -> String {
        let [images, nodes] = self.unasked;
        format!(
            "{} images with {} reports, all but {images}; messages {}; folds {}, all but {nodes}",
            self.images,
            self.reports,
            self.messages,
            by_sort(&self.folded),
        )
    }
}

fn by_sort(counts: &Sorts) -> String {
    let counts = SORTS.iter().zip(counts).map(|(sort, count)| format!("{sort}: {count}"));
    counts.collect::<Vec<String>>().join(", ")
}
