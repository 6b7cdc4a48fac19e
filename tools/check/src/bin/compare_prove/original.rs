//! What the original says of an image, as far as it does not take too long.

use crate::case::Case;
use oracle::{ConstVal, Original, Report, HERE};

/// The most nodes that it may visit to prove all calls of an image, and to
/// fold its nodes one after the other.
const STEPS: u64 = 100_000;
const FOLD_STEPS: u64 = 1_000_000;

pub struct Asked {
    original: Original,
    /// What it visits to prove all calls, and to fold each node.
    steps: u64,
    sizes: Vec<u64>,
    /// What it may still visit to fold.
    left: u64,
}

impl Asked {
    /// The original of an accepted image, where it is here.
    pub fn new(case: &Case) -> Option<Asked> {
        (HERE && case.is_accepted()).then(|| Asked {
            original: Original::new(&case.image),
            steps: oracle::steps(&case.image),
            sizes: oracle::sizes(&case.image),
            left: FOLD_STEPS,
        })
    }

    /// The reports of all calls; none where it is not asked.
    pub fn reports(&mut self) -> Option<Vec<Report>> {
        (self.steps <= STEPS).then(|| self.original.reports())
    }

    /// What a node folds to; none where it is not asked.
    pub fn const_eval(&mut self, node: u32) -> Option<Option<ConstVal>> {
        self.left = self.left.checked_sub(self.sizes[node as usize])?;
        Some(self.original.const_eval(node as usize))
    }
}
