//! `compare_run [FUNCTIONS] [SEED]`: the library's `rl_run` against the
//! independent runner, on generated functions with budgets around what they
//! take, on listed functions over small constants and over texts, on calls that
//! are refused, on listed words and on damaged images.

mod operands;
mod words;

use check::runs::{compare, Case, Slices};
use rlimg::damage::damage;
use rlimg::encode::encode;
use rlimg::image::WORK;
use rlimg::rng::Rng;
use rlimg::run::{answer_to, Call, BUDGET, OUTCOME};
use rlimg::{code, runs, text};
use std::collections::BTreeMap;
use std::process::ExitCode;

/// Everything that is counted must have been seen so often.
const ENOUGH: usize = 50;
/// The listed functions over small constants are so many.
const OPERANDS: usize = 14_685;
/// Those over texts are so many.
const TEXTS: usize = 24_255;
/// A run of more steps is not waited for, or rarely.
const LONG: u32 = 2_000;
/// The refusals that are looked for.
const REFUSALS: [u32; 13] = [1, 2, 3, 4, 5, 6, 7, 8, 10, 11, 19, 20, 21];
const SPENT: u64 = 4;
const FAULT: u64 = 3;

#[derive(Default)]
struct Tally {
    functions: usize,
    runs: usize,
    steps: u64,
    /// Returned, Stopped, Fault, Spent; then faults by their number.
    outcomes: [usize; 4],
    faults: [usize; 5],
    refusals: BTreeMap<u32, usize>,
    /// Listed words that had all of their answers: values, no values, values
    /// of which a text is missing.
    words: [usize; 3],
    /// Listed functions over small constants, and over texts.
    operands: usize,
    texts: usize,
}

struct Comparison {
    tally: Tally,
    rng: Rng,
    slices: Slices,
}

/// A difference has been printed.
struct Differs;

impl Comparison {
    /// Gives the refusal's number, 0 for a run.
    fn compare(&mut self, case: &Case, call: &Call) -> Result<u32, Differs> {
        self.tally.runs += 1;
        match compare(&mut self.slices, case, call) {
            Err(fault) => {
                println!("function {}: {fault}", self.tally.functions);
                println!("{call:?}");
                match &case.image {
                    Ok(image) => print!("{}", text::dump(image)),
                    Err(refusal) => println!("refused {} at {}", refusal.number, refusal.place),
                }
                Err(Differs)
            }
            Ok(Err(refusal)) => {
                *self.tally.refusals.entry(refusal.number).or_default() += 1;
                Ok(refusal.number)
            }
            Ok(Ok([outcome, steps, first, _])) => {
                self.tally.steps += steps;
                self.tally.outcomes[outcome as usize - 1] += 1;
                if outcome == FAULT {
                    self.tally.faults[first as usize - 1] += 1;
                }
                Ok(0)
            }
        }
    }

    /// A generated function, with all that is tried on it.
    fn function(&mut self) -> Result<(), Differs> {
        self.tally.functions += 1;
        let size = self.rng.pick(&[1, 2, 3, 4, 5, 6, 6, 9]);
        let run = runs::any(&mut self.rng, size);
        let case = Case::new(encode(&run.image));
        let first = answer_to(&case.image, &Call { budget: LONG, ..run.call.clone() });
        let budgets = match first {
            Ok(outcome) => self.budgets(outcome),
            Err(_) => vec![LONG],
        };
        for budget in budgets {
            let work = if self.rng.one_in(8) { WORK + self.rng.below(900) } else { WORK };
            self.compare(&case, &Call { budget, work, ..run.call.clone() })?;
        }
        // What is refused in neither is run, so the budget is small.
        let call = Call { budget: LONG, ..run.call };
        if self.rng.one_in(4) {
            let broken = runs::broken(&mut self.rng, &run.image, &call);
            self.compare(&case, &broken)?;
        }
        if self.rng.one_in(8) {
            let damaged = Case::new(damage(&mut self.rng, &run.image));
            self.compare(&damaged, &call)?;
            let broken = runs::broken(&mut self.rng, &run.image, &call);
            self.compare(&damaged, &broken)?;
        }
        Ok(())
    }

    /// Budgets around the steps of a run that had `LONG`.
    fn budgets(&mut self, [ending, steps, ..]: [u64; OUTCOME]) -> Vec<u32> {
        let any = self.rng.below(LONG as usize) as u32;
        if ending == SPENT {
            let more = [any / 2, any / 3, 10 * LONG, BUDGET];
            let often = [1, 1, 16, 512];
            let more = more.into_iter().zip(often).filter(|(_, often)| self.rng.one_in(*often));
            return [LONG, any].into_iter().chain(more.map(|(budget, _)| budget)).collect();
        }
        let steps = steps as u32;
        let mut budgets = vec![steps, BUDGET, any];
        if steps > 0 {
            budgets.extend([steps - 1, self.rng.below(steps as usize) as u32]);
        }
        budgets
    }

    /// Images that are too long, and images without functions.
    fn listed(&mut self) -> Result<(), Differs> {
        let empty = code::image(&[], |_| vec![]);
        let mut without = empty.clone();
        without.records[4].clear();
        let images = [vec![1; 65_536], vec![0; 70_000], encode(&without), encode(&empty), vec![]];
        for case in images.map(Case::new) {
            for work in [0, WORK - 1, WORK, 9_000] {
                self.words_and_functions(&case, work)?;
            }
        }
        Ok(())
    }

    fn words_and_functions(&mut self, case: &Case, work: usize) -> Result<(), Differs> {
        for words in [&[][..], &[0], &[0, 0], &[5, 0], &[3, 9]] {
            for function in [0, 1, u32::MAX] {
                for budget in [0, BUDGET, BUDGET + 1] {
                    let words = words.to_vec();
                    self.compare(case, &Call { work, function, words, budget })?;
                }
            }
        }
        Ok(())
    }
}

fn main() -> ExitCode {
    let mut arguments = std::env::args().skip(1).map(|word| word.parse::<u64>().expect("a number"));
    let functions = arguments.next().unwrap_or(200_000) as usize;
    let seed = arguments.next().unwrap_or(1);
    let (tally, rng, slices) = (Tally::default(), Rng::new(seed), Slices::default());
    let mut comparison = Comparison { tally, rng, slices };
    let mut done = comparison.listed().and_then(|()| comparison.listed_words());
    done = done.and_then(|()| comparison.listed_operands());
    done = done.and_then(|()| comparison.listed_texts());
    while done.is_ok() && comparison.tally.functions < functions {
        done = comparison.function();
    }
    match done {
        Ok(()) => summary(&comparison.tally),
        Err(Differs) => {
            println!("compare_run: a difference with seed {seed}");
            ExitCode::FAILURE
        }
    }
}

fn summary(tally: &Tally) -> ExitCode {
    let named = |names: &[&str], counts: &[usize]| -> String {
        let pairs = names.iter().zip(counts).map(|(name, count)| format!("{name}: {count}"));
        pairs.collect::<Vec<String>>().join(", ")
    };
    let outcomes = named(&["returned", "stopped", "fault", "spent"], &tally.outcomes);
    let faults = named(&["1", "2", "3", "4", "5"], &tally.faults);
    let words = named(&["values", "no values", "no text"], &tally.words);
    let refusals = tally.refusals.iter().map(|(number, count)| format!("{number}: {count}"));
    println!(
        "compare_run: {} functions, {} runs, {} steps, 0 differ; {outcomes}; faults {faults}; \
         listed words {words}; listed operands {}; listed texts {}; refusals {}",
        tally.functions,
        tally.runs,
        tally.steps,
        tally.operands,
        tally.texts,
        refusals.collect::<Vec<String>>().join(", "),
    );
    let listed = [("operands", tally.operands, OPERANDS), ("texts", tally.texts, TEXTS)];
    if let Some((name, _, all)) = listed.into_iter().find(|(_, count, all)| count < all) {
        println!("the listed {name} are fewer than {all}");
        return ExitCode::FAILURE;
    }
    let refused = |number: &u32| tally.refusals.get(number).copied().unwrap_or(0);
    let counts = tally.outcomes.iter().chain(&tally.faults).chain(&tally.words).copied();
    if counts.chain(REFUSALS.iter().map(refused)).min() < Some(ENOUGH) {
        println!("something was seen fewer than {ENOUGH} times");
        return ExitCode::FAILURE;
    }
    ExitCode::SUCCESS
}
