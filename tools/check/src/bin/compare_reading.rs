//! `compare_reading [FUNCTIONS] [SEED]`: runs of lowered functions against
//! independent contract readings of the original ones, on generated functions
//! with budgets around what they take, and on calls that are refused. Lowering
//! and running are the library's.

use check::lowerings::{lowered, run};
use rlimg::decode::decode;
use rlimg::encode::encode;
use rlimg::fold::Folded;
use rlimg::image::Image;
use rlimg::lower::Contract;
use rlimg::rng::Rng;
use rlimg::run::{premises_hold, Program, Shown, Value, BUDGET, NULL};
use rlimg::runs::{self, Run};
use rlimg::schema::Section;
use rlimg::{lowerings, text};
use std::collections::BTreeMap;
use std::process::ExitCode;

/// Everything that is counted must have been seen so often.
const ENOUGH: usize = 50;
/// A run of more steps is not waited for.
const LONG: u32 = 2_000;
const SPENT: u64 = 4;

#[derive(Default)]
struct Tally {
    functions: usize,
    /// Functions that are not lowered, or outside the premises.
    refused: usize,
    outside: usize,
    /// With refinements, requires, ensures; result functions.
    with: [usize; 4],
    runs: usize,
    steps: u64,
    /// Returned, Stopped, Fault, Spent; then faults by their number.
    outcomes: [usize; 4],
    faults: [usize; 5],
    /// Runs that do not end as the original's plain run does.
    checked: usize,
    refusals: BTreeMap<u32, usize>,
}

struct Comparison {
    tally: Tally,
    rng: Rng,
}

/// A difference has been printed.
struct Differs;

impl Comparison {
    fn function(&mut self) -> Result<(), Differs> {
        let Run { image, call } = self.any();
        let Ok(bytes) = lowered(&encode(&image), call.function) else {
            self.tally.refused += 1;
            return Ok(());
        };
        if !premises_hold(&image, call.function as usize) {
            self.tally.outside += 1;
            return Ok(());
        }
        self.tally.functions += 1;
        self.count(&image, call.function as usize);
        let lowered = decode(&bytes).expect("the lowered image is accepted");
        let values = Value::list(&call.words).expect("words of values");
        let pair = Pair { reading: Program::new(&image), image: &image, bytes, lowered: &lowered };
        let first = self.compare(&pair, call.function, &values, LONG)?;
        let Some(([ending, steps, ..], _)) = first else {
            return Ok(());
        };
        let mut budgets = vec![self.rng.below(LONG as usize) as u32];
        if ending != SPENT {
            let below = 0..steps as u32;
            budgets.extend([BUDGET, steps as u32]);
            budgets.extend(below.filter(|_| self.rng.one_in(1 + steps as usize / 6)));
        }
        for budget in budgets {
            self.compare(&pair, call.function, &values, budget)?;
        }
        if self.rng.one_in(8) {
            self.refused(&pair, call.function, &values)?;
        }
        Ok(())
    }

    /// A function that makes sense, or one that mostly does not.
    fn any(&mut self) -> Run {
        let size = self.rng.pick(&[1, 2, 3, 4, 5, 6]);
        let mut run = runs::contracted(&mut self.rng, size);
        if self.rng.one_in(4) {
            run.image = lowerings::any(&mut self.rng);
            let functions = run.image.of(Section::Function);
            let function = self.rng.below(functions.len().max(1));
            let parameters = functions.get(function).map_or(0, |function| function.range(2).1);
            let value = |_| self.rng.pick(&[[1, 2], [4, 1], [4, 0], [2, 7], [9, 3], [16, 0]]);
            run.call.words = (0..parameters).flat_map(value).collect();
            run.call.function = function as u32;
        }
        run
    }

    /// Calls that the runner refuses.
    fn refused(&mut self, pair: &Pair, function: u32, values: &[Value]) -> Result<(), Differs> {
        let more = [values, &[NULL]].concat();
        let over = BUDGET + 1 + self.rng.below(9) as u32;
        let missing = pair.image.of(Section::Function).len() as u32;
        self.compare(pair, missing, values, LONG)?;
        self.compare(pair, function, &more, LONG)?;
        self.compare(pair, function, values, over)?;
        self.compare(pair, function, &more, over)?;
        if let Some((_, rest)) = values.split_first() {
            // A text that neither image has.
            let missing = Value::Err(Some(Folded::Str(u16::MAX)));
            self.compare(pair, function, &[&[missing], rest].concat(), LONG)?;
        }
        Ok(())
    }

    fn compare(
        &mut self,
        pair: &Pair,
        function: u32,
        values: &[Value],
        budget: u32,
    ) -> Result<Option<Shown>, Differs> {
        let reading = pair.reading.reading(function, values, budget);
        let run = run((&pair.bytes, pair.lowered), function, values, budget);
        if reading != run {
            println!("function {function}, values {values:?}, budget {budget}");
            println!("reading {reading:?}\nrun {run:?}");
            print!("{}{}", text::dump(pair.image), text::dump(pair.lowered));
            return Err(Differs);
        }
        self.tally.runs += 1;
        match &run {
            Err(number) => *self.tally.refusals.entry(*number).or_default() += 1,
            Ok(([outcome, steps, first, _], _)) => {
                self.tally.steps += steps;
                self.tally.outcomes[*outcome as usize - 1] += 1;
                if *outcome == 3 {
                    self.tally.faults[*first as usize - 1] += 1;
                }
                let plain = pair.reading.plainly(function, values, budget);
                self.tally.checked += usize::from(plain != run);
            }
        }
        Ok(run.ok())
    }

    fn count(&mut self, image: &Image, function: usize) {
        let function = &image.of(Section::Function)[function];
        let contract = Contract::of(image, function);
        let refined = contract.parameters.iter().any(|parameter| parameter.number(2) != 0);
        let with = [
            refined,
            !contract.requires.is_empty(),
            !contract.ensures.is_empty(),
            function.number(3) == 1,
        ];
        for (count, has) in self.tally.with.iter_mut().zip(with) {
            *count += usize::from(has);
        }
    }
}

/// An image, and the lowered one.
struct Pair<'a> {
    reading: Program<'a>,
    image: &'a Image,
    bytes: Vec<u8>,
    lowered: &'a Image,
}

fn main() -> ExitCode {
    let mut arguments = std::env::args().skip(1).map(|word| word.parse::<u64>().expect("a number"));
    let functions = arguments.next().unwrap_or(100_000) as usize;
    let seed = arguments.next().unwrap_or(1);
    let mut comparison = Comparison { tally: Tally::default(), rng: Rng::new(seed) };
    while comparison.tally.functions < functions {
        if let Err(Differs) = comparison.function() {
            println!("compare_reading: a difference with seed {seed}");
            return ExitCode::FAILURE;
        }
    }
    summary(&comparison.tally)
}

fn summary(tally: &Tally) -> ExitCode {
    let named = |names: &[&str], counts: &[usize]| -> String {
        let pairs = names.iter().zip(counts).map(|(name, count)| format!("{name}: {count}"));
        pairs.collect::<Vec<String>>().join(", ")
    };
    let with = named(&["refinements", "requires", "ensures", "result"], &tally.with);
    let outcomes = named(&["returned", "stopped", "fault", "spent"], &tally.outcomes);
    let faults = named(&["1", "2", "3", "4", "5"], &tally.faults);
    let refusals = tally.refusals.iter().map(|(number, count)| format!("{number}: {count}"));
    println!(
        "compare_reading: {} functions ({with}; {} refused, {} outside), {} runs, {} steps, 0 differ, \
         {} not as without contracts; {outcomes}; faults {faults}; refusals {}",
        tally.functions,
        tally.refused,
        tally.outside,
        tally.runs,
        tally.steps,
        tally.checked,
        refusals.collect::<Vec<String>>().join(", "),
    );
    let refused = |number: &u32| tally.refusals.get(number).copied().unwrap_or(0);
    let counts = tally.outcomes.iter().chain(&tally.faults).chain(&tally.with).copied();
    if counts.chain([11, 19, 20, 21].iter().map(refused)).min() < Some(ENOUGH) {
        println!("something was seen fewer than {ENOUGH} times");
        return ExitCode::FAILURE;
    }
    ExitCode::SUCCESS
}
