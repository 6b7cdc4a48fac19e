//! `compare_lower [IMAGES] [SEED]`: the library's `rl_lower` against the
//! independent lowering, on generated images, on images at the limits and on
//! damaged ones, answers and every entry of the slices; and, where it is here,
//! against the original: every node at its index, and the new body as trees.

use check::lowerings::{compare, Slices};
use check::runs::Case;
use oracle::{lower as original, HERE};
use rlimg::damage::damage;
use rlimg::decode::decode;
use rlimg::encode::encode;
use rlimg::image::{Image, WORK};
use rlimg::lower::{Call, ROOM};
use rlimg::lowerings::{any, calls, limits, listed};
use rlimg::rng::Rng;
use rlimg::text;
use std::collections::BTreeMap;
use std::process::ExitCode;

/// The original is not asked to visit more records.
const STEPS: u64 = 12_000;
/// Everything that is counted must have been seen so often.
const ENOUGH: usize = 50;
/// The refusals that are looked for; 9 is seen less.
const REFUSALS: [u32; 13] = [1, 2, 3, 4, 5, 6, 7, 8, 10, 11, 12, 13, 14];

#[derive(Default)]
struct Tally {
    images: usize,
    calls: usize,
    lowered: usize,
    /// Held against the original too, and those of them that were handed over
    /// as Result and as CResult.
    original: usize,
    results: usize,
    /// New text bytes, texts, list entries, nodes and statements.
    made: [usize; 5],
    refusals: BTreeMap<u32, usize>,
}

struct Comparison {
    tally: Tally,
    rng: Rng,
    slices: Slices,
}

impl Comparison {
    fn compare(&mut self, case: &Case, call: Call) -> Result<(), String> {
        self.tally.calls += 1;
        let answer = compare(&mut self.slices, case, call)?;
        match (answer, &case.image) {
            (Ok(bytes), Ok(image)) => self.lowered(image, call.function as usize, &bytes),
            (Err(refusal), _) => {
                *self.tally.refusals.entry(refusal.number).or_default() += 1;
                Ok(())
            }
            (Ok(_), Err(_)) => Err("a refused image was lowered".to_string()),
        }
    }

    fn lowered(&mut self, image: &Image, function: usize, bytes: &[u8]) -> Result<(), String> {
        let Ok(lowered) = decode(bytes) else {
            return Err("the lowered image is refused".to_string());
        };
        self.tally.lowered += 1;
        let counts = lowered.counts().into_iter().zip(image.counts());
        for (made, (after, before)) in self.tally.made.iter_mut().zip(counts) {
            *made += after - before;
        }
        if HERE && original::steps(image, function) <= STEPS {
            self.tally.original += 1;
            self.tally.results += usize::from(original::returns(image, function).len() == 2);
            return original::differ(image, &lowered, function).map_or(Ok(()), Err);
        }
        Ok(())
    }

    fn image(&mut self, image: &Image) -> Result<(), String> {
        self.tally.images += 1;
        let case = Case::new(encode(image));
        let calls = calls(&mut self.rng, image);
        for call in &calls {
            self.compare(&case, *call).map_err(|fault| format!("{call:?}: {fault}"))?;
        }
        if self.rng.one_in(8) {
            let damaged = Case::new(damage(&mut self.rng, image));
            for call in calls {
                self.compare(&damaged, call).map_err(|fault| format!("damaged, {fault}"))?;
            }
        }
        Ok(())
    }

    /// Images that are too long, or empty.
    fn listed(&mut self) -> Result<(), String> {
        for bytes in [vec![1; 65_536], vec![0; 70_000], vec![]] {
            let case = Case::new(bytes);
            for (work, room) in [0, 1, WORK - 1, WORK, 9_000]
                .into_iter()
                .flat_map(|work| [0, 1, ROOM - 1, ROOM, 70_000].map(|room| (work, room)))
            {
                for function in [0, 1, u32::MAX] {
                    self.compare(&case, Call { work, function, room })?;
                }
            }
        }
        Ok(())
    }

    fn all(&mut self, images: usize) -> Result<(), String> {
        self.listed()?;
        let mut listed = limits::all().into_iter().chain(listed::all());
        while self.tally.images < images {
            let image = listed.next().unwrap_or_else(|| any(&mut self.rng));
            if let Err(fault) = self.image(&image) {
                print!("{}", text::dump(&image));
                return Err(fault);
            }
        }
        Ok(())
    }
}

fn main() -> ExitCode {
    let mut arguments = std::env::args().skip(1).map(|word| word.parse::<u64>().expect("a number"));
    let images = arguments.next().unwrap_or(100_000) as usize;
    let seed = arguments.next().unwrap_or(1);
    let (tally, rng, slices) = (Tally::default(), Rng::new(seed), Slices::default());
    let mut comparison = Comparison { tally, rng, slices };
    if let Err(fault) = comparison.all(images) {
        println!("compare_lower: {fault} (seed {seed}, image {})", comparison.tally.images);
        return ExitCode::FAILURE;
    }
    summary(&comparison.tally)
}

fn summary(tally: &Tally) -> ExitCode {
    let [bytes, texts, entries, nodes, statements] = tally.made;
    let refusals = tally.refusals.iter().map(|(number, count)| format!("{number}: {count}"));
    println!(
        "compare_lower: {} images, {} calls, {} functions, 0 differ; made {nodes} nodes, {statements} statements, \
         {entries} entries, {texts} texts of {bytes} bytes; refusals {}",
        tally.images,
        tally.calls,
        tally.lowered,
        refusals.collect::<Vec<String>>().join(", "),
    );
    let Tally { original, results, .. } = tally;
    let said = format!("{original} functions, {results} of them as Result and as CResult");
    println!("compare_lower: {}", oracle::compared(&said));
    let refused = |number: &u32| tally.refusals.get(number).copied().unwrap_or(0);
    let compared = [*original, *results].into_iter().filter(|_| HERE);
    if REFUSALS.iter().map(refused).chain(compared).min() < Some(ENOUGH) {
        println!("something was seen fewer than {ENOUGH} times");
        return ExitCode::FAILURE;
    }
    ExitCode::SUCCESS
}
