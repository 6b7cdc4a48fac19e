//! `compare_lowered [IMAGES] [SEED]`: the independent lowering with its limits
//! against the same without any and, where it is here, against the original's
//! `desugar_fn_contracts`, on generated images and on images at the limits:
//! every node at its index, and the new body as trees.

use oracle::{HERE, lower as original};
use rlimg::encode::encode;
use rlimg::image::Image;
use rlimg::lower::{self, Call, Contract, FORMAT};
use rlimg::lowerings::limits::{self, NO_LIMITS};
use rlimg::lowerings::{any, calls, listed};
use rlimg::rng::Rng;
use rlimg::schema::Section;
use rlimg::text;
use std::collections::BTreeMap;
use std::process::ExitCode;

/// The original is not asked to visit more records.
const STEPS: u64 = 12_000;
/// What is counted must have been seen so often.
const ENOUGH: usize = 50;

#[derive(Default)]
struct Tally {
    images: usize,
    lowered: usize,
    /// Functions without contracts.
    unchanged: usize,
    /// Compared, though the format's limits refuse it.
    past: usize,
    /// Functions that the original would take too long for.
    left_out: usize,
    /// Held against the original, and those of them that were handed over as
    /// Result and as CResult.
    original: usize,
    results: usize,
    /// New text bytes, texts, list entries, nodes and statements.
    made: [usize; 5],
    refusals: BTreeMap<u32, usize>,
}

impl Tally {
    fn image(&mut self, rng: &mut Rng, image: &Image) -> Result<(), String> {
        self.images += 1;
        let bytes = encode(image);
        for call in calls(rng, image) {
            match lower::answer(&bytes, call) {
                Err(refusal) if refusal.number != 14 => {
                    *self.refusals.entry(refusal.number).or_default() += 1;
                }
                answer => {
                    *self.refusals.entry(14).or_default() += usize::from(answer.is_err());
                    self.compare(image, &bytes, call, answer.ok())?;
                }
            }
        }
        Ok(())
    }

    /// What the format's limits refuse is compared too, as far as it goes.
    fn compare(
        &mut self,
        image: &Image,
        bytes: &[u8],
        call: Call,
        ours: Option<Vec<u8>>,
    ) -> Result<(), String> {
        let function = call.function as usize;
        if original::steps(image, function) > STEPS {
            self.left_out += 1;
            return Ok(());
        }
        let Some(lowered) = lower::lowered(image, function, NO_LIMITS) else {
            self.left_out += 1;
            return Ok(());
        };
        if FORMAT.hold(&lowered) != ours.is_some() {
            return Err(format!("function {function}: limits {}", ours.is_none()));
        }
        if ours.as_ref().is_some_and(|ours| *ours != encode(&lowered)) {
            return Err(format!("function {function}: not the same without limits"));
        }
        if HERE {
            self.original(image, &lowered, function)?;
        }
        if Contract::of(image, &image.of(Section::Function)[function]).is_empty() {
            self.unchanged += 1;
            if encode(&lowered) != bytes {
                return Err(format!("function {function}: changed without a contract"));
            }
        }
        self.lowered += 1;
        self.past += usize::from(!FORMAT.hold(&lowered));
        let counts = lowered.counts().into_iter().zip(image.counts());
        for (made, (after, before)) in self.made.iter_mut().zip(counts) {
            *made += after - before;
        }
        Ok(())
    }

    fn original(&mut self, image: &Image, lowered: &Image, function: usize) -> Result<(), String> {
        self.original += 1;
        self.results += usize::from(original::returns(image, function).len() == 2);
        match original::differ(image, lowered, function) {
            Some(differs) => Err(format!("function {function}: {differs}")),
            None => Ok(()),
        }
    }

    /// Everything that is counted has been seen often enough.
    fn is_enough(&self) -> bool {
        let refused = |number: &u32| self.refusals.get(number).copied().unwrap_or(0);
        let counts = [self.unchanged, self.past, self.left_out].into_iter();
        let counts = counts.chain([2, 11, 12, 13, 14].iter().map(refused));
        let original = [self.original, self.results].into_iter().filter(|_| HERE);
        counts.chain(original).min() >= Some(ENOUGH)
    }
}

fn all(tally: &mut Tally, images: usize, seed: u64) -> Result<(), String> {
    let mut rng = Rng::new(seed);
    let mut listed = limits::all().into_iter().chain(listed::all());
    while tally.images < images {
        let image = listed.next().unwrap_or_else(|| any(&mut rng));
        if let Err(fault) = tally.image(&mut rng, &image) {
            print!("{}", text::dump(&image));
            return Err(fault);
        }
    }
    Ok(())
}

fn main() -> ExitCode {
    let mut arguments = std::env::args().skip(1).map(|word| word.parse::<u64>().expect("a number"));
    let images = arguments.next().unwrap_or(100_000) as usize;
    let seed = arguments.next().unwrap_or(1);
    let mut tally = Tally::default();
    if let Err(fault) = all(&mut tally, images, seed) {
        println!("compare_lowered: {fault} (seed {seed}, image {})", tally.images);
        return ExitCode::FAILURE;
    }
    print(&tally);
    match tally.is_enough() {
        true => ExitCode::SUCCESS,
        false => ExitCode::FAILURE,
    }
}

fn print(tally: &Tally) {
    let [bytes, texts, entries, nodes, statements] = tally.made;
    let refusals = tally.refusals.iter().map(|(number, count)| format!("{number}: {count}"));
    println!(
        "compare_lowered: {} images, {} functions ({} without contracts, {} past a limit), 0 differ, {} left out; \
         made {nodes} nodes, {statements} statements, {entries} entries, {texts} texts of {bytes} bytes; refusals {}",
        tally.images,
        tally.lowered,
        tally.unchanged,
        tally.past,
        tally.left_out,
        refusals.collect::<Vec<String>>().join(", "),
    );
    let Tally { original, results, .. } = tally;
    let said = format!("{original} functions, {results} of them as Result and as CResult");
    println!("compare_lowered: {}", oracle::compared(&said));
    if !tally.is_enough() {
        println!("something was seen fewer than {ENOUGH} times");
    }
}
