//! `compare_read [CASES] [SEED]`: the library's `rl_read` against the
//! independent reader, on answers and on every entry of the work slice.

use check::ffi::{self, Answer};
use check::tried;
use rlimg::builder::Builder;
use rlimg::damage::{damage, work_length, NOT_UTF8};
use rlimg::encode::encode;
use rlimg::image::WORK;
use rlimg::rng::Rng;
use std::ops::RangeInclusive;
use std::process::ExitCode;

/// What the work slices hold before each call.
const GARBAGE: u16 = 0xabcd;
/// Entries behind the work slice, which must stay as they are.
const GUARD: usize = 64;
/// Lengths of texts, around that from which a text is first seen as a whole.
const LONG: RangeInclusive<usize> = 60..=130;
/// Every answer must have been seen so often.
const ENOUGH: usize = 50;

struct Comparison {
    seed: u64,
    cases: usize,
    /// How often each number was the answer, 0 for acceptance.
    answers: [usize; 11],
    ours: Vec<u16>,
    theirs: Vec<u16>,
}

/// A difference has been printed.
struct Differs;

impl Comparison {
    fn compare(&mut self, image: &[u8], work: usize) -> Result<(), Differs> {
        self.cases += 1;
        for slice in [&mut self.ours, &mut self.theirs] {
            slice.clear();
            slice.resize(work + GUARD, GARBAGE);
        }
        let ours = ffi::read(image, &mut self.ours[..work]);
        let theirs = check::expected(image, &mut self.theirs[..work]);
        if ours != theirs || self.ours != self.theirs {
            self.print(image, ours, theirs);
            return Err(Differs);
        }
        if theirs.number != 0 && self.theirs[..work].iter().any(|entry| *entry != 0) {
            println!("case {}: the work slice is not zero after a refusal", self.cases);
            return Err(Differs);
        }
        self.answers[theirs.number as usize] += 1;
        Ok(())
    }

    fn print(&self, image: &[u8], ours: Answer, theirs: Answer) {
        println!("seed {}, case {}: {} bytes", self.seed, self.cases, image.len());
        println!("work slice of {}", self.ours.len() - GUARD);
        println!("rl_read:            {} at {}", ours.number, ours.place);
        println!("independent reader: {} at {}", theirs.number, theirs.place);
        let differs = self.ours.iter().zip(&self.theirs).position(|(ours, theirs)| ours != theirs);
        if let Some(entry) = differs {
            println!("work entry {entry}: {} and {}", self.ours[entry], self.theirs[entry]);
        }
        if image.len() <= 1_000 {
            let hex: Vec<String> = image.iter().map(|byte| format!("{byte:02x}")).collect();
            println!("{}", hex.join(" "));
        }
    }

    /// Images at the limits, and one past them.
    fn limits(&mut self) -> Result<(), Differs> {
        for image in tried::limits() {
            for work in [0, 1, WORK - 1, WORK, WORK + 1, 9_000, 70_000] {
                self.compare(&image, work)?;
            }
        }
        Ok(())
    }

    /// Each kind of record, damaged, and bad texts.
    fn damaged(&mut self) -> Result<(), Differs> {
        let mut images = tried::kinds(self.seed).chain(tried::bad_texts());
        images.try_for_each(|image| self.compare(&image, WORK))
    }

    /// Long texts of ASCII, each also with a bad or a good sequence at each
    /// place.
    fn long_texts(&mut self) -> Result<(), Differs> {
        let good = ["\u{7f}", "\u{80}", "\u{7ff}", "\u{20ac}", "\u{10ffff}"].map(str::as_bytes);
        for length in LONG {
            self.text(vec![b'a'; length])?;
            for sequence in NOT_UTF8.into_iter().chain(good) {
                for at in 0..=length - sequence.len() {
                    let mut text = vec![b'a'; length];
                    text[at..at + sequence.len()].copy_from_slice(sequence);
                    self.text(text)?;
                }
            }
        }
        Ok(())
    }

    /// An image with this text alone.
    fn text(&mut self, text: Vec<u8>) -> Result<(), Differs> {
        let mut builder = Builder::new(1);
        builder.image.texts.push((0, text.len() as u16));
        builder.image.text = text;
        self.compare(&encode(&builder.image), WORK)
    }

    /// So many generated images and damaged copies of them.
    fn generated(&mut self, rng: &mut Rng, cases: usize) -> Result<(), Differs> {
        let until = self.cases + cases;
        while self.cases < until {
            let image = tried::to_read(rng);
            let bytes = encode(&image);
            self.compare(&bytes, WORK)?;
            self.compare(&bytes, work_length(rng))?;
            if rng.one_in(40) {
                let padded = rng.pick(&[65_535, 65_536, 65_537, 80_000]);
                let mut long = bytes.clone();
                long.resize(padded.max(bytes.len()), 0);
                self.compare(&long, work_length(rng))?;
            }
            for _ in 0..20 {
                self.compare(&damage(rng, &image), work_length(rng))?;
            }
        }
        Ok(())
    }
}

fn main() -> ExitCode {
    let mut arguments = std::env::args().skip(1).map(|word| word.parse::<u64>().expect("a number"));
    let cases = arguments.next().unwrap_or(300_000) as usize;
    let seed = arguments.next().unwrap_or(1);
    let (ours, theirs) = (Vec::new(), Vec::new());
    let mut comparison = Comparison { seed, cases: 0, answers: [0; 11], ours, theirs };
    let done = comparison
        .limits()
        .and_then(|_| comparison.damaged())
        .and_then(|_| comparison.long_texts())
        .and_then(|_| comparison.generated(&mut Rng::new(seed), cases));
    if done.is_err() {
        return ExitCode::FAILURE;
    }
    let named = comparison.answers.iter().enumerate();
    let counts: Vec<String> = named.map(|(number, count)| format!("{number}: {count}")).collect();
    if comparison.answers.iter().any(|count| *count < ENOUGH) {
        println!("an answer was seen fewer than {ENOUGH} times: {}", counts.join(", "));
        return ExitCode::FAILURE;
    }
    println!("compare_read: {} cases, 0 differ; {}", comparison.cases, counts.join(", "));
    ExitCode::SUCCESS
}
