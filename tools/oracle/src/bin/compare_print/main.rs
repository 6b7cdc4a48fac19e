//! `compare_print [N] [SEED] [MEGABYTES]`: what the printer prints, against the
//! independent prover's reports and reader's refusals and, where it is here, the
//! original's reports, on listed images and on N generated and damaged ones;
//! where standard input or output cannot be used; and the longest output that
//! there can be, all of it or so many megabytes. The printer is RL_PRINTER, or
//! else `target/bin/rl_printer` of the repository.

mod child;
mod failing;
mod longest;

use oracle::{HERE, independent_lines, lines, marked, picked};
use rlimg::damage::damage;
use rlimg::decode::decode;
use rlimg::encode::encode;
use rlimg::hostile::longest_output;
use rlimg::image::Image;
use rlimg::rng::Rng;
use rlimg::rules;
use std::ffi::OsString;
use std::fmt;
use std::io::Write;
use std::process::{Command, ExitCode, Stdio};

const PRINTER: &str = concat!(env!("CARGO_MANIFEST_DIR"), "/../../target/bin/rl_printer");
/// Where an image goes that shows a difference.
const FILE: &str = concat!(env!("CARGO_MANIFEST_DIR"), "/../target/compare_print.img");

fn images(count: usize, seed: u64) -> Vec<Vec<u8>> {
    let mut images: Vec<Image> = marked::cases().into_iter().map(|case| case.image).collect();
    images.extend(picked::images());
    let mut images: Vec<Vec<u8>> = images.iter().map(encode).collect();
    images.extend([vec![], vec![1; 65_536], vec![1; 100_000]]);
    let mut rng = Rng::new(seed);
    for number in 0..count {
        let image = rules::image(&mut rng, [1, 2, 4, 12][number / 4 % 4]);
        images.push(match number % 4 {
            3 => damage(&mut rng, &image),
            _ => encode(&image),
        });
    }
    images
}

/// What the printer must print, and by whom.
fn expected(bytes: &[u8]) -> Vec<(&'static str, String)> {
    match decode(bytes) {
        Ok(image) => {
            let original = HERE.then(|| ("the original", lines(&image)));
            let independent = ("the prover", independent_lines(&image));
            [independent].into_iter().chain(original).collect()
        }
        Err(refusal) => {
            vec![("the reader", format!("refused {} at {}\n", refusal.number, refusal.place))]
        }
    }
}

/// What the printer prints.
fn printed(printer: &OsString, bytes: &[u8]) -> std::io::Result<Vec<u8>> {
    let mut command = Command::new(printer);
    let mut child = command.stdin(Stdio::piped()).stdout(Stdio::piped()).spawn()?;
    let mut input = child.stdin.take().expect("a pipe");
    let output = std::thread::scope(|scope| {
        // The printer may stop reading where an image is too long.
        scope.spawn(move || _ = input.write_all(bytes));
        child.wait_with_output()
    })?;
    Ok(output.stdout)
}

/// The first line that differs, of both.
fn differing(ours: &[u8], theirs: &str) -> String {
    let ours = String::from_utf8_lossy(ours);
    let (mut ours, mut theirs) = (ours.split('\n'), theirs.split('\n'));
    for line in 0.. {
        match (ours.next(), theirs.next()) {
            (None, None) => break,
            (ours, theirs) if ours != theirs => {
                return format!("line {line}\nprinted:  {ours:?}\nexpected: {theirs:?}");
            }
            _ => (),
        }
    }
    "bytes that are not UTF-8".to_string()
}

#[derive(Default)]
struct Tally {
    images: usize,
    refused: usize,
    lines: usize,
    /// Images that the original was asked about.
    original: usize,
}

impl fmt::Display for Tally {
    fn fmt(&self, f: &mut fmt::Formatter<'_>) -> fmt::Result {
        let Tally { images, refused, lines, .. } = self;
        write!(f, "{images} images ({refused} refused), 0 differ; {lines} lines")
    }
}

impl Tally {
    fn image(&mut self, printer: &OsString, bytes: &[u8]) -> Result<(), String> {
        let ours = printed(printer, bytes).map_err(|fault| format!("{printer:?}: {fault}"))?;
        let expected = expected(bytes);
        for (by, theirs) in &expected {
            if ours != theirs.as_bytes() {
                let kept = std::fs::write(FILE, bytes).map(|()| FILE.to_string());
                let kept = kept.unwrap_or_else(|fault| format!("{FILE}: {fault}"));
                let differing = differing(&ours, theirs);
                return Err(format!("by {by}, {differing}\nthe image: {kept}"));
            }
        }
        self.images += 1;
        self.original += usize::from(expected.len() == 2);
        match ours.starts_with(b"refused ") {
            true => self.refused += 1,
            false => self.lines += expected[0].1.lines().count(),
        }
        Ok(())
    }
}

fn compare(printer: &OsString, count: usize, seed: u64) -> Result<Tally, String> {
    let mut tally = Tally::default();
    for (number, bytes) in images(count, seed).iter().enumerate() {
        let done = tally.image(printer, bytes);
        done.map_err(|fault| format!("seed {seed}, image {number}, {fault}"))?;
    }
    Ok(tally)
}

fn main() -> ExitCode {
    let mut arguments = std::env::args().skip(1).map(|word| word.parse::<u64>().expect("a number"));
    let count = arguments.next().unwrap_or(300) as usize;
    let seed = arguments.next().unwrap_or(1);
    let printer = std::env::var_os("RL_PRINTER").unwrap_or(PRINTER.into());
    let most = arguments.next().map_or(u64::MAX, |megabytes| megabytes * 1_000_000);
    let done = compare(&printer, count, seed).and_then(|tally| {
        println!("compare_print: {tally}");
        let original = format!("{} images", tally.original);
        println!("compare_print: {}", oracle::compared(&original));
        hard(&printer, most)
    });
    match done {
        Ok(said) => {
            println!("compare_print: {said}");
            ExitCode::SUCCESS
        }
        Err(fault) => {
            println!("compare_print: {fault}");
            ExitCode::FAILURE
        }
    }
}

/// Where standard input or output fails, and the longest output.
fn hard(printer: &OsString, most: u64) -> Result<String, String> {
    let (small, large) = (marked::cases().swap_remove(0).image, longest_output());
    let failing = failing::compare(printer, &[&encode(&small), &encode(&large)])?;
    let longest::Compared { bytes, lines } =
        longest::compare(printer, most).map_err(|fault| format!("the longest output: {fault}"))?;
    let longest = format!("the longest output: {lines} lines, {bytes} bytes, 0 differ");
    Ok(format!("{failing} runs with failing input or output; {longest}"))
}
