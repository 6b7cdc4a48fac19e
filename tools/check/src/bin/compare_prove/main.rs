//! `compare_prove [CASES] [SEED]`: the library's `rl_fold`, `rl_prove`,
//! `rl_prove_all`, `rl_text` and `rl_message` against the independent folder,
//! prover and texts; where the original is here, the reports' messages against
//! its own, and each folded value against its `const_eval`.

mod case;
mod compare;
mod original;
mod tally;
mod texts;

use case::Case;
use check::tried;
use compare::{Comparison, Differs};
use rlimg::damage::damage;
use rlimg::encode::encode;
use rlimg::rng::Rng;
use std::process::ExitCode;
use std::time::{Duration, Instant};

/// Where an image goes that shows a difference.
const FILE: &str = concat!(env!("CARGO_MANIFEST_DIR"), "/../target/compare_prove.img");
/// The longest that all about one hostile image may take.
const LONG: Duration = Duration::from_secs(5);

/// A difference, and the image that shows it.
struct Shown(Differs, Vec<u8>);

fn compare(comparison: &mut Comparison, bytes: Vec<u8>) -> Result<(), Shown> {
    let case = Case::new(bytes);
    comparison.compare(&case).map_err(|differs| Shown(differs, case.bytes))
}

/// The lists of small images, some that are too tall, and one too long.
fn listed(comparison: &mut Comparison) -> Result<(), Shown> {
    for image in tried::proved() {
        compare(comparison, encode(&image))?;
    }
    compare(comparison, vec![1; 65_536])
}

/// Images that ask for much work.
fn hostile(comparison: &mut Comparison) -> Result<(), Shown> {
    for image in tried::slow() {
        let (bytes, start) = (encode(&image), Instant::now());
        compare(comparison, bytes.clone())?;
        if start.elapsed() > LONG {
            let differs = Differs(format!("a hostile image takes {:?}", start.elapsed()));
            return Err(Shown(differs, bytes));
        }
    }
    Ok(())
}

/// Generated images and damaged copies of them.
fn generated(comparison: &mut Comparison, seed: u64, until: usize) -> Result<(), Shown> {
    let mut rng = Rng::new(seed);
    while comparison.tally.images < until {
        let image = tried::to_prove(&mut rng);
        compare(comparison, encode(&image))?;
        if rng.one_in(8) {
            compare(comparison, damage(&mut rng, &image))?;
        }
    }
    Ok(())
}

fn main() -> ExitCode {
    let mut arguments = std::env::args().skip(1).map(|word| word.parse::<u64>().expect("a number"));
    let cases = arguments.next().unwrap_or(100_000) as usize;
    let seed = arguments.next().unwrap_or(1);
    let mut comparison = Comparison::new(seed);
    let done = listed(&mut comparison)
        .and_then(|_| hostile(&mut comparison))
        .and_then(|_| generated(&mut comparison, seed, cases));
    if let Err(Shown(Differs(fault), bytes)) = done {
        println!("seed {seed}, image {}: {} bytes", comparison.tally.images, bytes.len());
        println!("{fault}");
        match std::fs::write(FILE, bytes) {
            Ok(()) => println!("the image is in {FILE}"),
            Err(fault) => println!("{FILE}: {fault}"),
        }
        return ExitCode::FAILURE;
    }
    comparison.tally.print();
    match comparison.tally.is_enough() {
        true => ExitCode::SUCCESS,
        false => ExitCode::FAILURE,
    }
}
