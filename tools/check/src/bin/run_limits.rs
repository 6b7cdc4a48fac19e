//! `run_limits`: the deepest functions by `rl_run` on a stack of 1 MiB, held
//! against the independent runner, and the time that long names take.

use check::ffi;
use check::runs::{compare, Case, Slices};
use rlimg::deep::{long_names, long_texts, nested, NESTED, TALL};
use rlimg::encode::encode;
use rlimg::image::{Image, WORK};
use rlimg::run::{Call, BUDGET, OUTCOME};
use std::process::ExitCode;
use std::thread::Builder;
use std::time::Instant;

const STACK: usize = 1 << 20;
/// Steps over long names and texts.
const STEPS: u32 = 200_000;
/// The most nanoseconds a step over long names, and over long texts.
const STEP: f64 = 1_000.0;
/// The time is the least of so many runs, and of up to `MOST` while it is over the bound: what else the machine does only adds.
const RUNS: usize = 3;
const MOST: usize = 100;

fn call(words: &[u64], budget: u32) -> Call {
    Call { work: WORK, function: 0, words: words.to_vec(), budget }
}

/// What both answer, which is no refusal.
fn agreed(case: &Case, words: &[u64], budget: u32) -> Result<[u64; OUTCOME], String> {
    let answer = compare(&mut Slices::default(), case, &call(words, budget))?;
    answer.map_err(|refusal| format!("refused {}", refusal.number))
}

/// Runs every deep function on a small stack; gives how many there are and
/// how many steps the longest takes.
fn deep() -> Result<(usize, u64), String> {
    let (mut count, mut longest) = (0, 0);
    for (way, kind) in (0..NESTED).flat_map(|way| (0..TALL).map(move |kind| (way, kind))) {
        let case = Case::new(encode(&nested(way, kind)));
        let fault = |fault| format!("way {way}, kind {kind}: {fault}");
        let [_, steps, ..] = agreed(&case, &[0, 0], BUDGET).map_err(fault)?;
        agreed(&case, &[0, 0], steps as u32 - 1).map_err(fault)?;
        count += 1;
        longest = longest.max(steps);
    }
    Ok((count, longest))
}

/// Nanoseconds a step.
fn time(image: &Image) -> f64 {
    let (bytes, mut work, mut outcome) = (encode(image), vec![0; WORK], [0; OUTCOME]);
    let mut run = || {
        let start = Instant::now();
        ffi::run(&bytes, &mut work, 0, &[], STEPS, &mut outcome);
        start.elapsed().as_nanos() as f64 / f64::from(STEPS)
    };
    let mut least = f64::INFINITY;
    for done in 0..MOST {
        if RUNS <= done && least <= STEP {
            break;
        }
        least = least.min(run());
    }
    least
}

fn long() -> Result<(f64, f64), String> {
    for image in [long_names(), long_texts()] {
        agreed(&Case::new(encode(&image)), &[], 2_000)?;
    }
    let (names, texts) = (time(&long_names()), time(&long_texts()));
    if names.max(texts) > STEP {
        return Err(format!("long names take {names:.0} ns a step, long texts {texts:.0}"));
    }
    Ok((names, texts))
}

fn main() -> ExitCode {
    // A stack that is too small ends the whole program.
    let thread = Builder::new().stack_size(STACK).spawn(deep).expect("a thread");
    let deep = thread.join().expect("no panic");
    match deep.and_then(|deep| Ok((deep, long()?))) {
        Err(fault) => {
            println!("run_limits: {fault}");
            ExitCode::FAILURE
        }
        Ok(((count, longest), (names, texts))) => {
            println!(
                "run_limits: {count} deepest functions of up to {longest} steps on a stack of 1 MiB, \
                 0 differ; long names {names:.0} ns a step, long texts {texts:.0}"
            );
            ExitCode::SUCCESS
        }
    }
}
