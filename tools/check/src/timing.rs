//! How the benchmarks measure.

use std::time::{Duration, Instant};

const ROUNDS: usize = 15;
const ROUND: Duration = Duration::from_millis(20);
/// The rounds of two tasks that are held against each other: more of them, and
/// shorter, so that both of a pair have the same machine.
const PAIRS: usize = 41;
const PAIRED: Duration = Duration::from_millis(4);
/// A task that takes so long is measured by one run.
const LONG: Duration = Duration::from_millis(200);

/// Nanoseconds a run of each task: medians of several interleaved rounds.
pub fn measure<const N: usize>(tasks: [&mut dyn FnMut(); N]) -> [f64; N] {
    times(tasks, ROUNDS, ROUND).map(median)
}

/// Nanoseconds a run of both tasks, and the first's time divided by the
/// second's: medians, that of the quotients over neighbouring rounds.
pub fn measure_ratio(tasks: [&mut dyn FnMut(); 2]) -> ([f64; 2], f64) {
    let times = times(tasks, PAIRS, PAIRED);
    let ratios = times[0].iter().zip(&times[1]).map(|(first, second)| first / second).collect();
    (times.map(median), median(ratios))
}

/// Nanoseconds a run of each task in each of so many interleaved rounds, which
/// take about so long.
fn times<const N: usize>(
    mut tasks: [&mut dyn FnMut(); N],
    rounds: usize,
    round: Duration,
) -> [Vec<f64>; N] {
    let runs = tasks.each_mut().map(|task| {
        let (start, mut runs) = (Instant::now(), 0);
        while start.elapsed() < round {
            task();
            runs += 1;
        }
        runs
    });
    let mut times = [(); N].map(|()| Vec::new());
    for _ in 0..rounds {
        for (which, task) in tasks.iter_mut().enumerate() {
            let start = Instant::now();
            for _ in 0..runs[which] {
                task();
            }
            times[which].push(start.elapsed().as_nanos() as f64 / f64::from(runs[which]));
        }
    }
    times
}

/// Nanoseconds a run of a task that may take very long.
pub fn measure_one(task: &mut dyn FnMut()) -> f64 {
    let start = Instant::now();
    task();
    let once = start.elapsed();
    if once > LONG {
        return once.as_nanos() as f64;
    }
    let [time] = measure([task]);
    time
}

fn median(mut times: Vec<f64>) -> f64 {
    times.sort_by(f64::total_cmp);
    times[times.len() / 2]
}
