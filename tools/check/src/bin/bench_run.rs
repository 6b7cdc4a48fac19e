//! `bench_run`: whole calls of `rl_run` and of the independent runner, both
//! from the image's bytes and with the largest budget, in one run.

use check::ffi;
use check::timing::measure;
use rlimg::code::{self, Code};
use rlimg::encode::encode;
use rlimg::image::{Image, EXPRESSION_HEIGHT, WORK};
use rlimg::run::{answer, same_nan, Call, BUDGET, OUTCOME};
use std::hint::black_box;

const PLUS: u16 = 1;
const MINUS: u16 = 2;
const LESS: u16 = 8;

fn main() {
    println!("whole calls from the bytes, {BUDGET} steps each; ns a step");
    println!("{:<28}{:>8}{:>12}{:>14}{:>8}", "body", "bytes", "ours", "independent", "ratio");
    row("counting", &counting());
    row("expression of height 68", &tall());
    row("branches and assignments", &branches());
}

fn row(name: &str, image: &Image) {
    let bytes = encode(image);
    let (words, budget) = (vec![1, 0], BUDGET);
    let call = Call { work: WORK, function: 0, words, budget };
    let (mut work, mut outcome) = (vec![0; WORK], [0; OUTCOME]);
    let mut run = |bytes: &[u8]| {
        let answer = ffi::run(bytes, &mut work, 0, &call.words, BUDGET, &mut outcome);
        assert_eq!(answer.number, 0);
        same_nan(outcome)
    };
    let theirs = answer(&bytes, &call).expect("no refusal");
    assert_eq!(theirs[..2], [4, u64::from(BUDGET)], "all of the budget");
    assert_eq!(run(&bytes), theirs);
    let mut ours = || _ = black_box(run(black_box(&bytes)));
    let mut theirs = || _ = black_box(answer(black_box(&bytes), &call));
    let times = measure([&mut ours, &mut theirs]);
    let [ours, theirs] = times.map(|time| time / f64::from(BUDGET));
    println!("{name:<28}{:>8}{ours:>12.1}{theirs:>14.1}{:>8.2}", bytes.len(), ours / theirs);
}

/// Adds a number to a name.
fn add(code: &mut Code, name: &str, value: i64) -> u16 {
    let sum = code.with(name, PLUS, value);
    code.set(name, sum)
}

/// while i < n { i = i + 1 }
fn counting() -> Image {
    code::image(&["i"], |code| {
        let condition = code.with("i", LESS, i64::MAX);
        let body = add(code, "i", 1);
        vec![code.while_loop(condition, &[body])]
    })
}

/// loop { i = 1 - (1 - (1 - ... i)) }
fn tall() -> Image {
    code::image(&["i"], |code| {
        let (one, mut node) = (code.integer(1), code.name("i"));
        for _ in 2..EXPRESSION_HEIGHT {
            node = code.binary(one, MINUS, node);
        }
        let body = code.set("i", node);
        vec![code.endless(&[body])]
    })
}

/// while i < n { i = i + 1; if phase < 1 { .. } else if phase < 2 { .. } else { .. } }
fn branches() -> Image {
    code::image(&["i"], |code| {
        let zero = code.integer(0);
        let declared = ["phase", "low", "high"].map(|name| code.declare(name, zero));
        let next = add(code, "phase", 1);
        let counted = [add(code, "low", 1), next];
        let [first, second] = [1, 2].map(|bound| code.with("phase", LESS, bound));
        let first = code.branch(Some(first), &counted);
        let kept = code.with("i", MINUS, 1);
        let counted = [code.declare("kept", kept), add(code, "high", 2), next];
        let second = code.branch(Some(second), &counted);
        let again = code.set("phase", zero);
        let last = code.branch(None, &[again]);
        let other = code.conditional(second, Some(last));
        let body = [add(code, "i", 1), code.conditional(first, Some(other))];
        let condition = code.with("i", LESS, i64::MAX);
        [&declared[..], &[code.while_loop(condition, &body)]].concat()
    })
}
