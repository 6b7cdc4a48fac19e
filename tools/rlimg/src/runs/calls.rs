//! Calls that are refused.

use crate::image::{Image, WORK};
use crate::rng::Rng;
use crate::run::{Call, BUDGET};

/// Words that stand for no value.
const NO_VALUES: [[u64; 2]; 13] = [
    [0, 1],
    [8, 1],
    [16, u64::MAX],
    [4, 2],
    [12, (1 << 32) + 1],
    [20, u64::MAX],
    [5, 0],
    [7, 0],
    [13, 0],
    [21, 0],
    [24, 0],
    [1 << 32, 0],
    [u64::MAX, 0],
];

/// A copy of a call with one or two things about it that are refused.
pub fn broken(rng: &mut Rng, image: &Image, call: &Call) -> Call {
    let mut call = call.clone();
    for _ in 0..rng.pick(&[1, 1, 2]) {
        spoil(rng, image, &mut call);
    }
    call
}

fn spoil(rng: &mut Rng, image: &Image, call: &mut Call) {
    let (texts, functions) = (image.counts()[1] as u64, image.counts()[7] as u32);
    let count = call.words.len() / 2;
    match rng.below(16) {
        0 | 1 => {
            let past = [functions, functions + 1, functions + 0xffff, 1 << 31, u32::MAX];
            call.function = rng.pick(&past);
        }
        2 => call.words.extend([0, 0]),
        3 => call.words.truncate(2 * count.saturating_sub(1)),
        4 => call.words = vec![0; 34],
        5..=7 => {
            let low = rng.below(texts as usize + 1) as u64;
            let above = [1 << 16, 1 << 17, 1 << 32, 1 << 63].map(|above| low + above);
            let missing = [&above[..], &[texts, texts + 1, 65_534, 65_535, u64::MAX]].concat();
            let missing = [rng.pick(&[3, 11, 19]), rng.pick(&missing)];
            replace(rng, call, missing);
        }
        8 | 9 => call.budget = rng.pick(&[BUDGET + 1, BUDGET + 2, 1 << 31, u32::MAX]),
        10 => call.words.push(rng.pick(&[0, 1, 8])),
        11 | 12 => {
            let none = rng.pick(&NO_VALUES);
            replace(rng, call, none);
        }
        13 => _ = call.words.pop(),
        _ => call.work = rng.pick(&[0, 1, WORK - 1]),
    }
}

/// Puts two words in the place of a value, where there is one.
fn replace(rng: &mut Rng, call: &mut Call, words: [u64; 2]) {
    match call.words.len() / 2 {
        0 => call.words.extend(words),
        count => {
            let at = 2 * rng.below(count);
            call.words[at..at + 2].copy_from_slice(&words);
        }
    }
}
