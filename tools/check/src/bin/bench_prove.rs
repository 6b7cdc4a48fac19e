//! `bench_prove`: proving all calls of an image by the library's
//! `rl_prove_all` and by the original, in one run; then the library alone on
//! images that ask for much work.

use check::images::{full, typical};
use check::timing::{measure, measure_one};
use check::{ffi, said};
use oracle::{Original, HERE, NOT_HERE};
use rlimg::decode::decode;
use rlimg::encode::encode;
use rlimg::hostile;
use rlimg::image::{Image, LIMITS, WORK};
use std::hint::black_box;

/// Enough for all reports of one call.
const ROOM: usize = 4 * (LIMITS[5] + LIMITS[6]);
/// A larger image is not tried after one that took so many nanoseconds.
const TOO_LONG: f64 = 2e9;

fn main() {
    if !HERE {
        println!("{NOT_HERE}");
    }
    println!("all calls, from the bytes; ns");
    let columns =
        ["bytes", "reports", "reading", "ours", "original", "ratio", "its proving", "ratio"];
    print!("{:<18}", "image");
    columns[..if HERE { 8 } else { 4 }].iter().for_each(|column| print!("{column:>12}"));
    println!();
    row("typical", &typical(3));
    row("full", &full());
    println!("\nours alone; ns");
    fold("fold: deep, unshared", &hostile::deep_tree());
    fold("fold: x + x, height 68", &hostile::doubled(68));
    prove("prove: x + x as condition", &hostile::doubled(68), 0);
    prove("prove: x + x as argument", &hostile::doubled(68), 1);
    prove("prove: worst call", &hostile::worst_call(), 0);
    growing("prove: long names", hostile::long_names);
    growing("prove: long texts", hostile::long_texts);
}

/// Times of the library, of its reading alone and of the original.
fn row(name: &str, image: &Image) {
    let bytes = encode(image);
    let (mut work, mut reports) = (vec![0; WORK], vec![0; LIMITS[8] * ROOM]);
    let count = ffi::prove_all(&bytes, &mut work, &mut reports).place as usize;
    reports.truncate(4 * count);
    let mut read = || _ = black_box(ffi::read(black_box(&bytes), &mut work));
    let [reading] = measure([&mut read]);
    print!("{name:<18}{:>12}{count:>12}{reading:>12.0}", bytes.len());
    let mut slice = reports.clone();
    let mut ours = || _ = black_box(ffi::prove_all(black_box(&bytes), &mut work, &mut slice));
    if !HERE {
        let [ours] = measure([&mut ours]);
        return println!("{ours:>12.0}");
    }
    let mut built = Original::new(image);
    agree(image, &reports, &mut built);
    let mut original = || _ = black_box(from_bytes(black_box(&bytes)));
    let mut proving = || _ = black_box(built.reports());
    let [ours, original, proving] = measure([&mut ours, &mut original, &mut proving]);
    print!("{ours:>12.0}{original:>12.0}{:>12.2}", ours / original);
    println!("{proving:>12.0}{:>12.2}", ours / proving);
}

/// The original's reports, from the same bytes.
fn from_bytes(bytes: &[u8]) -> Vec<oracle::Report> {
    Original::new(&decode(bytes).expect("an accepted image")).reports()
}

/// The library and the original have the same reports, and some.
fn agree(image: &Image, reports: &[u32], original: &mut Original) {
    let ours: Option<Vec<oracle::Report>> =
        reports.chunks(4).map(|report| said(image, report)).collect();
    assert!(!reports.is_empty());
    assert_eq!(ours, Some(original.reports()));
}

fn print_time(name: &str, bytes: &[u8], time: f64) {
    println!("{name:<34}{:>8}{time:>16.0}", bytes.len());
}

/// Folds the last node.
fn fold(name: &str, image: &Image) {
    let bytes = encode(image);
    let node = image.counts()[3] as u32 - 1;
    let (mut work, mut value) = (vec![0; WORK], [0; 2]);
    let time = measure_one(&mut || {
        black_box(ffi::fold(black_box(&bytes), &mut work, image.arena, node, &mut value));
    });
    assert_ne!(value[0], 0, "{name}: no value");
    print_time(name, &bytes, time);
}

/// Proves a call; gives its time.
fn prove(name: &str, image: &Image, call: u32) -> f64 {
    let bytes = encode(image);
    let (mut work, mut reports) = (vec![0; WORK], [0; ROOM]);
    let mut count = 0;
    let time = measure_one(&mut || {
        count = ffi::prove(black_box(&bytes), &mut work, call, &mut reports).place;
    });
    assert_ne!(count, 0, "{name}: no reports");
    print_time(name, &bytes, time);
    time
}

/// Proves ever larger calls, as long as it does not take too long.
fn growing(name: &str, image: fn(usize) -> Image) {
    let mut time = 0.0;
    for count in [1, 4, 16, 64, 256, 1_024] {
        let name = format!("{name}, {count}");
        if time > TOO_LONG {
            return println!("{name}: not tried");
        }
        time = prove(&name, &image(count), 0);
    }
}
