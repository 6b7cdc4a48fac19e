//! `bench_pages`: the pages of all reports of an image by the library's
//! `rl_pages` and by the independent way in plain Rust, in one run, beside
//! `rl_prove_all`, which is what it does before it prints.

use check::ffi;
use check::images::{full, typical};
use check::timing::measure;
use rlimg::encode::encode;
use rlimg::image::{Image, LIMITS, WORK};
use rlimg::pages::images::widest;
use rlimg::pages::{of_reports, pages, LINES, PAGE_BYTES};
use rlimg::prove;
use rlimg::schema::Section;
use std::hint::black_box;

/// Enough for all reports of all calls.
const ROOM: usize = 4 * LIMITS[8] * (LIMITS[5] + LIMITS[6]);
/// So many calls of the widest image have about as many reports as the full one.
const WIDE: usize = 3;

fn main() {
    println!("all reports, from the bytes; ns");
    let columns = [
        "bytes",
        "reports",
        "on pages",
        "proving",
        "ours",
        "independent",
        "ratio",
        "printing",
        "its printing",
        "ratio",
    ];
    print!("{:<18}", "image");
    columns.iter().for_each(|column| print!("{column:>13}"));
    println!();
    row("typical", &typical(3));
    row("full", &full());
    let mut wide = widest();
    wide.of_mut(Section::Call).truncate(WIDE);
    row("widest, 3 calls", &wide);
}

/// Times of the library, of its proving alone, of the independent way and of its
/// printing alone. Ours is what is more than proving.
fn row(name: &str, image: &Image) {
    let bytes = encode(image);
    let (mut work, mut reports) = (vec![0; WORK], vec![0; ROOM]);
    let count = ffi::prove_all(&bytes, &mut work, &mut reports).place as usize;
    reports.truncate(4 * count);
    let mut slice = vec![0; PAGE_BYTES * count.div_ceil(LINES)];
    let length = ffi::pages(&bytes, &mut work, &mut slice).place as usize;
    slice.truncate(length);
    agree(&bytes, &slice);
    let (mut work_too, known) = (work.clone(), prove::reports(image));
    let mut proving =
        || _ = black_box(ffi::prove_all(black_box(&bytes), &mut work_too, &mut reports));
    let mut ours = || _ = black_box(ffi::pages(black_box(&bytes), &mut work, &mut slice));
    let mut independent = || _ = black_box(pages(black_box(&bytes)));
    let mut printing = || _ = black_box(of_reports(black_box(image), black_box(&known)));
    let tasks: [&mut dyn FnMut(); 4] = [&mut proving, &mut ours, &mut independent, &mut printing];
    let [proving, ours, independent, its_printing] = measure(tasks);
    let printing = ours - proving;
    print!("{name:<18}{:>13}{count:>13}{length:>13}{proving:>13.0}{ours:>13.0}", bytes.len());
    print!("{independent:>13.0}{:>13.2}", ours / independent);
    println!("{printing:>13.0}{its_printing:>13.0}{:>13.2}", printing / its_printing);
}

/// Both have the same pages, and some.
fn agree(bytes: &[u8], ours: &[u8]) {
    assert!(!ours.is_empty());
    assert_eq!(pages(bytes).as_deref(), Ok(ours));
}
