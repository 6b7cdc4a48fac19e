//! `bench_read`: the library's `rl_read` and the independent reader on the
//! same images, in one run.

use check::ffi;
use check::images::typical;
use check::timing::measure;
use rlimg::builder::Builder;
use rlimg::edges;
use rlimg::encode::encode;
use rlimg::image::{Image, LIMITS, WORK};
use rlimg::reader;
use std::hint::black_box;

fn main() {
    println!("{:<34}{:>7}{:>13}{:>13}{:>8}", "image", "bytes", "ours ns", "Rust ns", "ratio");
    let images = [
        ("largest, long lists", edges::largest()),
        ("typical", typical(1)),
        ("4,096 expressions on one list", one_list()),
        ("2,048 texts of the same 16,384", one_text("service flow id\u{e9} ")),
        ("the same, all of it ASCII", one_text("service flow id ")),
        ("the same, none of it ASCII", one_text("\u{e9}")),
    ];
    for (name, image) in images {
        let bytes = encode(&image);
        agree(&bytes);
        let [ours, rust] = time(&bytes);
        let ratio = ours / rust;
        println!("{name:<34}{:>7}{ours:>13.0}{rust:>13.0}{ratio:>8.2}", bytes.len());
    }
}

/// Both readers accept the image with the same heights.
fn agree(image: &[u8]) {
    let (mut ours, mut rust) = (vec![1; WORK], vec![2; WORK]);
    assert_eq!(ffi::read(image, &mut ours).number, 0);
    assert!(reader::read_into(image, &mut rust).is_ok());
    assert_eq!(ours, rust);
}

/// Nanoseconds a call of the library and of the independent reader.
fn time(image: &[u8]) -> [f64; 2] {
    let (mut ours, mut rust) = (vec![0; WORK], vec![0; WORK]);
    measure([&mut || _ = black_box(ffi::read(black_box(image), &mut ours)), &mut || {
        _ = black_box(reader::read_into(black_box(image), &mut rust))
    }])
}

/// All expressions but the first are arrays of the same 4,096 entries.
fn one_list() -> Image {
    let mut builder = Builder::new(1);
    let first = builder.node(0, "Null", &[]);
    let list = builder.list(&vec![first; LIMITS[2]]);
    for _ in 1..LIMITS[3] {
        builder.node(0, "ArrayLiteral", &[list]);
    }
    builder.image
}

/// Every text is the whole raw text, which repeats some characters.
fn one_text(characters: &str) -> Image {
    let mut builder = Builder::new(1);
    builder.image.text = characters.bytes().cycle().take(LIMITS[0]).collect();
    let whole = (0, LIMITS[0] as u16);
    builder.image.texts = vec![whole; LIMITS[1]];
    builder.image
}
