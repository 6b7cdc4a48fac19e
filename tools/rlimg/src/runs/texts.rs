//! Listed functions to be run: each operator that compares between each two of
//! a list of texts, whose lengths and first bytes apart are around 8, 16 and 24,
//! and each of these texts as a name.

use crate::builder::Builder;
use crate::code::Code;
use crate::image::Image;
use std::ops::RangeInclusive;

/// The operators that compare.
pub const OPERATORS: RangeInclusive<u16> = 6..=11;
/// What the texts begin with, up to one of the lengths.
const ALIKE: &str = "abcdefghijklmnopqrstuvwxy";
const LENGTHS: [usize; 11] = [0, 1, 7, 8, 9, 15, 16, 17, 23, 24, 25];
/// Lengths, and places where the byte is less and all later bytes are greater.
const OTHER_WAY: [(usize, &[usize]); 2] = [(16, &[0, 7, 8]), (25, &[0, 7, 8, 16, 23])];
/// The same for a byte of 0x7f, and for a character of the bytes 0xc3 and 0xa9.
const HIGH: [(usize, &[usize]); 2] = [(7, &[0]), (17, &[0, 7, 8, 15])];

/// The texts, all different.
pub fn listed() -> Vec<String> {
    let mut all = vec!["\0".to_string(), format!("{}\0", &ALIKE[..8])];
    for length in LENGTHS {
        all.push(ALIKE[..length].to_string());
        let mut places = vec![0, 7, 8, length.saturating_sub(1)];
        places.retain(|place| *place < length);
        places.dedup();
        all.extend(places.into_iter().map(|place| with(length, place, "z")));
    }
    for (length, places) in OTHER_WAY {
        let later = |place: &usize| format!(" {}", "~".repeat(length - place - 1));
        all.extend(places.iter().map(|place| with(length, *place, &later(place))));
    }
    for (length, places) in HIGH {
        let high = |place: &usize| ["\x7f", "\u{e9}"].map(|high| with(length, *place, high));
        all.extend(places.iter().flat_map(high));
    }
    all
}

/// The start of that length, with other bytes at a place.
fn with(length: usize, place: usize, bytes: &str) -> String {
    [&ALIKE[..place], bytes, &ALIKE[place + bytes.len()..length]].concat()
}

/// Images of functions without parameters.
pub fn images() -> Vec<Image> {
    let texts = listed();
    let pairs =
        texts.iter().flat_map(|left| OPERATORS.map(|operator| of_left(left, operator, &texts)));
    pairs.chain([named(&texts)]).collect()
}

/// A function for the operator between a text and itself, and between it and
/// each text. Each has bytes of its own, so equal ones are at two offsets.
fn of_left(left: &str, operator: u16, rights: &[String]) -> Image {
    let mut code = Code::new(Builder::new(1));
    let (name, left) = (code.builder.text("f"), code.string(left));
    let mut nodes = vec![left];
    nodes.extend(rights.iter().map(|right| code.string(right)));
    for right in nodes {
        let node = code.binary(left, operator, right);
        let given = code.give(node);
        code.function_of(name, (0, 0), &[given]);
    }
    code.builder.image
}

/// A function for each text: all are declared, each with its number, and one is
/// given by another text of the same bytes.
fn named(texts: &[String]) -> Image {
    let mut code = Code::new(Builder::new(1));
    let function = code.builder.text("f");
    let mut body = Vec::new();
    for (number, text) in (0..).zip(texts) {
        let value = code.integer(number);
        body.push(code.declare(text, value));
    }
    for text in texts {
        let name = code.name(text);
        let given = code.give(name);
        code.function_of(function, (0, 0), &[&body[..], &[given]].concat());
    }
    code.builder.image
}
