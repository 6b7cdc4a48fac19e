//! `bench_texts`: comparing texts byte by byte and by words, in one run: long
//! and short ones, and names each with each.

use check::texts::{less_bytes, less_text, same_bytes, same_text, wrong};
use check::timing::measure_ratio;
use rlimg::image::LIMITS;
use rlimg::rng::Rng;
use std::hint::black_box;
use std::ops::RangeInclusive;

/// The bytes of a buffer, as many as an image has for its texts.
const ROOM: usize = LIMITS[0];
const LONG: usize = 16_000;
/// Where the right one of two texts starts in its buffer.
const RIGHT: usize = ROOM - LONG;
/// Two texts are compared so often in a pass.
const TIMES: usize = 256;
const NAMES: usize = 64;
/// How the names begin; the rest, at least so many bytes, is digits.
const PREFIXES: [&str; 4] = ["cm", "cm-ring-", "modem-north-", "modem-north-ring-"];
const DIGITS: usize = 3;

/// What a form says of two texts.
trait Form: Fn(&[u8], &[u8]) -> bool + Copy {}

impl<F: Fn(&[u8], &[u8]) -> bool + Copy> Form for F {}

/// Both forms, each of its own type, so that each has a pass that calls it
/// directly: through one pointer to either, short texts have another ratio in
/// every run.
#[derive(Clone, Copy)]
struct Forms<B, W> {
    bytes: B,
    words: W,
}

fn main() {
    Forms { bytes: same_bytes, words: same_text }.table("same");
    Forms { bytes: less_bytes, words: less_text }.table("less");
}

impl<B: Form, W: Form> Forms<B, W> {
    fn table(self, name: &str) {
        println!("{name}; ns a comparison");
        println!("{:<44}{:>12}{:>12}{:>8}", "texts", "bytes", "words", "ratio");
        self.one_buffer([0, RIGHT]);
        self.one_buffer([3, RIGHT - 4]);
        for (place, at) in [("first", 0), ("ninth", 8), ("last", LONG - 1)] {
            self.apart(LONG, place, at);
        }
        for length in [20, 5] {
            self.equal(length);
            self.apart(length, "last", length - 1);
            self.apart(length, "first", 0);
        }
        self.names("5", 5..=5);
        self.names("5 to 20", 5..=20);
    }

    /// Equal long texts at two offsets of one buffer.
    fn one_buffer(self, offsets: [usize; 2]) {
        let buffer = [b'a'; ROOM];
        let texts = offsets.map(|offset| &buffer[offset..offset + LONG]);
        let [left, right] = offsets;
        self.pair(&format!("{LONG} bytes, equal, at {left} and {right}"), texts);
    }

    fn equal(self, length: usize) {
        let buffer = [b'a'; ROOM];
        let texts = [&buffer[..length], &buffer[RIGHT..RIGHT + length]];
        self.pair(&format!("{length} bytes, equal"), texts);
    }

    /// The left text has a larger byte at the place.
    fn apart(self, length: usize, place: &str, at: usize) {
        let buffer = [b'a'; ROOM];
        let mut other = buffer;
        other[at] = b'b';
        let texts = [&other[..length], &buffer[RIGHT..RIGHT + length]];
        self.pair(&format!("{length} bytes, {place} byte apart"), texts);
    }

    fn pair(self, what: &str, [left, right]: [&[u8]; 2]) {
        self.row(what, &[left], &[right; TIMES]);
    }

    fn names(self, what: &str, lengths: RangeInclusive<usize>) {
        let names = names(lengths);
        let buffer = names.concat();
        let mut rest = &buffer[..];
        let mut texts = Vec::new();
        for name in &names {
            let (text, behind) = rest.split_at(name.len());
            texts.push(text);
            rest = behind;
        }
        let what = format!("{NAMES} names of {what} bytes, each with each");
        self.row(&what, &texts, &texts);
    }

    /// Compares each left text with each right one.
    fn row(self, what: &str, left: &[&[u8]], right: &[&[u8]]) {
        for (a, b) in left.iter().flat_map(|a| right.iter().map(move |b| (a, b))) {
            assert_eq!(wrong(a, b), None, "{what}");
        }
        let mut bytes = || _ = black_box(pass(self.bytes, left, right));
        let mut words = || _ = black_box(pass(self.words, left, right));
        let (times, ratio) = measure_ratio([&mut bytes, &mut words]);
        let [bytes, words] = times.map(|time| time / (left.len() * right.len()) as f64);
        println!("{what:<44}{bytes:>12.2}{words:>12.2}{ratio:>8.2}");
    }
}

/// Different names that begin alike.
fn names(lengths: RangeInclusive<usize>) -> Vec<Vec<u8>> {
    let mut rng = Rng::new(1);
    let mut names: Vec<Vec<u8>> = Vec::new();
    while names.len() < NAMES {
        let length = lengths.start() + rng.below(lengths.clone().count());
        let mut name = rng.pick(&PREFIXES).as_bytes().to_vec();
        name.truncate(length - DIGITS);
        name.resize_with(length, || rng.pick(b"0123456789"));
        if !names.contains(&name) {
            names.push(name);
        }
    }
    names
}

/// Of how many pairs the form holds.
#[inline(never)]
fn pass(form: impl Form, left: &[&[u8]], right: &[&[u8]]) -> usize {
    let (left, right) = (black_box(left), black_box(right));
    let holds = |a: &[u8]| right.iter().filter(|b| form(a, b)).count();
    left.iter().map(|a| holds(a)).sum()
}
