//! Damaged copies of images, and values at the edges of each field.

use crate::encode::{self, What};
use crate::image::{Image, Value, LIMITS, NONE, WORK};
use crate::rng::Rng;
use crate::schema::{Section, Sort};

/// Byte sequences that no UTF-8 text contains: lone and missing continuation
/// bytes, overlong forms, surrogates, values above U+10FFFF, unused bytes.
pub const NOT_UTF8: [&[u8]; 24] = [
    &[0x80],
    &[0xbf],
    &[0xc0, 0x80],
    &[0xc1, 0xbf],
    &[0xc2],
    &[0xc2, 0x7f],
    &[0xc2, 0xc0],
    &[0xdf, 0x20],
    &[0xe0, 0x80, 0x80],
    &[0xe0, 0x9f, 0xbf],
    &[0xe0, 0xa0],
    &[0xe2, 0x82],
    &[0xe2, 0x28, 0xa1],
    &[0xed, 0xa0, 0x80],
    &[0xed, 0xbf, 0xbf],
    &[0xef, 0xbf, 0xc0],
    &[0xf0, 0x80, 0x80, 0x80],
    &[0xf0, 0x8f, 0xbf, 0xbf],
    &[0xf0, 0x9f, 0x98],
    &[0xf1, 0x80, 0x80, 0x41],
    &[0xf4, 0x90, 0x80, 0x80],
    &[0xf5, 0x80, 0x80, 0x80],
    &[0xfe],
    &[0xff],
];

/// Kind bytes at and around the edges of the sections.
const KINDS: [u8; 22] =
    [0, 1, 2, 3, 4, 15, 16, 35, 57, 58, 63, 64, 68, 69, 76, 79, 80, 81, 82, 83, 84, 255];

/// A copy of the image with some damage, which may leave it accepted.
pub fn damage(rng: &mut Rng, image: &Image) -> Vec<u8> {
    let mut bytes = encode::encode(image);
    match rng.below(10) {
        0 => bytes.truncate(rng.below(bytes.len())),
        1 => (0..1 + rng.below(3)).for_each(|_| change(rng, &mut bytes)),
        2 => bytes.extend(vec![rng.number() as u8; 1 + rng.below(4)]),
        3 => damage_text(rng, image, &mut bytes),
        _ => {
            let places = encode::places(image);
            for _ in 0..1 + rng.below(12) / 10 {
                let (at, what) = rng.pick(&places);
                let values = edge_values(image, at, what);
                if !values.is_empty() {
                    let value = &values[rng.below(values.len())];
                    overwrite(&mut bytes, at, value);
                }
            }
        }
    }
    bytes
}

/// Lengths of a work slice, most of them enough.
pub fn work_length(rng: &mut Rng) -> usize {
    let any = rng.below(WORK);
    let most = [WORK, WORK, WORK, WORK + 1, 9_000, 9_000 + any];
    if rng.one_in(12) {
        return rng.pick(&[0, 1, any, WORK - 1]);
    }
    rng.pick(&most)
}

fn change(rng: &mut Rng, bytes: &mut [u8]) {
    let at = rng.below(bytes.len());
    let any = rng.number() as u8;
    let old = bytes[at];
    bytes[at] = rng.pick(&[any, any, old.wrapping_add(1), old.wrapping_sub(1), old ^ 0x80]);
}

/// Puts a bad sequence, or any byte, somewhere into the raw text.
fn damage_text(rng: &mut Rng, image: &Image, bytes: &mut [u8]) {
    if image.text.is_empty() {
        return change(rng, bytes);
    }
    let at = 23 + rng.below(image.text.len());
    let end = 23 + image.text.len();
    let bad = rng.pick(&NOT_UTF8);
    let any = [rng.number() as u8];
    let new = if rng.one_in(3) { &any } else { bad };
    let fits = new.len().min(end - at);
    overwrite(bytes, at, &new[..fits]);
}

pub fn overwrite(bytes: &mut [u8], at: usize, new: &[u8]) {
    bytes[at..at + new.len()].copy_from_slice(new);
}

/// The bytes of values at the edges of what may stand at a place.
pub fn edge_values(image: &Image, at: usize, what: What) -> Vec<Vec<u8>> {
    let counts = image.counts();
    match what {
        What::Count(position) => {
            let (limit, count) = (LIMITS[position] as u16, counts[position] as u16);
            let near = [limit + 1, limit, NONE, count + 1, count.saturating_sub(1)];
            near.iter().map(|count| count.to_le_bytes().to_vec()).collect()
        }
        What::RawText => Vec::new(),
        What::Kind => KINDS.iter().map(|kind| vec![*kind]).collect(),
        What::TextRange => text_ranges(image, (at - 24 - image.text.len()) / 5),
        What::Entry => {
            let near = [0, counts[1], counts[3], counts[4], counts[3] / 2, 65_535];
            near.iter().map(|entry| (*entry as u16).to_le_bytes().to_vec()).collect()
        }
        What::Field(section, index, sort) => {
            let values = field_values(image, section, index, sort);
            values.into_iter().map(|value| bytes_of(sort, value)).collect()
        }
    }
}

fn bytes_of(sort: Sort, value: Value) -> Vec<u8> {
    let mut bytes = Vec::new();
    encode::push(&mut bytes, sort, value);
    bytes
}

fn text_ranges(image: &Image, index: usize) -> Vec<Vec<u8>> {
    let (offset, length) = image.texts[index];
    let all = image.text.len() as u16;
    let ranges = [
        (offset, length + 1),
        (offset, length.saturating_sub(1)),
        (offset + 1, length),
        (offset + 1, length.saturating_sub(1)),
        (0, all),
        (0, all + 1),
        (all, 0),
        (all + 1, 0),
        (all, 1),
        (1, NONE),
        (NONE, NONE),
    ];
    let bytes = |(offset, length)| bytes_of(Sort::Nodes, Value::Range(offset, length));
    ranges.into_iter().map(bytes).collect()
}

fn field_values(image: &Image, section: Section, index: usize, sort: Sort) -> Vec<Value> {
    let texts = image.texts.len() as u64;
    let own = |wanted| match section == wanted {
        true => index as u64,
        false => image.of(wanted).len() as u64,
    };
    let numbers = match sort {
        Sort::Text => vec![texts, texts.saturating_sub(1), 65_535],
        Sort::Node | Sort::NodeOrNone => {
            let end = own(Section::Expression);
            vec![end, end + 1, end.saturating_sub(1), 65_535, 65_534]
        }
        Sort::Inner | Sort::Branch | Sort::ElseBranch => {
            let end = own(Section::Statement);
            let mut values = vec![end, end + 1, end.saturating_sub(1), 65_535, 65_534];
            values.extend(one_of_each_kind(image));
            values
        }
        Sort::Bool => vec![2, 255, 0, 1],
        Sort::Operator => vec![0, 64, 255, 1, 63],
        Sort::Refinement => vec![7, 0, 255, 1, 6],
        Sort::OperandSort => vec![5, 0, 255, 1, 2, 3, 4],
        Sort::Operand => vec![texts, 1, 2, 65_535, 256, 1 << 16, 1 << 56, u64::MAX, 0],
        Sort::Scalar => vec![0xd800, 0x110000, 0xdfff, 0xd7ff, 0xe000, 0x10ffff, 0xffff_ffff],
        Sort::Parameters => return ranges(image.of(Section::Parameter).len()),
        Sort::Clauses => return ranges(image.of(Section::Clause).len()),
        _ if sort.is_list() => return ranges(image.entries.len()),
        _ => vec![0, u64::MAX],
    };
    numbers.into_iter().map(Value::Number).collect()
}

/// The first statement of each kind that there is.
fn one_of_each_kind(image: &Image) -> Vec<u64> {
    let statements = image.of(Section::Statement);
    let first = |kind| statements.iter().position(|record| record.kind == kind);
    (64..80).filter_map(first).map(|index| index as u64).collect()
}

/// Ranges at and past the end of a section of that size.
fn ranges(size: usize) -> Vec<Value> {
    let end = size as u16;
    let ranges = [
        (0, end + 1),
        (end + 1, 0),
        (end, 1),
        (end, 0),
        (0, end),
        (end.saturating_sub(1), 1),
        (0, 1),
        (0, 2),
        (0, 0),
        (1, NONE),
        (NONE, NONE),
    ];
    ranges.map(|(first, count)| Value::Range(first, count)).to_vec()
}
