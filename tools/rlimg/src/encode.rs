//! From the abstract image to bytes, with the place of every field.

use crate::image::{Image, Value};
use crate::schema::{self, Section, Sort, SECTIONS};

/// What stands at a place.
#[derive(Debug, Clone, Copy, PartialEq, Eq)]
pub enum What {
    /// The header's count with this position.
    Count(usize),
    RawText,
    /// The kind byte of any record.
    Kind,
    /// Offset and length of a text.
    TextRange,
    /// The number in a list entry.
    Entry,
    /// A field of the record with this number in its section.
    Field(Section, usize, Sort),
}

pub fn encode(image: &Image) -> Vec<u8> {
    encode_marking(image, |_, _| ())
}

/// Every place of an image, in order.
pub fn places(image: &Image) -> Vec<(usize, What)> {
    let mut places = Vec::new();
    encode_marking(image, |at, what| places.push((at, what)));
    places
}

fn encode_marking(image: &Image, mut mark: impl FnMut(usize, What)) -> Vec<u8> {
    let mut bytes = Vec::new();
    mark(0, What::Kind);
    bytes.push(1);
    bytes.extend(image.arena.to_le_bytes());
    for (position, count) in image.counts().into_iter().enumerate() {
        mark(bytes.len(), What::Count(position));
        bytes.extend((count as u16).to_le_bytes());
    }
    mark(bytes.len(), What::RawText);
    bytes.extend(&image.text);
    for (offset, length) in &image.texts {
        mark(bytes.len(), What::Kind);
        bytes.push(2);
        mark(bytes.len(), What::TextRange);
        bytes.extend(offset.to_le_bytes());
        bytes.extend(length.to_le_bytes());
    }
    for entry in &image.entries {
        mark(bytes.len(), What::Kind);
        bytes.push(3);
        mark(bytes.len(), What::Entry);
        bytes.extend(entry.to_le_bytes());
    }
    for section in SECTIONS {
        for (index, record) in image.of(section).iter().enumerate() {
            let row = schema::of_kind(record.kind).expect("a kind of the format");
            mark(bytes.len(), What::Kind);
            bytes.push(record.kind);
            for (sort, value) in row.sorts.iter().zip(&record.values) {
                mark(bytes.len(), What::Field(section, index, *sort));
                push(&mut bytes, *sort, *value);
            }
        }
    }
    bytes
}

/// Appends a field.
pub fn push(bytes: &mut Vec<u8>, sort: Sort, value: Value) {
    match value {
        Value::Number(number) => bytes.extend(&number.to_le_bytes()[..sort.width()]),
        Value::Range(first, count) => {
            bytes.extend(first.to_le_bytes());
            bytes.extend(count.to_le_bytes());
        }
    }
}
