//! The small constants SUInt, Byte, SByte, BByte and BSByte: what each kind
//! holds, and the values at which one is easily read as another.

use crate::builder::Builder;
use crate::fold;
use crate::image::{Record, Value};
use crate::rng::Rng;
use crate::schema::{self, Section};
use std::ops::RangeInclusive;

/// Each kind by its name, with the whole numbers that it holds.
pub static KINDS: [(&str, RangeInclusive<i64>); 5] = [
    ("SUInt", 0..=4_294_967_295),
    ("Byte", 0..=255),
    ("SByte", -128..=127),
    ("BByte", 0..=65_535),
    ("BSByte", -32_768..=32_767),
];

/// The ends of these ranges, and of narrower and of signed ones.
pub const LIMITS: [i64; 13] = [
    0,
    -1,
    127,
    128,
    255,
    -128,
    32_767,
    32_768,
    65_535,
    -32_768,
    2_147_483_647,
    2_147_483_648,
    4_294_967_295,
];

/// The name of a kind, and a whole number that it holds.
pub type Small = (&'static str, i64);

/// Each kind with each limit that it holds.
pub fn all() -> Vec<Small> {
    LIMITS.iter().flat_map(|limit| holding(*limit)).collect()
}

/// The value by each kind that holds it.
pub fn holding(value: i64) -> Vec<Small> {
    let kinds = KINDS.iter().filter(|(_, range)| range.contains(&value));
    kinds.map(|(name, _)| (*name, value)).collect()
}

/// A limit of a kind, each kind as often as another.
pub fn any(rng: &mut Rng) -> Small {
    let (name, range) = &KINDS[rng.below(KINDS.len())];
    let limits: Vec<i64> = LIMITS.into_iter().filter(|limit| range.contains(limit)).collect();
    (name, rng.pick(&limits))
}

/// The bits of its record: the low ones of the value, as many as the kind has.
pub fn bits((name, value): Small) -> u64 {
    let row = schema::of_name(Section::Expression, name).expect("a kind of the format");
    value as u64 & (u64::MAX >> (64 - 8 * row.sorts[1].width()))
}

/// Its record.
pub fn node(builder: &mut Builder, span: u32, small: Small) -> u16 {
    builder.node(span, small.0, &[Value::Number(bits(small))])
}

/// The kind of what stands beside one, by its name; a NaN has one of its own.
pub fn beside(record: &Record) -> &'static str {
    match record.kind {
        27 if f64::from_bits(record.number(1)).is_nan() => "NaN",
        kind => schema::of_kind(kind).expect("a kind of the format").name,
    }
}

/// The small constant that a record is.
pub fn of(record: &Record) -> Option<Small> {
    let row = schema::of_kind(record.kind).filter(|row| matches!(row.kind, 20..=24))?;
    Some((row.name, fold::whole(record)?))
}
