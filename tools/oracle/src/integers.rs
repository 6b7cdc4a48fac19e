//! What the original is handed where it folds and reports.

use rlimg::image::{Image, Record, Value};
use rlimg::schema::{self, Section, Sort};
use std::borrow::Cow;

const INTEGER: u8 = 17;

/// The image with each SUInt, Byte, SByte, BByte and BSByte as the Integer of
/// the same whole number. The original folds those kinds to nothing; here they
/// fold, so it is handed what it folds alike. Lowering copies them, so there
/// it is handed the image as it is.
pub fn with_integers(image: &Image) -> Cow<'_, Image> {
    let is_small = |record: &Record| matches!(record.kind, 20..=24);
    if !image.of(Section::Expression).iter().any(is_small) {
        return Cow::Borrowed(image);
    }
    let mut handed = image.clone();
    for record in handed.of_mut(Section::Expression) {
        if is_small(record) {
            record.values[1] = Value::Number(extended(record));
            record.kind = INTEGER;
        }
    }
    Cow::Owned(handed)
}

/// The number in 64 bits: a signed one has its sign in all that are added.
fn extended(record: &Record) -> u64 {
    let sort = schema::of_kind(record.kind).expect("a kind of the format").sorts[1];
    let (bits, added) = (record.number(1), 64 - 8 * sort.width());
    match sort {
        Sort::Signed(_) => ((bits << added) as i64 >> added) as u64,
        _ => bits,
    }
}
