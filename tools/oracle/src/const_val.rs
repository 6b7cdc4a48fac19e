//! What the original folds an expression to.

use rlimg::image::Image;

/// A folded value; a float by its bits, so that a zero has its sign.
#[derive(Debug, Clone, PartialEq, Eq)]
pub enum ConstVal {
    Int(i64),
    Float(u64),
    Str(Vec<u8>),
    Bool(bool),
}

/// Whether the two words of a lent slice are this value, or none: texts by
/// their bytes, floats by their bits, and all NaN as one.
pub fn same_value(image: &Image, words: [u64; 2], value: &Option<ConstVal>) -> bool {
    let [sort, payload] = words;
    let Some(value) = value else {
        return words == [0, 0];
    };
    match (sort, value) {
        (1, ConstVal::Int(value)) => payload as i64 == *value,
        (2, ConstVal::Float(bits)) => payload == *bits || is_nan(payload) && is_nan(*bits),
        (3, ConstVal::Str(bytes)) => {
            let text = u16::try_from(payload).ok().and_then(|text| image.text_of(text));
            text == Some(bytes)
        }
        (4, ConstVal::Bool(value)) => payload == u64::from(*value),
        _ => false,
    }
}

fn is_nan(bits: u64) -> bool {
    f64::from_bits(bits).is_nan()
}
