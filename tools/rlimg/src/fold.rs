//! What expressions fold to, written by hand from the rules: every node once,
//! in the image's order, so that a shared node costs no more than another.

use crate::image::{Image, Record};
use crate::schema::Section;
use std::collections::HashMap;
use Folded::{Bool, Float, Int, Str};

/// A folded value; a text by its number. The tag has a word of its own, so
/// that values are copied by words.
#[derive(Debug, Clone, Copy, PartialEq)]
#[repr(u64)]
pub enum Folded {
    Int(i64),
    Float(f64),
    Str(u16),
    Bool(bool),
}

/// The names that are bound, by their bytes.
pub type Names<'a> = HashMap<&'a [u8], Folded>;

/// The value of each expression of an accepted image under the names, where
/// it has one.
pub fn values(image: &Image, names: &Names) -> Vec<Option<Folded>> {
    first_values(image, names, image.of(Section::Expression).len())
}

/// The value of one of them.
pub fn value_of(image: &Image, names: &Names, node: u16) -> Option<Folded> {
    first_values(image, names, usize::from(node) + 1).pop()?
}

fn first_values(image: &Image, names: &Names, count: usize) -> Vec<Option<Folded>> {
    let mut values = Vec::with_capacity(count);
    for node in &image.of(Section::Expression)[..count] {
        let value = value(image, names, &values, node);
        values.push(value);
    }
    values
}

/// The value of a node, given those of all nodes before it.
fn value(image: &Image, names: &Names, before: &[Option<Folded>], node: &Record) -> Option<Folded> {
    let number = |position| node.number(position);
    let child = |position| before[node.number(position) as usize];
    match node.kind {
        17..=24 => whole(node).map(Int),
        25 => Some(Str(number(1) as u16)),
        26 => Some(Bool(number(1) == 1)),
        27 => Some(Float(f64::from_bits(number(1)))),
        28 => Some(Float(f64::from(f32::from_bits(number(1) as u32)))),
        30 => names.get(image.text_of(number(1) as u16)?).copied(),
        32 => binary(image, number(2), child(1)?, child(3)?),
        33 => unary(number(1), child(2)?),
        34 => child(1),
        _ => None,
    }
}

/// The whole number in a literal of one of the kinds 17 to 24; none in a UInt
/// that is too large.
pub fn whole(node: &Record) -> Option<i64> {
    let bits = node.number(1);
    match node.kind {
        17 => Some(bits as i64),
        18 => Some(i64::from(bits as i32)),
        19 => i64::try_from(bits).ok(),
        20 => Some(i64::from(bits as u32)),
        21 => Some(i64::from(bits as u8)),
        22 => Some(i64::from(bits as i8)),
        23 => Some(i64::from(bits as u16)),
        24 => Some(i64::from(bits as i16)),
        kind => panic!("kind {kind} has no whole number"),
    }
}

/// What a unary operator makes of a value.
pub fn unary(operator: u64, operand: Folded) -> Option<Folded> {
    match (operator, operand) {
        (2, Int(value)) => i64::try_from(-i128::from(value)).ok().map(Int),
        (2, Float(value)) => Some(Float(-value)),
        (5, Bool(value)) => Some(Bool(!value)),
        _ => None,
    }
}

/// What a binary operator makes of two values.
pub fn binary(image: &Image, operator: u64, left: Folded, right: Folded) -> Option<Folded> {
    match operator {
        1..=4 => arithmetic(operator, left, right),
        6..=11 => verdict(image, operator, left, right).map(Bool),
        _ => None,
    }
}

/// Whole numbers exactly or not at all, others as floats.
fn arithmetic(operator: u64, left: Folded, right: Folded) -> Option<Folded> {
    if let (Int(x), Int(y)) = (left, right) {
        let (x, y) = (i128::from(x), i128::from(y));
        let exact = match operator {
            1 => x + y,
            2 => x - y,
            3 => x * y,
            _ => x.checked_div(y)?,
        };
        return i64::try_from(exact).ok().map(Int);
    }
    let (x, y) = (left.number()?, right.number()?);
    if x.is_nan() || y.is_nan() || (operator == 4 && y == 0.0) {
        return None;
    }
    Some(Float(match operator {
        1 => x + y,
        2 => x - y,
        3 => x * y,
        _ => x / y,
    }))
}

/// What a comparing operator (6 to 11) says of two values.
pub fn verdict(image: &Image, operator: u64, left: Folded, right: Folded) -> Option<bool> {
    let order = match (left, right) {
        (Int(x), Int(y)) => x.cmp(&y),
        (Str(x), Str(y)) => image.text_of(x)?.cmp(image.text_of(y)?),
        // Truth values are equal or not, and have no order.
        (Bool(x), Bool(y)) if operator <= 7 => x.cmp(&y),
        _ => left.number()?.partial_cmp(&right.number()?)?,
    };
    Some(match operator {
        6 => order.is_eq(),
        7 => order.is_ne(),
        8 => order.is_lt(),
        9 => order.is_le(),
        10 => order.is_gt(),
        _ => order.is_ge(),
    })
}

/// A value as a lent slice has it, its sort first; zeros for none.
pub fn words(value: Option<Folded>) -> [u64; 2] {
    match value {
        None => [0, 0],
        Some(Int(value)) => [1, value as u64],
        Some(Float(value)) => [2, value.to_bits()],
        Some(Str(text)) => [3, u64::from(text)],
        Some(Bool(value)) => [4, u64::from(value)],
    }
}

impl Folded {
    /// The nearest float of a number, ties to even.
    fn number(self) -> Option<f64> {
        match self {
            Int(value) => Some(value as f64),
            Float(value) => Some(value),
            Str(_) | Bool(_) => None,
        }
    }
}
