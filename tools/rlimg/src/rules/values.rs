//! Literals that fold: the edges of each sort, and values near a value.

use crate::builder::Builder;
use crate::image::Value;
use crate::rng::Rng;
use crate::small;
use Literal::{Bool, Float, Int, Str};

/// A literal, by the sort of its value.
#[derive(Debug, Clone, Copy, PartialEq)]
pub enum Literal {
    Int(i64),
    Float(f64),
    Str(&'static str),
    Bool(bool),
}

/// How many sorts of values there are.
pub const SORTS: usize = 4;

const INTEGERS: [i64; 46] = [
    0,
    1,
    -1,
    2,
    -2,
    7,
    -7,
    9,
    127,
    128,
    -128,
    -129,
    255,
    256,
    4_096,
    32_767,
    32_768,
    -32_768,
    -32_769,
    65_535,
    65_536,
    i32::MAX as i64,
    1 << 31,
    i32::MIN as i64,
    (1 << 32) - 1,
    1 << 32,
    3_037_000_499,
    3_037_000_500,
    -3_037_000_500,
    (1 << 53) - 1,
    1 << 53,
    (1 << 53) + 1,
    (1 << 53) + 3,
    -(1 << 53) - 1,
    (1 << 54) + 2,
    (1 << 54) + 6,
    1 << 62,
    (1 << 62) + 512,
    (1 << 62) + 1_536,
    i64::MAX - 512,
    i64::MAX - 511,
    i64::MAX - 1,
    i64::MAX,
    i64::MIN,
    i64::MIN + 1,
    i64::MIN + 512,
];

const FLOATS: [f64; 37] = [
    0.0,
    -0.0,
    0.1,
    0.2,
    0.3,
    0.1_f32 as f64,
    0.5,
    1.0,
    -1.0,
    1.0 + f64::EPSILON,
    f64::EPSILON,
    1.5,
    2.0,
    3.0,
    -7.0,
    4_096.0,
    9_007_199_254_740_992.0,
    9_007_199_254_740_994.0,
    9_223_372_036_854_774_784.0,
    9_223_372_036_854_775_808.0,
    -9_223_372_036_854_775_808.0,
    f32::MAX as f64,
    f32::MIN_POSITIVE as f64,
    f32::from_bits(1) as f64,
    1e200,
    -1e200,
    1e-200,
    f64::MAX,
    f64::MIN,
    f64::MIN_POSITIVE,
    f64::from_bits(0x000f_ffff_ffff_ffff),
    f64::from_bits(1),
    -f64::from_bits(1),
    f64::INFINITY,
    f64::NEG_INFINITY,
    f64::NAN,
    -f64::NAN,
];

/// Neighbours differ late, in length or by the order of their bytes alone.
const TEXTS: [&str; 20] = [
    "",
    "\0",
    "a\0",
    "a",
    "ab",
    "abc",
    "abd",
    "abcdefgh",
    "abcdefghi",
    "abcdefghj",
    "abcdefgi",
    "A",
    "b",
    "\u{e9}",
    "e\u{301}",
    "\u{ffff}",
    "\u{10000}",
    "flow id range",
    "say \"no\"",
    "two\nlines",
];

/// Arithmetic whose value, or whose lack of one, is easily missed.
pub const EDGES: [(Literal, u16, Literal); 13] = [
    (Int(i64::MIN), 4, Int(-1)),
    (Int(i64::MIN), 3, Int(-1)),
    (Int(i64::MAX), 1, Int(1)),
    (Int(i64::MIN), 2, Int(1)),
    (Int(0), 2, Int(i64::MIN)),
    (Int(-7), 4, Int(2)),
    (Int(7), 4, Int(0)),
    (Int(1), 4, Float(-0.0)),
    (Float(1.5), 4, Int(0)),
    (Float(f64::MIN_POSITIVE), 4, Int(3)),
    (Float(f64::from_bits(3)), 4, Int(2)),
    (Float(1e-160), 3, Float(1e-160)),
    // Half of the last place: the sum is infinite.
    (Float(f64::MAX), 1, Float(f64::from_bits(1_993 << 52))),
];

/// Arithmetic that gives a NaN, or meets one.
pub const NANS: [(Literal, u16, Literal); 7] = [
    (Float(f64::INFINITY), 1, Float(f64::NEG_INFINITY)),
    (Float(f64::INFINITY), 2, Float(f64::INFINITY)),
    (Float(0.0), 3, Float(f64::INFINITY)),
    (Float(f64::INFINITY), 3, Int(0)),
    (Float(f64::INFINITY), 4, Float(f64::INFINITY)),
    (Float(f64::NAN), 1, Int(1)),
    (Int(1), 3, Float(f64::NAN)),
];

/// The values at the edges of a sort.
pub fn literals(sort: usize) -> Vec<Literal> {
    match sort {
        0 => INTEGERS.map(Int).to_vec(),
        1 => FLOATS.map(Float).to_vec(),
        2 => TEXTS.map(Str).to_vec(),
        _ => [false, true].map(Bool).to_vec(),
    }
}

impl Literal {
    /// Any value of a sort, the edges often.
    pub fn any(rng: &mut Rng, sort: usize) -> Literal {
        let bits = rng.number();
        match (sort, rng.below(6)) {
            (0, 0) => Int(bits as i64 >> rng.below(64)),
            (0, 1) => Int(between_floats(rng)),
            (1, 0) => Float(f64::from_bits(bits)),
            (1, 1) => Float(moderate(bits)),
            _ => rng.pick(&literals(sort)),
        }
    }

    /// The value or one beside it.
    pub fn nudged(self, rng: &mut Rng) -> Literal {
        let by = rng.pick(&[0, 0, 1, -1]);
        match self {
            Int(value) => Int(value.wrapping_add(by)),
            Float(value) => Float(f64::from_bits(value.to_bits().wrapping_add_signed(by))),
            Str(text) => {
                let place = TEXTS.iter().position(|known| *known == text).unwrap_or(0) as i64;
                Str(TEXTS[(place + by).rem_euclid(TEXTS.len() as i64) as usize])
            }
            Bool(value) => Bool(value != (by == 1)),
        }
    }

    /// Its record, of the sort's own kind; a NaN has always the same bits.
    pub fn node(self, builder: &mut Builder, span: u32) -> u16 {
        match self {
            Int(value) => builder.integer(span, value),
            Float(value) => {
                let bits = if value.is_nan() { 0x7ff8_0000_0000_0000 } else { value.to_bits() };
                builder.node(span, "Float", &[Value::Number(bits)])
            }
            Str(text) => builder.string(span, text),
            Bool(value) => builder.node(span, "Bool", &[u16::from(value).into()]),
        }
    }

    /// The nearest float.
    pub fn number(self) -> Option<f64> {
        match self {
            Int(value) => Some(value as f64),
            Float(value) => Some(value),
            _ => None,
        }
    }

    /// What an arithmetic operator (1 to 4) gives on numbers, wrapped where
    /// it overflows; the right operand where it gives nothing.
    pub fn result(self, operator: u16, right: Literal) -> Literal {
        if let (Int(x), Int(y)) = (self, right) {
            return Int(match operator {
                1 => x.wrapping_add(y),
                2 => x.wrapping_sub(y),
                3 => x.wrapping_mul(y),
                _ => x.checked_div(y).unwrap_or(y),
            });
        }
        let (Some(x), Some(y)) = (self.number(), right.number()) else {
            return right;
        };
        Float(match operator {
            1 => x + y,
            2 => x - y,
            3 => x * y,
            _ => x / y,
        })
    }
}

/// Any float between 1/16 and 32, or its negative.
fn moderate(bits: u64) -> f64 {
    let exponent = 1_019 + bits % 9;
    f64::from_bits((bits << 63) | (exponent << 52) | (bits >> 12))
}

/// A whole number about half way between two floats.
fn between_floats(rng: &mut Rng) -> i64 {
    let (bits, unused) = (rng.number(), 1 + rng.below(10));
    let kept = (1 << 52 | bits >> 12) as i64;
    let value = (kept << unused) + (1 << (unused - 1)) + rng.pick(&[-1, 0, 0, 1]);
    if rng.one_in(2) {
        value
    } else {
        -value
    }
}

/// The name and the bits of a number's record, of any kind that holds it.
pub fn integer(rng: &mut Rng, value: i64) -> (&'static str, u64) {
    let small = small::holding(value);
    match rng.below(6) {
        0 if i32::try_from(value).is_ok() => ("SInt", u64::from(value as u32)),
        1 if value >= 0 => ("UInt", value as u64),
        2 | 3 if !small.is_empty() => {
            let small = rng.pick(&small);
            (small.0, small::bits(small))
        }
        _ => ("Integer", value as u64),
    }
}

/// Likewise; the bits of a NaN are any.
pub fn float(rng: &mut Rng, value: f64) -> (&'static str, u64) {
    let (bits, short) = (rng.number(), rng.one_in(2));
    match (value.is_nan(), short) {
        (true, false) => ("Float", bits | 0x7ff0_0000_0000_0001),
        (true, true) => ("SFloat", (bits >> 32) | 0x7f80_0001),
        (false, true) if f64::from(value as f32) == value => {
            ("SFloat", u64::from((value as f32).to_bits()))
        }
        _ => ("Float", value.to_bits()),
    }
}
