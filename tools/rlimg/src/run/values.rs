//! What a run carries, and its form in the lent slices.

use crate::fold::{self, Folded};

/// A folded value, or none for Null.
pub type Plain = Option<Folded>;

#[derive(Debug, Clone, Copy, PartialEq)]
pub enum Value {
    Plain(Plain),
    Ok(Plain),
    Err(Plain),
}

pub const NULL: Value = Value::Plain(None);

/// What an Ok and an Err add to the sort.
const OK: u64 = 8;
const ERR: u64 = 16;
/// A number that no text has; it stands for all that are larger.
const NO_TEXT: u16 = u16::MAX;
/// The bits that stand for every NaN.
const NAN: u64 = 0x7ff8_0000_0000_0000;

impl Value {
    pub fn plain(self) -> Plain {
        match self {
            Value::Plain(plain) | Value::Ok(plain) | Value::Err(plain) => plain,
        }
    }

    pub fn words(self) -> [u64; 2] {
        let [sort, payload] = fold::words(self.plain());
        match self {
            Value::Plain(_) => [sort, payload],
            Value::Ok(_) => [sort + OK, payload],
            Value::Err(_) => [sort + ERR, payload],
        }
    }

    /// The value that two words stand for.
    pub fn of([sort, payload]: [u64; 2]) -> Option<Value> {
        let plain = match (sort % OK, payload) {
            (0, 0) => None,
            (1, _) => Some(Folded::Int(payload as i64)),
            (2, _) => Some(Folded::Float(f64::from_bits(payload))),
            (3, _) => Some(Folded::Str(u16::try_from(payload).unwrap_or(NO_TEXT))),
            (4, 0 | 1) => Some(Folded::Bool(payload == 1)),
            _ => return None,
        };
        match sort / OK {
            0 => Some(Value::Plain(plain)),
            1 => Some(Value::Ok(plain)),
            2 => Some(Value::Err(plain)),
            _ => None,
        }
    }

    /// The values that a slice stands for.
    pub fn list(words: &[u64]) -> Option<Vec<Value>> {
        if words.len() % 2 != 0 {
            return None;
        }
        words.chunks(2).map(|pair| Value::of([pair[0], pair[1]])).collect()
    }
}

/// What a fault is for.
#[derive(Debug, Clone, Copy, PartialEq, Eq)]
pub enum Fault {
    NotTaken = 1,
    WrongSort,
    UnknownName,
    NoValue,
    TooManyBindings,
}

/// How a run ends.
#[derive(Debug, Clone, Copy, PartialEq)]
pub enum Ending {
    Returned(Value),
    Stopped(Plain),
    Fault(Fault),
    Spent,
}

#[derive(Debug, Clone, Copy, PartialEq)]
pub struct Outcome {
    pub ending: Ending,
    pub steps: u32,
}

/// An outcome's words, without a text's number, and the text's bytes.
pub type Shown = ([u64; 4], Vec<u8>);

/// Shows the text in an outcome, whatever its number is; a number that no text
/// has stays as it is.
pub fn shown(words: [u64; 4], bytes: impl Fn(u16) -> Option<Vec<u8>>) -> Shown {
    let [ending, steps, sort, payload] = words;
    let value = (1..=2).contains(&ending).then(|| Value::of([sort, payload])).flatten();
    let text = match value.and_then(Value::plain) {
        Some(Folded::Str(text)) => bytes(text),
        _ => None,
    };
    match text {
        Some(text) => ([ending, steps, sort, 0], text),
        None => (words, Vec::new()),
    }
}

impl Outcome {
    /// As the lent slice has it; a NaN has always the same bits.
    pub fn words(self) -> [u64; 4] {
        let (ending, [first, second]) = match self.ending {
            Ending::Returned(value) => (1, value.words()),
            Ending::Stopped(plain) => (2, Value::Plain(plain).words()),
            Ending::Fault(fault) => (3, [fault as u64, 0]),
            Ending::Spent => (4, [0, 0]),
        };
        same_nan([ending, u64::from(self.steps), first, second])
    }
}

/// An outcome whose value, where it is a NaN, has always the same bits.
pub fn same_nan(words: [u64; 4]) -> [u64; 4] {
    let [ending, steps, sort, payload] = words;
    let value = (1..=2).contains(&ending).then(|| Value::of([sort, payload])).flatten();
    match value.and_then(Value::plain) {
        Some(Folded::Float(float)) if float.is_nan() => [ending, steps, sort, NAN],
        _ => words,
    }
}
