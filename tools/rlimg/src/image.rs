//! The abstract image: what the bytes stand for, record by record.

use crate::schema::Section;

/// The largest counts, in the header's order.
pub const LIMITS: [usize; 9] = [16_384, 2_048, 4_096, 4_096, 2_048, 256, 256, 64, 256];
/// The most bytes of an image.
pub const LENGTH_LIMIT: usize = 65_535;
/// The fewest entries of a work slice.
pub const WORK: usize = 8_192;
/// The greatest heights of expressions and statements.
pub const EXPRESSION_HEIGHT: u16 = 68;
pub const STATEMENT_HEIGHT: u16 = 36;
/// The reference that means none.
pub const NONE: u16 = 65_535;

/// A field: a number, as wide as its sort says, or a list or range.
#[derive(Debug, Clone, Copy, PartialEq, Eq)]
pub enum Value {
    Number(u64),
    Range(u16, u16),
}

impl From<u16> for Value {
    fn from(number: u16) -> Value {
        Value::Number(u64::from(number))
    }
}

#[derive(Debug, Clone, PartialEq, Eq)]
pub struct Record {
    pub kind: u8,
    /// In the order of the kind's row, the span first where there is one.
    pub values: Vec<Value>,
}

impl Record {
    /// The number in a field.
    pub fn number(&self, position: usize) -> u64 {
        match self.values[position] {
            Value::Number(number) => number,
            Value::Range(..) => panic!("field {position} of kind {} is no number", self.kind),
        }
    }

    /// First and count of a list or range.
    pub fn range(&self, position: usize) -> (u16, u16) {
        match self.values[position] {
            Value::Range(first, count) => (first, count),
            Value::Number(_) => panic!("field {position} of kind {} is no range", self.kind),
        }
    }
}

#[derive(Debug, Clone, PartialEq, Eq, Default)]
pub struct Image {
    pub arena: u32,
    pub text: Vec<u8>,
    /// Offset and length of each text.
    pub texts: Vec<(u16, u16)>,
    pub entries: Vec<u16>,
    /// Expressions, statements, parameters, clauses, functions, calls.
    pub records: [Vec<Record>; 6],
}

impl Image {
    pub fn of(&self, section: Section) -> &Vec<Record> {
        &self.records[section as usize]
    }

    /// The expression of a number that is there.
    pub fn node(&self, number: u64) -> &Record {
        &self.of(Section::Expression)[number as usize]
    }

    pub fn of_mut(&mut self, section: Section) -> &mut Vec<Record> {
        &mut self.records[section as usize]
    }

    /// The counts in the header's order.
    pub fn counts(&self) -> [usize; 9] {
        let mut counts = [self.text.len(), self.texts.len(), self.entries.len(), 0, 0, 0, 0, 0, 0];
        for (count, records) in counts[3..].iter_mut().zip(&self.records) {
            *count = records.len();
        }
        counts
    }

    /// The bytes of a text.
    pub fn text_of(&self, number: u16) -> Option<&[u8]> {
        let (offset, length) = *self.texts.get(usize::from(number))?;
        let offset = usize::from(offset);
        self.text.get(offset..offset + usize::from(length))
    }

    /// The records of a range of a section.
    pub fn part(&self, section: Section, (first, count): (u16, u16)) -> Option<&[Record]> {
        let first = usize::from(first);
        self.of(section).get(first..first + usize::from(count))
    }

    /// The entries of a list.
    pub fn list(&self, first: u16, count: u16) -> Option<&[u16]> {
        let first = usize::from(first);
        self.entries.get(first..first + usize::from(count))
    }
}
