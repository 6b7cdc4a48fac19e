//! From accepted bytes to the abstract image.

use crate::image::{Image, Record, Value, WORK};
use crate::reader::{self, Refusal};
use crate::schema::{self, Sort, SECTIONS};

/// The image that the bytes stand for, or the reader's refusal.
pub fn decode(bytes: &[u8]) -> Result<Image, Refusal> {
    let arena = reader::read(bytes, WORK)?.arena;
    let mut cursor = Cursor { bytes: &bytes[5..] };
    let counts: [u16; 9] = std::array::from_fn(|_| cursor.u16());
    let mut image =
        Image { arena, text: cursor.take(usize::from(counts[0])).to_vec(), ..Image::default() };
    for _ in 0..counts[1] {
        cursor.take(1);
        image.texts.push((cursor.u16(), cursor.u16()));
    }
    for _ in 0..counts[2] {
        cursor.take(1);
        image.entries.push(cursor.u16());
    }
    for (section, count) in SECTIONS.into_iter().zip(&counts[3..]) {
        for _ in 0..*count {
            let record = cursor.record();
            image.of_mut(section).push(record);
        }
    }
    Ok(image)
}

/// Accepted bytes are long enough, so nothing is checked here.
struct Cursor<'a> {
    bytes: &'a [u8],
}

impl<'a> Cursor<'a> {
    fn take(&mut self, length: usize) -> &'a [u8] {
        let (taken, rest) = self.bytes.split_at(length);
        self.bytes = rest;
        taken
    }

    fn u16(&mut self) -> u16 {
        let bytes = self.take(2);
        u16::from_le_bytes([bytes[0], bytes[1]])
    }

    fn record(&mut self) -> Record {
        let kind = self.take(1)[0];
        let row = schema::of_kind(kind).expect("a kind of the format");
        let values = row.sorts.iter().map(|sort| self.value(*sort)).collect();
        Record { kind, values }
    }

    fn value(&mut self, sort: Sort) -> Value {
        if sort.is_range() {
            return Value::Range(self.u16(), self.u16());
        }
        let mut bytes = [0; 8];
        bytes[..sort.width()].copy_from_slice(self.take(sort.width()));
        Value::Number(u64::from_le_bytes(bytes))
    }
}
