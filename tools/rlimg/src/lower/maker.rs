//! An image that grows up to its limits.

use super::Limits;
use crate::encode::encode;
use crate::image::{Image, Record, Value};
use crate::schema::{self, Section, Sort};

/// A limit would be passed.
#[derive(Debug)]
pub(super) struct Full;

pub(super) struct Maker {
    pub image: Image,
    limits: Limits,
    /// The bytes of the image.
    length: usize,
    /// The function's span and result flag.
    span: u32,
    pub result: bool,
    /// How many temporaries there are.
    pub temporaries: u32,
}

impl Maker {
    pub fn new(image: &Image, function: &Record, limits: Limits) -> Maker {
        Maker {
            image: image.clone(),
            limits,
            length: encode(image).len(),
            span: function.number(1) as u32,
            result: function.number(3) == 1,
            temporaries: 0,
        }
    }

    /// Room for so many more of a count, which take so many bytes.
    fn grow(&mut self, count: usize, more: usize, bytes: usize) -> Result<u16, Full> {
        let before = self.image.counts()[count];
        self.length += bytes;
        if before + more > self.limits.counts[count] || self.length > self.limits.bytes {
            return Err(Full);
        }
        Ok(before as u16)
    }

    /// A new text, even one that is there already.
    pub fn text(&mut self, text: &[u8]) -> Result<Value, Full> {
        let offset = self.grow(0, text.len(), text.len())?;
        let number = self.grow(1, 1, 5)?;
        self.image.text.extend(text);
        self.image.texts.push((offset, text.len() as u16));
        Ok(number.into())
    }

    /// A new text of the same bytes.
    pub fn again(&mut self, text: u16) -> Result<Value, Full> {
        let text = self.image.text_of(text).expect("a text of the image").to_vec();
        self.text(&text)
    }

    pub fn list(&mut self, entries: &[u16]) -> Result<Value, Full> {
        let first = self.grow(2, entries.len(), 3 * entries.len())?;
        self.image.entries.extend(entries);
        Ok(Value::Range(first, entries.len() as u16))
    }

    /// A record of the expressions or statements.
    pub fn push(&mut self, section: Section, record: Record) -> Result<u16, Full> {
        let row = schema::of_kind(record.kind).expect("a kind of the format");
        let width = row.sorts.iter().map(|sort| sort.width()).sum::<usize>();
        let number = self.grow(3 + section as usize, 1, 1 + width)?;
        self.image.of_mut(section).push(record);
        Ok(number)
    }

    fn spanned(&mut self, section: Section, kind: u8, fields: &[Value]) -> Result<u16, Full> {
        let mut values = vec![Value::Number(self.span.into())];
        values.extend(fields);
        self.push(section, Record { kind, values })
    }

    pub fn node(&mut self, kind: u8, fields: &[Value]) -> Result<u16, Full> {
        self.spanned(Section::Expression, kind, fields)
    }

    /// A new statement; `statement` is one that is there.
    pub fn made(&mut self, kind: u8, fields: &[Value]) -> Result<u16, Full> {
        self.spanned(Section::Statement, kind, fields)
    }

    pub fn statement(&self, number: u16) -> Record {
        self.image.of(Section::Statement)[usize::from(number)].clone()
    }

    pub fn string(&mut self, text: &str) -> Result<u16, Full> {
        let text = self.text(text.as_bytes())?;
        self.node(25, &[text])
    }

    pub fn name(&mut self, name: &str) -> Result<u16, Full> {
        let name = self.text(name.as_bytes())?;
        self.node(30, &[name])
    }

    /// A call of a function of std::res.
    pub fn call(&mut self, name: &str, argument: u16) -> Result<u16, Full> {
        let mut path = Vec::new();
        for part in ["std", "res", name] {
            path.push(self.image.texts.len() as u16);
            self.text(part.as_bytes())?;
        }
        let (path, arguments) = (self.list(&path)?, self.list(&[argument])?);
        self.node(41, &[path, arguments])
    }

    /// A declaration whose type is inferred.
    pub fn declared(&mut self, name: &str, value: u16) -> Result<u16, Full> {
        let name = self.text(name.as_bytes())?;
        self.made(64, &[name, 0.into(), value.into(), 0.into()])
    }

    /// A copy of an expression with all that is below it: first the children,
    /// then its lists, then itself. Texts and lists of texts are kept, and a
    /// lambda is not copied.
    pub fn copy(&mut self, node: u16) -> Result<u16, Full> {
        let mut record = self.image.of(Section::Expression)[usize::from(node)].clone();
        if matches!(record.kind, 56 | 57) {
            return Ok(node);
        }
        let sorts = schema::of_kind(record.kind).expect("a kind of the format").sorts;
        let mut lists = Vec::new();
        for (sort, value) in sorts.iter().zip(&mut record.values) {
            match *value {
                Value::Number(child) if *sort == Sort::Node => {
                    *value = self.copy(child as u16)?.into();
                }
                Value::Range(first, count) if *sort != Sort::Texts => {
                    lists.push((value, self.copies(*sort, first, count)?));
                }
                _ => (),
            }
        }
        for (value, entries) in lists {
            *value = self.list(&entries)?;
        }
        self.push(Section::Expression, record)
    }

    /// The entries of a list, with copies of the expressions among them.
    fn copies(&mut self, sort: Sort, first: u16, count: u16) -> Result<Vec<u16>, Full> {
        let mut entries = self.image.list(first, count).expect("a list of the image").to_vec();
        for (position, entry) in entries.iter_mut().enumerate() {
            if sort.holds_node(position) {
                *entry = self.copy(*entry)?;
            }
        }
        Ok(entries)
    }
}
