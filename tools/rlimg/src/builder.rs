//! Convenient construction of images.

use crate::image::{Image, Record, Value, NONE};
use crate::schema::{self, Section};
use std::collections::HashMap;

/// What stands right of a refinement's comparison.
#[derive(Debug, Clone, Copy)]
pub enum Operand {
    Integer(i64),
    Str(u16),
    Bool(bool),
    Param(u16),
}

/// A function's fields.
#[derive(Debug, Clone, Copy)]
pub struct Function {
    pub name: u16,
    pub span: u32,
    pub parameters: (u16, u16),
    pub result: bool,
    pub body: Value,
    pub requires: (u16, u16),
    pub ensures: (u16, u16),
}

/// Builds an image; nothing is checked, so refused ones can be built too.
#[derive(Debug, Clone, Default)]
pub struct Builder {
    pub image: Image,
    interned: Option<HashMap<String, u16>>,
}

impl Builder {
    pub fn new(arena: u32) -> Builder {
        let mut builder = Builder::default();
        builder.image.arena = arena;
        builder
    }

    /// From here on, equal texts share one number.
    pub fn interning(mut self) -> Builder {
        self.interned = Some(HashMap::new());
        self
    }

    pub fn text(&mut self, text: &str) -> u16 {
        if let Some(number) = self.interned.as_ref().and_then(|known| known.get(text)) {
            return *number;
        }
        let number = self.image.texts.len() as u16;
        let offset = self.image.text.len() as u16;
        self.image.text.extend(text.as_bytes());
        self.image.texts.push((offset, text.len() as u16));
        if let Some(known) = &mut self.interned {
            known.insert(text.to_string(), number);
        }
        number
    }

    /// A list, appended to the entries.
    pub fn list(&mut self, entries: &[u16]) -> Value {
        let first = self.image.entries.len() as u16;
        self.image.entries.extend(entries);
        Value::Range(first, entries.len() as u16)
    }

    fn push(&mut self, section: Section, kind: u8, values: Vec<Value>) -> u16 {
        let records = self.image.of_mut(section);
        records.push(Record { kind, values });
        (records.len() - 1) as u16
    }

    fn spanned(&mut self, section: Section, name: &str, span: u32, values: &[Value]) -> u16 {
        let row = schema::of_name(section, name).expect("a name of the section");
        let mut all = vec![Value::Number(u64::from(span))];
        all.extend(values);
        assert_eq!(all.len(), row.sorts.len(), "fields of {name}");
        self.push(section, row.kind, all)
    }

    pub fn node(&mut self, span: u32, name: &str, values: &[Value]) -> u16 {
        self.spanned(Section::Expression, name, span, values)
    }

    pub fn integer(&mut self, span: u32, value: i64) -> u16 {
        self.node(span, "Integer", &[Value::Number(value as u64)])
    }

    pub fn identifier(&mut self, span: u32, name: &str) -> u16 {
        let name = self.text(name);
        self.node(span, "Identifier", &[name.into()])
    }

    pub fn string(&mut self, span: u32, text: &str) -> u16 {
        let text = self.text(text);
        self.node(span, "String", &[text.into()])
    }

    pub fn binary(&mut self, span: u32, left: u16, operator: u16, right: u16) -> u16 {
        self.node(span, "Binary", &[left.into(), operator.into(), right.into()])
    }

    pub fn statement(&mut self, span: u32, name: &str, values: &[Value]) -> u16 {
        self.spanned(Section::Statement, name, span, values)
    }

    /// A parameter, with its refinement (1 to 6) where it has one.
    pub fn parameter(&mut self, name: u16, refined: Option<(u16, Operand)>) -> u16 {
        let (refinement, sort, operand) = match refined {
            None => (0, 0, 0),
            Some((refinement, Operand::Integer(value))) => (refinement, 1, value as u64),
            Some((refinement, Operand::Str(text))) => (refinement, 2, u64::from(text)),
            Some((refinement, Operand::Bool(value))) => (refinement, 3, u64::from(value)),
            Some((refinement, Operand::Param(text))) => (refinement, 4, u64::from(text)),
        };
        let operand = Value::Number(operand);
        let values = vec![name.into(), 0.into(), refinement.into(), sort.into(), operand];
        self.push(Section::Parameter, 80, values)
    }

    pub fn clause(&mut self, condition: u16, message: Option<u16>) -> u16 {
        let message = message.unwrap_or(NONE);
        self.push(Section::Clause, 81, vec![condition.into(), message.into()])
    }

    pub fn function(&mut self, function: Function) -> u16 {
        let range = |(first, count)| Value::Range(first, count);
        let values = vec![
            function.name.into(),
            Value::Number(u64::from(function.span)),
            range(function.parameters),
            u16::from(function.result).into(),
            function.body,
            range(function.requires),
            range(function.ensures),
        ];
        self.push(Section::Function, 82, values)
    }

    pub fn call(&mut self, callee: u16, span: u32, arguments: Value) -> u16 {
        let span = Value::Number(u64::from(span));
        self.push(Section::Call, 83, vec![callee.into(), span, arguments])
    }
}
