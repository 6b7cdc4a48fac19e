//! An image's expressions and statements as typed nodes, with the numbers that
//! they have in the image.

use super::values::{Value, NULL};
use crate::fold::{self, Folded};
use crate::image::{Image, Record, NONE};
use crate::schema::Section;
use std::collections::HashMap;

/// An expression. A name is the number of the first text of its bytes.
#[derive(Debug, Clone, Copy)]
pub(super) enum Node {
    Literal(Value),
    /// A literal that folds to nothing.
    Valueless,
    Name(u16),
    Unary(u8, u16),
    Binary(u16, u8, u16),
    Grouping(u16),
    Assign(u16, u16),
    Ok(u16),
    Err(u16),
    IsErr(u16),
    Unwrap(u16),
    NotTaken,
}

#[derive(Debug, Clone, Copy)]
pub(super) enum Statement<'a> {
    Declare(u16, u16),
    Evaluate(u16),
    Return(u16),
    ReturnAlone,
    /// A branch, and a branch or conditional else.
    Conditional(u16, Option<u16>),
    Branch(Option<u16>, &'a [u16]),
    /// A while, or a loop without a condition.
    Repeat(Option<u16>, &'a [u16]),
    Break,
    Continue,
    NotTaken,
}

/// An accepted image, ready to be run.
pub struct Program<'a> {
    pub(super) image: &'a Image,
    pub(super) nodes: Vec<Node>,
    pub(super) statements: Vec<Statement<'a>>,
    /// The first text of the same bytes, for each text.
    names: Vec<u16>,
}

impl<'a> Program<'a> {
    pub fn new(image: &'a Image) -> Program<'a> {
        let mut first = HashMap::new();
        let texts = 0..image.texts.len() as u16;
        let names = texts.map(|text| *first.entry(image.text_of(text)).or_insert(text)).collect();
        let (nodes, statements) = (Vec::new(), Vec::new());
        let mut program = Program { image, nodes, statements, names };
        program.nodes = image.of(Section::Expression).iter().map(|r| program.node(r)).collect();
        let statements = image.of(Section::Statement).iter();
        program.statements = statements.map(|record| program.statement(record)).collect();
        program
    }

    /// The name in a field.
    pub(super) fn name(&self, record: &Record, position: usize) -> u16 {
        self.names[record.number(position) as usize]
    }

    /// The name of these bytes, where there is a text of them.
    pub(super) fn name_of(&self, bytes: &[u8]) -> Option<u16> {
        (0..self.names.len() as u16).find(|text| self.image.text_of(*text) == Some(bytes))
    }

    pub(super) fn list(&self, record: &Record, position: usize) -> &'a [u16] {
        let (first, count) = record.range(position);
        self.image.list(first, count).expect("a list of the image")
    }

    fn node(&self, record: &Record) -> Node {
        let number = |position| record.number(position);
        let child = |position| record.number(position) as u16;
        let literal = |folded| Node::Literal(Value::Plain(Some(folded)));
        match record.kind {
            16 => Node::Literal(NULL),
            17..=24 => match fold::whole(record) {
                Some(value) => literal(Folded::Int(value)),
                None => Node::Valueless,
            },
            25 => literal(Folded::Str(number(1) as u16)),
            26 => literal(Folded::Bool(number(1) == 1)),
            27 => literal(Folded::Float(f64::from_bits(number(1)))),
            28 => literal(Folded::Float(f64::from(f32::from_bits(number(1) as u32)))),
            30 => Node::Name(self.name(record, 1)),
            32 => Node::Binary(child(1), number(2) as u8, child(3)),
            33 => Node::Unary(number(1) as u8, child(2)),
            34 => Node::Grouping(child(1)),
            39 => Node::Assign(self.name(record, 1), child(2)),
            41 => self.call(record),
            49 => Node::Ok(child(1)),
            50 => Node::Err(child(1)),
            _ => Node::NotTaken,
        }
    }

    fn call(&self, record: &Record) -> Node {
        let path: Vec<&[u8]> =
            self.list(record, 1).iter().filter_map(|text| self.image.text_of(*text)).collect();
        match (&path[..], self.list(record, 2)) {
            ([b"std", b"res", b"is_err"], [argument]) => Node::IsErr(*argument),
            ([b"std", b"res", b"result_unwrap"], [argument]) => Node::Unwrap(*argument),
            _ => Node::NotTaken,
        }
    }

    fn statement(&self, record: &Record) -> Statement<'a> {
        let number = |position| record.number(position) as u16;
        let unless_none = |position| Some(number(position)).filter(|number| *number != NONE);
        match record.kind {
            64 => Statement::Declare(self.name(record, 1), number(3)),
            65 => Statement::Evaluate(number(1)),
            66 => Statement::Return(number(1)),
            67 => Statement::ReturnAlone,
            68 => Statement::Conditional(number(1), unless_none(2)),
            69 => Statement::Branch(unless_none(1), self.list(record, 2)),
            70 => Statement::Repeat(Some(number(1)), self.list(record, 2)),
            71 => Statement::Repeat(None, self.list(record, 1)),
            77 => Statement::Break,
            78 => Statement::Continue,
            _ => Statement::NotTaken,
        }
    }
}
