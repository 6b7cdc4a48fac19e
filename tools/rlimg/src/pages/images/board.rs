//! Functions whose contracts every call of them violates.

use crate::builder::{Builder, Function, Operand};
use crate::image::{Image, LIMITS};
use crate::schema::Section;

const GE: u16 = 2;
const LE: u16 = 4;
const EQ: u16 = 5;

/// What a parameter is compared with.
#[derive(Debug, Clone, PartialEq, Eq)]
pub enum Bound {
    Int(i64),
    Str(String),
    Bool(bool),
    /// Itself.
    Own,
}

/// What a call violates: a requires with a message, without one or with one that
/// is no text, or a parameter's refinement (1 to 6).
#[derive(Debug, Clone, PartialEq, Eq)]
pub enum Says {
    Message(String),
    Violated,
    NoText,
    Refined(String, u16, Bound),
}

/// A function, and a call of it for each span.
#[derive(Debug, Clone, PartialEq, Eq)]
pub struct Plan {
    pub callee: String,
    pub spans: Vec<u32>,
    pub says: Vec<Says>,
}

/// The plans in as few images as they fit into in their order.
pub fn boards(plans: &[Plan]) -> Vec<Image> {
    let (mut images, mut board) = (Vec::new(), Board::new(1));
    for plan in plans {
        if !board.put(plan) {
            images.push(std::mem::replace(&mut board, Board::new(1)).finished());
            assert!(board.put(plan), "a plan that no image has room for");
        }
    }
    images.push(board.finished());
    images
}

pub struct Board {
    builder: Builder,
    callees: Vec<String>,
    /// A node that is false, and one that is no text.
    never: u16,
    number: u16,
}

impl Board {
    pub fn new(arena: u32) -> Board {
        let mut builder = Builder::new(arena).interning();
        let never = builder.node(0, "Bool", &[0.into()]);
        let number = builder.integer(0, 7);
        Board { builder, callees: Vec::new(), never, number }
    }

    pub fn finished(self) -> Image {
        self.builder.image
    }

    /// Puts a plan where there is room for it and no function of that name yet.
    pub fn put(&mut self, plan: &Plan) -> bool {
        !self.callees.contains(&plan.callee) && self.put_again(plan)
    }

    /// Puts a plan where there is room for it.
    pub fn put_again(&mut self, plan: &Plan) -> bool {
        let before = self.builder.clone();
        self.add(plan);
        let counts = self.builder.image.counts();
        let fits = counts.iter().zip(LIMITS).all(|(count, most)| *count <= most);
        match fits {
            true => self.callees.push(plan.callee.clone()),
            false => self.builder = before,
        }
        fits
    }

    fn add(&mut self, plan: &Plan) {
        let mut arguments = Vec::new();
        let firsts = [Section::Parameter, Section::Clause]
            .map(|section| self.builder.image.of(section).len() as u16);
        for says in &plan.says {
            match says {
                Says::Refined(name, operator, bound) => {
                    arguments.push(self.parameter(name, *operator, bound));
                }
                Says::Message(text) => {
                    let message = self.builder.string(0, text);
                    self.builder.clause(self.never, Some(message));
                }
                Says::Violated => _ = self.builder.clause(self.never, None),
                Says::NoText => _ = self.builder.clause(self.never, Some(self.number)),
            }
        }
        let refined = arguments.len() as u16;
        let parameters = (firsts[0], refined);
        let requires = (firsts[1], plan.says.len() as u16 - refined);
        let (name, body) = (self.builder.text(&plan.callee), self.builder.list(&[]));
        let (span, result, ensures) = (0, false, (0, 0));
        self.builder.function(Function { name, span, parameters, result, body, requires, ensures });
        let arguments = self.builder.list(&arguments);
        for span in &plan.spans {
            self.builder.call(name, *span, arguments);
        }
    }

    /// A call of a name that perhaps no function has.
    pub fn stranger(&mut self, callee: &str, span: u32) {
        let counts = self.builder.image.counts();
        let has_room = counts[0] + callee.len() <= LIMITS[0] && counts[1] < LIMITS[1];
        if has_room && counts[8] < LIMITS[8] {
            let (name, arguments) = (self.builder.text(callee), self.builder.list(&[]));
            self.builder.call(name, span, arguments);
        }
    }

    /// A refined parameter; gives an argument that violates it, where there is
    /// one.
    fn parameter(&mut self, name: &str, operator: u16, bound: &Bound) -> u16 {
        let text = self.builder.text(name);
        let (operand, argument) = match bound {
            Bound::Int(value) => {
                let argument = match operator {
                    GE => value.wrapping_sub(1),
                    LE | EQ => value.wrapping_add(1),
                    _ => *value,
                };
                (Operand::Integer(*value), self.builder.integer(0, argument))
            }
            Bound::Str(value) => {
                let operand = self.builder.text(value);
                let argument = match operator {
                    GE => self.builder.string(0, ""),
                    EQ if !value.is_empty() => self.builder.string(0, ""),
                    LE | EQ => self.builder.string(0, &format!("{value}a")),
                    _ => self.builder.string(0, value),
                };
                (Operand::Str(operand), argument)
            }
            Bound::Bool(value) => {
                let argument = u16::from((operator == EQ) != *value);
                (Operand::Bool(*value), self.builder.node(0, "Bool", &[argument.into()]))
            }
            Bound::Own => (Operand::Param(text), self.builder.integer(0, 1)),
        };
        self.builder.parameter(text, Some((operator, operand)));
        argument
    }
}
