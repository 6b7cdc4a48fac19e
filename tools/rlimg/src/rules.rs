//! Deterministic generation of accepted images whose calls exercise folding
//! and proving: contracts over every operator and pair of sorts, with operands
//! and arguments near the values that decide them.

mod nodes;
mod values;

pub use values::{float, integer, literals, Literal, EDGES, NANS, SORTS};

use crate::builder::{Builder, Function, Operand};
use crate::image::{Image, Value, EXPRESSION_HEIGHT};
use crate::rng::Rng;
use crate::schema::Section;

const NAMES: [&str; 10] = ["a", "b", "x", "y", "flow", "flo", "flow1", "", "\u{e9}", "A"];
const FUNCTIONS: [&str; 5] = ["open", "ope", "opens", "", "close"];
/// Names that no function or parameter has.
const STRANGERS: [&str; 3] = ["free", "opened", "ret"];

const MINUS: u16 = 2;
const BANG: u16 = 5;
const COMPARE: u16 = 6;
const BANG_EQUAL: u16 = 7;

/// An image of at most about so many functions and twice as many calls; it is
/// within the limits up to a size of 12.
pub fn image(rng: &mut Rng, size: usize) -> Image {
    let mut builder = Builder::new(rng.number() as u32);
    if rng.one_in(2) {
        builder = builder.interning();
    }
    let (sizes, names, functions) = (Vec::new(), Vec::new(), Vec::new());
    let mut generator = Generator { rng, builder, sizes, names, functions };
    for _ in 0..generator.rng.below(size + 1) {
        generator.function();
    }
    for _ in 0..1 + generator.rng.below(2 * size) {
        generator.call();
    }
    generator.builder.image
}

/// What a call should know of a function.
#[derive(Clone)]
struct Signature {
    name: &'static str,
    names: Vec<&'static str>,
    /// The literals that the parameters are compared with.
    bounds: Vec<Option<Literal>>,
}

struct Generator<'r> {
    rng: &'r mut Rng,
    builder: Builder,
    /// How many nodes the tree of each expression has.
    sizes: Vec<usize>,
    /// The names that most identifiers have.
    names: Vec<&'static str>,
    functions: Vec<Signature>,
}

impl Generator<'_> {
    fn function(&mut self) {
        let name = self.rng.pick(&FUNCTIONS);
        let plain = self.rng.one_in(4);
        let known = if self.rng.one_in(4) { 2 } else { NAMES.len() };
        self.names = (0..self.rng.below(7)).map(|_| self.rng.pick(&NAMES[..known])).collect();
        let names = self.names.clone();
        let bounds: Vec<Option<Literal>> =
            names.iter().map(|name| self.parameter(name, plain)).collect();
        let parameters = self.range(Section::Parameter, names.len());
        let clauses = if plain { 0 } else { self.rng.below(5) };
        let requires = self.clauses(clauses);
        let ensures = self.rng.below(2);
        let ensures = self.clauses(ensures);
        let body = self.body();
        let (span, result) = (self.span(), self.rng.one_in(2));
        let text = self.builder.text(name);
        let function = Function { name: text, span, parameters, result, body, requires, ensures };
        self.builder.function(function);
        self.functions.push(Signature { name, names, bounds });
    }

    /// A parameter; gives the literal that it is compared with.
    fn parameter(&mut self, name: &str, plain: bool) -> Option<Literal> {
        let name = self.builder.text(name);
        if plain || self.rng.one_in(2) {
            self.builder.parameter(name, None);
            return None;
        }
        let sort = self.rng.pick(&[0, 0, 2, 3, 4]);
        let bound = (sort < SORTS).then(|| Literal::any(self.rng, sort));
        let operand = match bound {
            Some(Literal::Int(value)) => Operand::Integer(value),
            Some(Literal::Str(text)) => Operand::Str(self.builder.text(text)),
            Some(Literal::Bool(value)) => Operand::Bool(value),
            _ => {
                let other = self.any_name();
                Operand::Param(self.builder.text(other))
            }
        };
        let refinement = 1 + self.rng.below(6) as u16;
        self.builder.parameter(name, Some((refinement, operand)));
        bound
    }

    fn clauses(&mut self, count: usize) -> (u16, u16) {
        for _ in 0..count {
            let condition = if self.rng.one_in(40) { self.tall() } else { self.condition(2) };
            let message = self.message();
            self.builder.clause(condition, message);
        }
        self.range(Section::Clause, count)
    }

    /// The last records of the section, sometimes any.
    fn range(&mut self, section: Section, made: usize) -> (u16, u16) {
        let end = self.builder.image.of(section).len();
        if self.rng.one_in(16) {
            let first = self.rng.below(end + 1);
            return (first as u16, self.rng.below(end - first + 1).min(8) as u16);
        }
        ((end - made) as u16, made as u16)
    }

    fn message(&mut self) -> Option<u16> {
        if self.rng.one_in(3) {
            return None;
        }
        let text = Literal::any(self.rng, 2);
        let text = self.literal(text);
        match self.rng.below(6) {
            0 => Some(self.grouping(text)),
            1 => Some(self.operand(1)),
            _ => Some(text),
        }
    }

    fn body(&mut self) -> Value {
        if self.rng.one_in(2) {
            return self.builder.list(&[]);
        }
        let value = self.identifier();
        let span = self.span();
        let last = self.builder.statement(span, "Return", &[value.into()]);
        self.builder.list(&[last])
    }

    fn call(&mut self) {
        let known = self.functions.len();
        let (name, names, bounds) = (self.rng.pick(&STRANGERS), Vec::new(), Vec::new());
        let mut callee = Signature { name, names, bounds };
        if known > 0 && !self.rng.one_in(12) {
            callee = self.functions[self.rng.below(known)].clone();
        }
        self.names = callee.names;
        let count = if self.rng.one_in(4) { self.rng.below(9) } else { self.names.len() };
        let bound = |position| callee.bounds.get(position).copied().flatten();
        let arguments: Vec<u16> =
            (0..count).map(|position| self.argument(bound(position))).collect();
        let arguments = self.builder.list(&arguments);
        let name = self.builder.text(callee.name);
        let span = self.span();
        self.builder.call(name, span, arguments);
    }

    fn argument(&mut self, bound: Option<Literal>) -> u16 {
        match bound {
            Some(bound) if !self.rng.one_in(3) => {
                let near = bound.nudged(self.rng);
                self.literal(near)
            }
            _ if self.rng.one_in(4) => self.identifier(),
            _ if self.rng.one_in(8) => self.not_a_number(),
            _ if self.rng.one_in(8) => self.arithmetic().0,
            _ if self.rng.one_in(6) => self.condition(1),
            _ => self.operand(1),
        }
    }

    fn condition(&mut self, depth: usize) -> u16 {
        match self.rng.below(14) {
            0..=2 => {
                let left = self.identifier();
                let right = self.any_literal();
                self.compared(left, right)
            }
            3 | 4 => {
                let (result, near) = self.arithmetic();
                let near = near.nudged(self.rng);
                let near = self.literal(near);
                self.compared(result, near)
            }
            5 => {
                let left = Literal::any(self.rng, 0);
                let right = Literal::Float(left.number().unwrap_or(0.0)).nudged(self.rng);
                let (left, right) = (self.literal(left), self.literal(right));
                self.compared(left, right)
            }
            6 => {
                let (left, right) = (self.any_literal(), self.any_literal());
                let operator = self.any_operator();
                self.binary(left, operator, right)
            }
            7 | 8 => {
                let (left, right) = (self.operand(depth), self.operand(depth));
                let operator = self.any_operator();
                self.binary(left, operator, right)
            }
            9 if depth > 0 => {
                let operand = self.condition(depth - 1);
                self.unary(BANG, operand)
            }
            10 if depth > 0 => {
                let (left, right) = (self.condition(depth - 1), self.condition(depth - 1));
                self.compared(left, right)
            }
            11 => {
                let any = if self.rng.one_in(2) { self.not_taken() } else { self.operand(1) };
                self.binary(any, BANG_EQUAL, any)
            }
            12 => self.small(),
            _ => self.operand(depth),
        }
    }

    /// Arithmetic on literals, and its result.
    fn arithmetic(&mut self) -> (u16, Literal) {
        let sorts = [self.rng.below(2), self.rng.below(2)];
        let [left, right] = sorts.map(|sort| Literal::any(self.rng, sort));
        let any = (left, 1 + self.rng.below(4) as u16, right);
        let edges = [self.rng.pick(&EDGES), self.rng.pick(&NANS)];
        let picked = self.rng.pick(&[any, any, any, any, edges[0], edges[1]]);
        self.computed(picked)
    }

    fn computed(&mut self, (left, operator, right): (Literal, u16, Literal)) -> (u16, Literal) {
        let operands = [left, right].map(|literal| self.literal(literal));
        let node = self.binary(operands[0], operator, operands[1]);
        (node, left.result(operator, right))
    }

    /// A NaN, or an expression that has no value because of one.
    fn not_a_number(&mut self) -> u16 {
        if self.rng.one_in(2) {
            let nan = self.rng.pick(&NANS);
            return self.computed(nan).0;
        }
        let nan = self.literal(Literal::Float(f64::NAN));
        if self.rng.one_in(2) {
            nan
        } else {
            self.unary(MINUS, nan)
        }
    }

    /// A condition of the greatest height.
    fn tall(&mut self) -> u16 {
        let bool = self.rng.one_in(2);
        let sort = if bool { 3 } else { self.rng.below(2) };
        let first = Literal::any(self.rng, sort);
        let mut node = self.literal(first);
        for _ in 2..EXPRESSION_HEIGHT {
            node = match self.rng.below(3) {
                0 => self.grouping(node),
                _ => self.unary(if bool { BANG } else { MINUS }, node),
            };
        }
        let right = first.nudged(self.rng);
        let right = self.literal(right);
        self.compared(node, right)
    }

    fn operand(&mut self, depth: usize) -> u16 {
        match self.rng.below(14) {
            0..=4 => self.any_literal(),
            5 | 6 => self.identifier(),
            7 => self.shared(),
            8 | 9 => self.not_taken(),
            10 if depth > 0 => {
                let operand = self.operand(depth - 1);
                self.grouping(operand)
            }
            11 if depth > 0 => {
                let any = self.any_operator();
                let operator = self.rng.pick(&[MINUS, BANG, any]);
                let least = operator == MINUS && self.rng.one_in(8);
                let operand = match least {
                    true => self.literal(Literal::Int(i64::MIN)),
                    false => self.operand(depth - 1),
                };
                self.unary(operator, operand)
            }
            12 | 13 if depth > 0 => {
                let (left, right) = (self.operand(depth - 1), self.operand(depth - 1));
                let any = self.any_operator();
                let operator = self.rng.pick(&[1, 2, 3, 4, any]);
                self.binary(left, operator, right)
            }
            _ => self.any_literal(),
        }
    }
}
