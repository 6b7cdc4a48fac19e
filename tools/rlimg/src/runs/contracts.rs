//! Functions with contracts, most of which hold.

use super::expressions::Sort;
use super::{Generator, DEPTH, NAMES};
use crate::builder::{Function, Operand};
use crate::fold::Folded;
use crate::image::{Value as Field, NONE};
use crate::run::{Value, VALUES};

const COMPARE: u16 = 6;
/// Gt, Ge, Lt, Le, Eq, Ne.
const GT: u16 = 1;
const GE: u16 = 2;
const LE: u16 = 4;
const EQ: u16 = 5;
const NE: u16 = 6;

impl Generator<'_> {
    /// A function with a contract; gives the words of values for it.
    pub(super) fn contracted(&mut self) -> Vec<u64> {
        self.bound.clear();
        self.known.clear();
        let result = self.rng.one_in(2);
        self.given = Some(if result { Sort::Wrapped } else { self.any_sort() });
        let most = if self.rng.one_in(12) { VALUES + 1 } else { 4 };
        let first = self.code.builder.image.counts()[5] as u16;
        let mut words = Vec::new();
        for _ in 0..self.rng.below(most) {
            let (name, sort) = (self.rng.pick(&NAMES), self.any_sort());
            let value = self.words(sort);
            self.bound.push((name, sort));
            let name = self.code.builder.text(name);
            let refined = self.rng.one_in(3).then(|| self.refinement(name, value)).flatten();
            self.code.builder.parameter(name, refined);
            words.extend(value);
        }
        let parameters = (first, self.bound.len() as u16);
        let requires = self.checked(&[0, 0, 1, 1, 2, 3]);
        self.bound.push(("ret", self.given.unwrap_or(Sort::Int)));
        let ensures = self.checked(&[0, 1, 1, 1, 2, 3]);
        self.bound.pop();
        let body = self.ensured_body(ensures.1 > 0);
        let (name, body) = (self.code.builder.text("f"), self.code.builder.list(&body));
        let span = self.rng.pick(&[9, 70_000, u32::MAX]);
        let function = Function { name, span, parameters, result, body, requires, ensures };
        self.code.builder.function(function);
        self.given = None;
        words
    }

    pub(super) fn given_sort(&mut self) -> Sort {
        match self.given {
            Some(sort) if !self.rng.one_in(9) => sort,
            _ => self.any_sort(),
        }
    }

    /// One that holds for the value, mostly.
    fn refinement(&mut self, name: u16, words: [u64; 2]) -> Option<(u16, Operand)> {
        if self.rng.one_in(8) {
            let operators = 1 + self.rng.below(6) as u16;
            let other = self.rng.pick(&NAMES);
            let other = self.code.builder.text(other);
            let operands = [Operand::Integer(2), Operand::Str(name), Operand::Bool(true)];
            let operand = self.rng.pick(&operands);
            return Some((operators, self.rng.pick(&[operand, Operand::Param(other)])));
        }
        let folded = match Value::of(words)? {
            Value::Plain(folded) => folded?,
            Value::Ok(_) | Value::Err(_) => return None,
        };
        if self.rng.one_in(4) {
            return Some((self.rng.pick(&[GE, LE, EQ]), Operand::Param(name)));
        }
        Some(match folded {
            Folded::Int(value) => {
                let (less, more) = (value.saturating_sub(1), value.saturating_add(1));
                let all =
                    [(GT, less), (GE, value), (LE, value), (EQ, value), (NE, more), (3, more)];
                let (operator, bound) = self.rng.pick(&all);
                (operator, Operand::Integer(bound))
            }
            Folded::Float(_) => (self.rng.pick(&[GE, NE]), Operand::Integer(-9)),
            Folded::Str(text) => (self.rng.pick(&[EQ, GE, LE]), Operand::Str(text)),
            Folded::Bool(value) => match self.rng.one_in(2) {
                true => (EQ, Operand::Bool(value)),
                false => (NE, Operand::Bool(!value)),
            },
        })
    }

    /// A range of new clauses.
    fn checked(&mut self, counts: &[usize]) -> (u16, u16) {
        let first = self.code.builder.image.counts()[6] as u16;
        let count = self.rng.pick(counts);
        for _ in 0..count {
            let condition = self.condition();
            let message = self.message();
            self.code.builder.clause(condition, message);
        }
        (first, count as u16)
    }

    /// Mostly something that is equal to itself; a small constant is no verdict.
    fn condition(&mut self) -> u16 {
        match self.rng.below(30) {
            0 => return self.small(),
            1..=6 => return self.expression(Sort::Bool, 2),
            _ => (),
        }
        let sort = self.rng.pick(&[Sort::Int, Sort::Int, Sort::Str, Sort::Bool, Sort::Float]);
        let node = self.expression(sort, 2);
        self.code.binary(node, COMPARE, node)
    }

    fn message(&mut self) -> Option<u16> {
        match self.rng.below(6) {
            0 | 1 => None,
            2 => Some(self.expression(Sort::Str, 2)),
            3 => {
                let sort = self.any_sort();
                Some(self.expression(sort, 1))
            }
            _ => Some(self.code.string("out of range")),
        }
    }

    fn ensured_body(&mut self, ensures: bool) -> Vec<u16> {
        let sort = self.given_sort();
        let mut body = match self.rng.below(40) {
            0 => return Vec::new(),
            1 => self.many_bindings(),
            2 if self.rng.one_in(4) => {
                let value = self.expression(sort, 1);
                vec![self.code.declare("__ensure_ret_0", value)]
            }
            3..=9 => {
                let node = self.last(sort);
                return vec![self.code.bare(node)];
            }
            _ => self.statements(DEPTH),
        };
        let node = self.last(sort);
        match self.rng.below(8) {
            0 => body.push(self.code.statement("ReturnAlone", &[])),
            // With ensures, a bare last expression comes ahead of the others.
            1 | 2 if !ensures || self.rng.one_in(3) => body.push(self.code.bare(node)),
            _ => body.push(self.code.give(node)),
        }
        body
    }

    /// A statement of a kind that no run goes into, over others; mostly under
    /// a condition.
    pub(super) fn passed(&mut self, depth: usize) -> u16 {
        let node = self.expression(Sort::Bool, 1);
        let body = self.statements(depth - 1);
        let body = self.code.builder.list(&body);
        let inner = self.rng.pick(&["Break", "ReturnAlone"]);
        let inner = Field::from(self.code.statement(inner, &[]));
        let text = Field::from(self.code.builder.text(NAMES[0]));
        let made = match self.rng.below(5) {
            0 => self.code.statement("For", &[inner, node.into(), node.into(), body]),
            1 => self.code.statement("ForRange", &[text, inner, body]),
            2 => self.code.statement("ForEach", &[text, node.into(), body]),
            3 => self.code.statement("Other", &[7.into()]),
            _ => {
                let first = self.code.statement("MatchArm", &[node.into(), body]);
                let rest = self.statements(depth - 1);
                let rest = self.code.builder.list(&rest);
                let last = self.code.statement("MatchArm", &[NONE.into(), rest]);
                let arms = self.code.builder.list(&[first, last]);
                self.code.statement("Match", &[node.into(), arms])
            }
        };
        self.guarded(made)
    }
}
