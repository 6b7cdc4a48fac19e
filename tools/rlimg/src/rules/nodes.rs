//! Single expressions.

use super::values::{self, Literal, SORTS};
use super::{Generator, COMPARE, FUNCTIONS, NAMES, STRANGERS};
use crate::image::Value;
use crate::schema::{self, Row, Section, Sort};
use crate::small;

/// A tree of more nodes is not used twice.
const SHARED: usize = 20;

impl Generator<'_> {
    /// An expression that is there already, where a small one is found.
    pub(super) fn shared(&mut self) -> u16 {
        if self.sizes.is_empty() {
            return self.any_literal();
        }
        let node = self.rng.below(self.sizes.len());
        if self.sizes[node] > SHARED {
            self.any_literal()
        } else {
            node as u16
        }
    }

    /// An expression that has no value: one of a kind that is not taken, or
    /// an unsigned literal above the whole numbers.
    pub(super) fn not_taken(&mut self) -> u16 {
        let taken = [17, 18, 19, 20, 21, 22, 23, 24, 25, 26, 27, 28, 30, 32, 33, 34];
        let kinds = schema::rows(Section::Expression).filter(|row| !taken.contains(&row.kind));
        let kinds: Vec<&Row> = kinds.collect();
        if self.rng.one_in(8) {
            let value = (1 << 63) | self.rng.pick(&[0, 1, u64::MAX]);
            return self.node("UInt", &[Value::Number(value)], &[]);
        }
        let row = self.rng.pick(&kinds);
        let mut children = Vec::new();
        let sorts = row.sorts.iter().skip(1);
        let values: Vec<Value> = sorts.map(|sort| self.field(*sort, &mut children)).collect();
        self.node(row.name, &values, &children)
    }

    fn field(&mut self, sort: Sort, children: &mut Vec<u16>) -> Value {
        if sort.is_list() {
            let count = self.rng.pick(&[0, 2]);
            let entries: Vec<u16> = (0..count)
                .map(|position| self.entry(sort.holds_node(position), children))
                .collect();
            return self.builder.list(&entries);
        }
        match sort {
            Sort::Node | Sort::Text => self.entry(sort == Sort::Node, children).into(),
            Sort::Scalar => Value::Number('z' as u64),
            _ => Value::Number(self.rng.number() & (u64::MAX >> (64 - 8 * sort.width()))),
        }
    }

    fn entry(&mut self, is_node: bool, children: &mut Vec<u16>) -> u16 {
        if is_node {
            let child = self.operand(0);
            children.push(child);
            return child;
        }
        let name = self.any_name();
        self.builder.text(name)
    }

    pub(super) fn any_name(&mut self) -> &'static str {
        let any = [self.rng.pick(&NAMES), self.rng.pick(&STRANGERS), self.rng.pick(&FUNCTIONS)];
        match self.names.len() {
            0 => self.rng.pick(&any),
            _ if self.rng.one_in(5) => self.rng.pick(&any),
            _ => self.rng.pick(&self.names),
        }
    }

    pub(super) fn identifier(&mut self) -> u16 {
        let name = self.any_name();
        let name = self.builder.text(name);
        self.node("Identifier", &[name.into()], &[])
    }

    pub(super) fn any_literal(&mut self) -> u16 {
        if self.rng.one_in(5) {
            return self.small();
        }
        let sort = self.rng.below(SORTS);
        let literal = Literal::any(self.rng, sort);
        self.literal(literal)
    }

    /// A small constant at a limit.
    pub(super) fn small(&mut self) -> u16 {
        let small = small::any(self.rng);
        self.node(small.0, &[Value::Number(small::bits(small))], &[])
    }

    pub(super) fn literal(&mut self, literal: Literal) -> u16 {
        let (name, bits) = match literal {
            Literal::Int(value) => values::integer(self.rng, value),
            Literal::Float(value) => values::float(self.rng, value),
            Literal::Str(text) => ("String", u64::from(self.builder.text(text))),
            Literal::Bool(value) => ("Bool", u64::from(value)),
        };
        self.node(name, &[Value::Number(bits)], &[])
    }

    /// Mostly one that means something.
    pub(super) fn any_operator(&mut self) -> u16 {
        let most = self.rng.pick(&[11, 11, 11, 63]);
        1 + self.rng.below(most) as u16
    }

    pub(super) fn compared(&mut self, left: u16, right: u16) -> u16 {
        let operator = COMPARE + self.rng.below(6) as u16;
        self.binary(left, operator, right)
    }

    pub(super) fn binary(&mut self, left: u16, operator: u16, right: u16) -> u16 {
        self.node("Binary", &[left.into(), operator.into(), right.into()], &[left, right])
    }

    pub(super) fn unary(&mut self, operator: u16, operand: u16) -> u16 {
        self.node("Unary", &[operator.into(), operand.into()], &[operand])
    }

    pub(super) fn grouping(&mut self, operand: u16) -> u16 {
        self.node("Grouping", &[operand.into()], &[operand])
    }

    fn node(&mut self, name: &str, values: &[Value], children: &[u16]) -> u16 {
        let below: usize = children.iter().map(|child| self.sizes[usize::from(*child)]).sum();
        self.sizes.push(1 + below);
        let span = self.span();
        self.builder.node(span, name, values)
    }

    pub(super) fn span(&mut self) -> u32 {
        let any = self.rng.number() as u32;
        self.rng.pick(&[0, any, any % 100, any % 10_000, u32::MAX])
    }
}
